/* One login, and both of its sides as pairs.c drives them: over the machines of
 * hostapd and wpa_supplicant, or over the library's. */
#ifndef LOGIN_H
#define LOGIN_H
#include <stdbool.h>
#include <stddef.h>

struct login {
	int method;		/* 47 or 51 */
	int suite;		/* 1 or 2 for 51; 0 for 47 */
	unsigned char key[64];
	size_t key_len;
	const char *peer_name, *server_name;
};

/* Octets that a side made; they stay until its next call. Null: none. */
struct sent {
	const unsigned char *at;
	size_t len;
};

struct side {
	/* False where it can't begin. */
	bool (*open)(const struct login *login);
	void (*close)(void);
	/* What a server sends of itself; of a peer null. */
	struct sent (*first)(void);
	struct sent (*take)(const unsigned char *octets, size_t len);
	bool (*succeeded)(void);
	/* 64 octets, or null; the EMSK is asked for after the MSK. */
	const unsigned char *(*msk)(void);
	const unsigned char *(*emsk)(void);
};

/* The machines of wpa_supplicant and hostapd, over the methods registered with
 * them, and the library's ends. */
extern const struct side supplicant_peer, hostapd_server;
extern const struct side library_peer, library_server;

/* Registers a method with them: theirs, or the library's. */
bool register_their_peer(int method);
bool register_their_server(int method);
bool register_our_peer(int method);
bool register_our_server(int method);

/* The random octets of a run, from a seed. Theirs come from here too. */
int os_get_random(unsigned char *at, size_t len);

#endif
