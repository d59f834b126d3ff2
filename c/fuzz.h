/* What fuzz.c and its model of tuvaddri.h share. */
#ifndef FUZZ_H
#define FUZZ_H
#include "tuvaddri.h"

enum handle { PEER, SERVER, PASS, HANDLES };
enum call { DELIVER, PEER_METHOD, SERVER_METHOD, FROM_PEER, FROM_BACKEND,
	    START, TIMEOUT, IDLE, ACCEPT, REJECT, PASS_START, PASS_TIMEOUT,
	    AAA_TIMEOUT, AAA_NOREQ, RESTART, PASS_RESTART, CALLS };
enum setting { ALONE, THROUGH, METHODS };
enum role { CLOSED, A_PEER, A_SERVER, A_BACKEND, A_PASS, A_PEER_METHOD,
	    A_SERVER_METHOD };

/* What the header says of `size`: that of the first structs, and what is read at
 * most. */
enum { SETTINGS_FIRST = sizeof(void *) == 8 ? 80 : 44, SETTINGS_MOST = 4096,
       REPORT_FIRST = sizeof(void *) == 8 ? 712 : 708 };

struct packet {
	uint8_t octets[TUV_PACKET_MAX + 4];
	size_t len;
};

/* What is known of the end behind a handle. */
struct model {
	enum role role;
	uint8_t state;		/* of a machine */
	bool sends;		/* its last turn */
	struct packet last;	/* sent since its begin or restart */
	uint8_t nonce[TUV_NONCE_LEN];
};

/* How a login ends that nothing disturbs. */
enum outcome { ANY, STUCK, SUCCEEDS, UNKNOWN, BARRED, NO_METHOD };

/* The login that is tried: what both ends are told, its user, who becomes known
 * after so many packets (0: he is in the settings), and whether the keys agree. */
extern struct model models[HANDLES];
extern enum setting setting;
extern struct tuv_settings told[2], user;
extern unsigned int user_after;
extern bool keys_agree;

/* Whether a machine has ended in this state. */
bool is_over(uint8_t at);

/* Whether the header gives this call a place at this end. */
bool has_place(const struct model *m, enum call c);

/* Whether a machine stands in such a state between two calls. */
bool stands(enum role role, uint8_t at);

/* What a begin of this handle makes of it. */
enum role role_of(enum handle h);

/* What the header says that a begin answers, if there is memory, and a user. */
uint8_t judged(enum handle h, const struct tuv_settings *s, uint8_t retries);
uint8_t judged_user(enum handle h, const struct tuv_settings *s, bool by_method);

bool has_method(const struct tuv_settings *s, uint8_t method);

/* The one method of a method alone. */
uint8_t first_method(const struct tuv_settings *s);

/* How this login ends if nothing disturbs it, and its method. */
enum outcome expected(uint8_t *method);

#endif
