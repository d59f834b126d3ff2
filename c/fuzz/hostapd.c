/* Both methods inside hostapd's and wpa_supplicant's machines, by libFuzzer: the first
 * octet of an input chooses the login, the others what becomes of each packet. Two ends
 * that succeed have the same MSK and EMSK. */
#define _DEFAULT_SOURCE
#include <stdio.h>
#include <stdlib.h>
#include <string.h>
#include "login.h"

enum { TURNS = 24, ROOM = 2048, KEY = 64 };

/* What is left of the input. */
struct input {
	const unsigned char *at;
	size_t len;
};

static unsigned int seed;

int LLVMFuzzerTestOneInput(const unsigned char *data, size_t len);

int os_get_random(unsigned char *at, size_t len)
{
	while (len--) {
		*at++ = seed >> 24;
		seed = seed * 1664525u + 1013904223u;
	}
	return 0;
}

static void fail(const char *why)
{
	fprintf(stderr, "%s\n", why);
	abort();
}

static unsigned int next(struct input *input)
{
	if (!input->len)
		return 0;
	input->len--;
	return *input->at++;
}

/* The octets that come in place of a packet's: as they are, one altered, fewer, more,
 * with another length in them, or of the input alone. */
static size_t changed(unsigned char room[ROOM], size_t len, unsigned int how, struct input *input)
{
	size_t i, more = next(input);

	switch (len ? how : 5) {
	case 1:
		room[(more << 8 | next(input)) % len] ^= next(input);
		return len;
	case 2:
		return more * len / 256;
	case 3:
		more = len + more < ROOM ? more : 0;
		memset(room + len, 0x5a, more);
		return len + more;
	case 4:
		if (len > 3)
			room[3] = more;
		return len;
	case 5:
		for (i = 0; i < more; i++)
			room[i] = next(input);
		if (more > 3 && next(input) & 1) {
			room[2] = 0;
			room[3] = more;
		}
		return more;
	default:
		return len;
	}
}

/* The side takes these octets, maybe twice; what it sends then. (Behind their last one
 * lies nothing that may be read.) */
static struct sent given(const struct side *to, const unsigned char *octets, size_t len, bool twice)
{
	unsigned char *tight = malloc(len ? len : 1);
	struct sent sent;

	if (!tight)
		fail("no memory");
	memcpy(tight, octets, len);
	if (twice)
		to->take(tight, len);
	sent = to->take(tight, len);
	free(tight);
	return sent;
}

static void converse(struct input *input)
{
	unsigned char room[ROOM];
	struct sent packet = hostapd_server.first();
	int turn;

	for (turn = 0; turn < TURNS && (packet.at || input->len); turn++) {
		unsigned int how = next(input);
		size_t len = packet.at && packet.len < ROOM ? packet.len : 0;

		memcpy(room, packet.at ? packet.at : room, len);
		if (how & 7 || !len)
			len = changed(room, len, how & 7, input);
		packet = given(turn & 1 ? &hostapd_server : &supplicant_peer, room, len, how >> 3 == 31);
	}
}

static void have_same(const unsigned char *(*of_peer)(void), const unsigned char *(*of_server)(void), const char *why)
{
	unsigned char kept[KEY];
	const unsigned char *key = of_peer();

	if (!key)
		fail(why);
	memcpy(kept, key, KEY);
	key = of_server();
	if (!key || memcmp(kept, key, KEY))
		fail(why);
}

static void register_all(void)
{
	static bool is_done;
	static const int methods[] = { 47, 51 };
	int i;

	for (i = 0; i < 2 && !is_done; i++)
		if (!register_our_peer(methods[i]) || !register_our_server(methods[i]))
			fail("the methods can't be registered");
	is_done = true;
}

int LLVMFuzzerTestOneInput(const unsigned char *data, size_t len)
{
	struct input input = { data, len };
	struct login login = { .peer_name = "peer", .server_name = "server" };
	unsigned int which = next(&input);

	register_all();
	login.method = which & 1 ? 51 : 47;
	login.suite = which & 1 ? 1 + (which >> 1 & 1) : 0;
	login.key_len = which & 1 ? 32 : 16;
	seed = which;
	os_get_random(login.key, login.key_len);
	if (!supplicant_peer.open(&login) || !hostapd_server.open(&login))
		fail("a side can't begin");
	converse(&input);
	if (supplicant_peer.succeeded() && hostapd_server.succeeded()) {
		have_same(supplicant_peer.msk, hostapd_server.msk, "two successes without the same MSK");
		have_same(supplicant_peer.emsk, hostapd_server.emsk, "two successes without the same EMSK");
	}
	supplicant_peer.close();
	hostapd_server.close();
	return 0;
}
