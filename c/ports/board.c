/* The board of examples/bare_peer.c and bare_server.c under qemu: it hands the
 * packets of logins that x86-64's library made (packets.py), compares what is sent
 * and reported with these, and prints the memory and the stack that were taken.
 * With BOARD_NONE it does nothing, for the size of the code. */
#include <string.h>
#include "board.h"

#ifdef BOARD_NONE
static volatile size_t any;

bool board_begins(struct tuv_settings *settings, uint8_t nonce[TUV_NONCE_LEN])
{
	settings->suites[0] = nonce[0] = (uint8_t) any;
	return any;
}

size_t board_receive(uint8_t packet[TUV_PACKET_MAX]) { packet[0] = (uint8_t) any; return any; }
void board_send(const uint8_t *packet, size_t len) { any = packet[0] + len; }
void board_ends(const struct tuv_report *report) { any = report != NULL; }

#else
#include <stdio.h>
#include <stdlib.h>

struct packet {
	size_t len;
	const uint8_t *octets;
};

/* A login: its packets, the first the server's. */
struct login {
	uint8_t method, suite, key[48], nonces[2][TUV_NONCE_LEN], msk[64];
	struct packet packets[10];
};

#include "packets.h"

/* (What is looked at, painted somewhat deeper, since the looks' own frames differ.) */
enum { NEAR = 256, DEEP = 20480, PAINTED = DEEP + 1024, PAINT = 0xa5 };

size_t pool_most(void);

static const struct login *login;
static int next;
static size_t stack;

static void fail(const char *why)
{
	printf("login of %d, packet %d: %s\n", login->method, next, why);
	exit(1);
}

/* What was called since the last look went down to where the paint is gone. */
__attribute__((noinline)) static void look(void)
{
	volatile uint8_t *top = __builtin_frame_address(0);
	size_t depth;

	for (depth = DEEP; depth > NEAR && *(top - depth) == PAINT; depth--)
		;
	if (login && depth > stack)
		stack = depth;
	for (depth = NEAR; depth <= PAINTED; depth++)
		*(top - depth) = PAINT;
}

bool board_begins(struct tuv_settings *settings, uint8_t nonce[TUV_NONCE_LEN])
{
	const struct login *end = logins + sizeof(logins) / sizeof(*logins);

	if (login == end) {
		printf("memory %u stack %u\n", (unsigned) pool_most(), (unsigned) stack);
		return false;
	}
	look();
	if (!login)
		login = logins;
	next = 0;
	if (login->method == TUV_KIND_PSK)
		settings->psk_key = (struct tuv_octets) { login->key, 16 };
	else
		settings->gpsk_key = (struct tuv_octets) { login->key, sizeof(login->key) };
	settings->suites[0] = login->suite;
	memcpy(nonce, login->nonces[IS_SERVER], TUV_NONCE_LEN);
	return true;
}

size_t board_receive(uint8_t packet[TUV_PACKET_MAX])
{
	struct packet came = login->packets[next];

	look();
	if (came.len == 0)
		return 0;
	if (next % 2 != !!IS_SERVER)
		fail("it isn't awaited");
	memcpy(packet, came.octets, came.len);
	next++;
	return came.len;
}

void board_send(const uint8_t *packet, size_t len)
{
	struct packet made = login->packets[next];

	look();
	if (next % 2 != !IS_SERVER || made.len != len || memcmp(made.octets, packet, len) != 0)
		fail("another one is sent");
	next++;
}

void board_ends(const struct tuv_report *report)
{
	look();
	if (!report || login->packets[next].len || memcmp(report->msk, login->msk, sizeof(login->msk)) != 0)
		fail("it ends otherwise");
	login++;
}
#endif
