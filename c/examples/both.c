/* both METHOD SUITE KEY PEER-NONCE SERVER-NONCE [PEER-NONCE SERVER-NONCE].. [through]
 *
 * Logs the peer alice in at the server srv, by METHOD (47 or 51) and SUITE (1 or
 * 2; 0 for any), with a key and nonces in hex; where more nonces are given they
 * log in again by a restart, with these.  It prints each packet as `octets HEX`,
 * then the names, MSK, EMSK and Session-Id of the peer and of the server.  With
 * `through` a pass-through stands between the peer and a backend, which begins
 * with the user of the Identity Response.  The exit status is 0 where both
 * succeed with the same report each time. */
#define _DEFAULT_SOURCE
#include <stdio.h>
#include <stdlib.h>
#include <string.h>
#include "tuvaddri.h"

/* The ends, what they are told, and what their next login begins with. */
struct ends {
	struct tuv_end peer, server, pass;
	struct tuv_settings told_peer, told_server;
	uint8_t peer_nonce[TUV_NONCE_LEN], server_nonce[TUV_NONCE_LEN];
};

static int digit_of(char c)
{
	static const char digits[] = "0123456789abcdef";
	const char *at = c ? strchr(digits, c) : NULL;

	return at ? (int) (at - digits) : -1;
}

/* The octets of a word in hex; 0 if it is none, or has more than there is room. */
static size_t octets_of(const char *hex, uint8_t *out, size_t room)
{
	size_t n, len = strlen(hex) / 2;

	if (len > room || strlen(hex) % 2 != 0)
		return 0;
	for (n = 0; n < len; n++) {
		int high = digit_of(hex[2 * n]), low = digit_of(hex[2 * n + 1]);

		if (high < 0 || low < 0)
			return 0;
		out[n] = (uint8_t) (high << 4 | low);
	}
	return len;
}

static void print(const char *word, const uint8_t *octets, size_t len)
{
	printf("%s ", word);
	while (len--)
		printf("%02x", *octets++);
	printf("\n");
}

/* Carries what the peer and the stand-alone server send until one sends
 * nothing; the first packet is the server's. */
static void converse(struct ends *e, struct tuv_turn turn)
{
	struct tuv_end *from = &e->server, *to = &e->peer, *other;
	uint8_t packet[TUV_PACKET_MAX];
	size_t len;

	while (turn.sends) {
		len = tuv_end_packet(from, packet, sizeof(packet));
		print("octets", packet, len);
		turn = tuv_end_deliver(to, packet, len);
		other = from;
		from = to;
		to = other;
	}
}

/* The user is looked up by the Type-Data of the Identity Response.  The backend
 * begins with it, or again where it is the same user's. */
static int begin_backend(struct ends *e, const uint8_t *packet, size_t len,
			 int again)
{
	if (len != 5 + e->told_server.other.len ||
	    memcmp(packet + 5, e->told_server.other.at, len - 5) != 0)
		return 1;	/* no such user */
	if (again)
		return tuv_server_restart(&e->server, e->server_nonce).misplaced;
	return tuv_backend_begin(&e->server, &e->told_server, e->server_nonce);
}

/* The same through a pass-through, whose packet is the first.  The first that it
 * carries is the Identity Response. */
static int converse_through(struct ends *e, struct tuv_turn turn, int again)
{
	uint8_t packet[TUV_PACKET_MAX];
	size_t len;
	int begun = 0;

	for (;;) {
		if (!turn.sends)
			return !begun;
		len = tuv_end_packet(&e->pass, packet, sizeof(packet));
		print("octets", packet, len);
		turn = tuv_peer_deliver(&e->peer, packet, len);
		if (!turn.sends)
			return !begun;
		len = tuv_end_packet(&e->peer, packet, sizeof(packet));
		print("octets", packet, len);
		turn = tuv_pass_from_peer(&e->pass, packet, len);
		if (!turn.sends)
			return !begun;
		len = tuv_end_packet(&e->pass, packet, sizeof(packet));
		if (!begun && begin_backend(e, packet, len, again))
			return 1;
		begun = 1;
		turn = tuv_server_deliver(&e->server, packet, len);
		if (!turn.sends)
			return 1;
		len = tuv_end_packet(&e->server, packet, sizeof(packet));
		turn = tuv_pass_from_backend(&e->pass, packet, len);
	}
}

/* The first login, for which the ends begin. */
static int log_in(struct ends *e, int through)
{
	if (tuv_peer_begin(&e->peer, &e->told_peer, e->peer_nonce))
		return 1;
	if (through) {
		if (tuv_pass_begin(&e->pass, 0, 4))
			return 1;
		return converse_through(e, tuv_pass_start(&e->pass), 0);
	}
	if (tuv_server_begin(&e->server, &e->told_server, e->server_nonce, 0, 4))
		return 1;
	converse(e, tuv_server_start(&e->server));
	return 0;
}

/* One that follows: each end begins a new conversation, with what it was told. */
static int log_in_again(struct ends *e, int through)
{
	if (tuv_peer_restart(&e->peer, e->peer_nonce).misplaced)
		return 1;
	if (through)
		return converse_through(e, tuv_pass_restart(&e->pass), 1);
	converse(e, tuv_server_restart(&e->server, e->server_nonce));
	return 0;
}

static void print_report(const char *who, struct tuv_end *end,
			 const struct tuv_report *report)
{
	uint8_t id[TUV_SESSION_ID_MAX];
	size_t len;

	printf("%s\nmethod %d suite %d\n", who, report->method, report->suite);
	print("peer-name", report->peer, report->peer_length);
	print("server-name", report->server, report->server_length);
	print("msk", report->msk, sizeof(report->msk));
	print("emsk", report->emsk, sizeof(report->emsk));
	len = tuv_end_session_id(end, id);
	print("session-id", id, len);
}

/* Whether the two ends report the same; what was reported is cleared. */
static int agree(struct ends *e)
{
	struct tuv_report peer, server;
	int same = 0;

	memset(&peer, 0, sizeof(peer));
	memset(&server, 0, sizeof(server));
	peer.size = server.size = sizeof(peer);
	if (tuv_peer_report(&e->peer, &peer) &&
	    tuv_server_report(&e->server, &server)) {
		print_report("peer", &e->peer, &peer);
		print_report("server", &e->server, &server);
		same = memcmp(&peer, &server, sizeof(peer)) == 0;
	}
	explicit_bzero(&peer, sizeof(peer));
	explicit_bzero(&server, sizeof(server));
	return same;
}

static const struct tuv_octets alice = { (const uint8_t *) "alice", 5 };
static const struct tuv_octets srv = { (const uint8_t *) "srv", 3 };

/* What both are told: one method, with its key, and one suite or any. */
static int set_up(struct ends *e, const char *method, const char *suite,
		  const char *hex, uint8_t key[TUV_KEY_MAX])
{
	struct tuv_settings *told = &e->told_peer;
	struct tuv_octets octets = { key, octets_of(hex, key, TUV_KEY_MAX) };

	memset(e, 0, sizeof(*e));
	told->size = sizeof(*told);
	told->name = alice;
	told->other = srv;
	if (strcmp(method, "47") == 0)
		told->psk_key = octets;
	else if (strcmp(method, "51") == 0)
		told->gpsk_key = octets;
	if (strlen(suite) != 1 || suite[0] < '0' || suite[0] > '2')
		return 2;
	told->suites[0] = suite[0] - '0';
	e->told_server = *told;
	e->told_server.name = srv;
	e->told_server.other = alice;
	if (tuv_end_new(&e->peer.at) && tuv_end_new(&e->server.at) &&
	    tuv_end_new(&e->pass.at))
		return 0;
	return 5;
}

/* A login with these nonces. */
static int log_in_by(struct ends *e, char *nonces[2], int first, int through)
{
	if (octets_of(nonces[0], e->peer_nonce, TUV_NONCE_LEN) != TUV_NONCE_LEN ||
	    octets_of(nonces[1], e->server_nonce, TUV_NONCE_LEN) != TUV_NONCE_LEN)
		return 2;
	if (first ? log_in(e, through) : log_in_again(e, through))
		return 1;
	return !agree(e);
}

int main(int argc, char *argv[])
{
	uint8_t key[TUV_KEY_MAX];
	struct ends e;
	int at, failed;
	int through = strcmp(argv[argc - 1], "through") == 0;

	if (argc < 6 || (argc - through) % 2 != 0)
		return 2;
	failed = set_up(&e, argv[1], argv[2], argv[3], key);
	if (failed)
		return failed;
	for (at = 4; !failed && at + 1 < argc; at += 2)
		failed = log_in_by(&e, argv + at, at == 4, through);
	tuv_end_free(&e.peer);
	tuv_end_free(&e.server);
	tuv_end_free(&e.pass);
	explicit_bzero(key, sizeof(key));
	return failed;
}
