/* library_speed METHOD SUITE LOGINS
 *
 * Logs a peer in at a stand-alone server so many times, by METHOD (47 or 51) and
 * SUITE (1 or 2; 0 for EAP-PSK): both handles are made, begun, reported, closed,
 * cleared and freed each time, and the stack is cleared.  The exit status is 0 if
 * each login gave both ends the same report. */
#define _DEFAULT_SOURCE
#include <stdbool.h>
#include <stdlib.h>
#include <string.h>
#include "tuvaddri.h"

static const uint8_t key[32] = { 1, 2, 3 };
static const struct tuv_octets alice = { (const uint8_t *) "alice", 5 };
static const struct tuv_octets srv = { (const uint8_t *) "srv", 3 };

static void converse(struct tuv_end *from, struct tuv_end *to, struct tuv_turn turn)
{
	uint8_t packet[TUV_PACKET_MAX];
	struct tuv_end *other;
	size_t len;

	while (turn.sends) {
		len = tuv_end_packet(from, packet, sizeof(packet));
		turn = tuv_end_deliver(to, packet, len);
		other = from;
		from = to;
		to = other;
	}
}

static bool agree(struct tuv_end *peer, struct tuv_end *server)
{
	struct tuv_report one = { .size = sizeof(one) };
	struct tuv_report other = { .size = sizeof(other) };
	bool same = tuv_end_report(peer, &one) &&
		tuv_end_report(server, &other) &&
		memcmp(&one, &other, sizeof(one)) == 0;

	explicit_bzero(&one, sizeof(one));
	explicit_bzero(&other, sizeof(other));
	return same;
}

static bool log_in(const struct tuv_settings *of_peer,
		   const struct tuv_settings *of_server, uint32_t number)
{
	uint8_t nonces[2][TUV_NONCE_LEN] = { { 3 }, { 4 } };
	struct tuv_end peer, server;
	bool good;

	memcpy(nonces[0] + 1, &number, sizeof(number));
	memcpy(nonces[1] + 1, &number, sizeof(number));
	if (!tuv_end_new(&peer.at) || !tuv_end_new(&server.at))
		return false;
	good = !tuv_peer_begin(&peer, of_peer, nonces[0]) &&
		!tuv_server_begin(&server, of_server, nonces[1], 0, 4);
	if (good) {
		converse(&server, &peer, tuv_server_start(&server));
		good = agree(&peer, &server);
	}
	tuv_end_free(&peer);
	tuv_end_free(&server);
	return good;
}

int main(int argc, char *argv[])
{
	struct tuv_settings peer = { .size = sizeof(peer) }, server;
	uint32_t left;

	if (argc != 4)
		return 2;
	peer.name = alice;
	peer.other = srv;
	peer.suites[0] = (uint8_t) atol(argv[2]);
	if (strcmp(argv[1], "47") == 0)
		peer.psk_key = (struct tuv_octets) { key, 16 };
	else
		peer.gpsk_key = (struct tuv_octets) { key, 32 };
	server = peer;
	server.name = srv;
	server.other = alice;
	for (left = (uint32_t) atol(argv[3]); left; left--)
		if (!log_in(&peer, &server, left))
			return 1;
	return 0;
}
