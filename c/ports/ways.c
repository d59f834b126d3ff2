/* ways METHOD SUITE HOW
 *
 * One conversation of both ends, without a word: ways.py compares the blocks of
 * code that it goes through.  Standard input has the key (64 octets), another one,
 * the nonces of the peer and of the server (32 each), and the number of a packet,
 * the place of its octet from the end and what is added to that by xor (1 each).
 * HOW says what comes of it, and the exit status is 0 where it does:
 *
 *	login		both succeed, and report
 *	barred		the server's user is barred
 *	unknown		the server knows another user
 *	other-key	the server has the other key: a packet is discarded
 *	altered		that octet is altered: the packet is discarded
 *	changed		the same, whatever comes of it
 *	control		a comparison of both keys that ends at the first octet
 *			that differs: ways.py must see it */
#include <string.h>
#include <unistd.h>
#include "tuvaddri.h"

static struct {
	uint8_t key[64], other_key[64], peer_nonce[32], server_nonce[32];
	uint8_t packet, place, added;
} given;

static struct tuv_end peer, server;
static struct tuv_settings of_peer, of_server;

static int is(const char *word, const char *how) { return strcmp(word, how) == 0; }

static void take_key(struct tuv_settings *settings, const char *method, const uint8_t *key)
{
	if (is(method, "47"))
		settings->psk_key = (struct tuv_octets) { key, 16 };
	else
		settings->gpsk_key = (struct tuv_octets) { key, 48 };
}

static int begin(const char *method, const char *suite, const char *how)
{
	of_peer.size = sizeof(of_peer);
	of_peer.name = (struct tuv_octets) { (const uint8_t *) "alice", 5 };
	of_peer.other = (struct tuv_octets) { (const uint8_t *) "srv", 3 };
	of_peer.suites[0] = (uint8_t) (suite[0] - '0');
	take_key(&of_peer, method, given.key);
	of_server = of_peer;
	of_server.name = of_peer.other;
	of_server.other = of_peer.name;
	of_server.barred = is(how, "barred");
	if (is(how, "unknown"))
		of_server.other = (struct tuv_octets) { (const uint8_t *) "bob", 3 };
	if (is(how, "other-key"))
		take_key(&of_server, method, given.other_key);
	return tuv_end_new(&peer.at) && tuv_end_new(&server.at) &&
		!tuv_peer_begin(&peer, &of_peer, given.peer_nonce) &&
		!tuv_server_begin(&server, &of_server, given.server_nonce, 0, 4);
}

/* What the last packet came to. */
static struct tuv_turn converse(int altered)
{
	static uint8_t packet[TUV_PACKET_MAX];
	struct tuv_end *from = &server, *to = &peer, *other;
	struct tuv_turn turn = tuv_server_start(&server);
	int count = 0;

	while (turn.sends) {
		size_t len = tuv_end_packet(from, packet, sizeof(packet));

		if (altered && ++count == given.packet && given.place < len)
			packet[len - 1 - given.place] ^= given.added;
		turn = tuv_end_deliver(to, packet, len);
		other = from;
		from = to;
		to = other;
	}
	return turn;
}

static int report(struct tuv_end *end)
{
	static struct tuv_report report;
	uint8_t id[TUV_SESSION_ID_MAX];

	report.size = sizeof(report);
	return tuv_end_report(end, &report) && tuv_end_session_id(end, id) &&
		tuv_end_session_id_wpa(end, id);
}

static int control(void)
{
	const volatile uint8_t *left = given.key, *right = given.other_key;
	int n;

	for (n = 0; n < 64; n++)
		if (left[n] != right[n])
			return 1;
	return 1;
}

int main(int argc, char **argv)
{
	struct tuv_turn turn;
	const char *how;

	if (argc != 4 || read(0, &given, sizeof(given)) != sizeof(given) ||
	    !begin(argv[1], argv[2], argv[3]))
		return 2;
	how = argv[3];
	if (is(how, "control"))
		return !control();
	turn = converse(is(how, "altered") || is(how, "changed"));
	if (is(how, "login"))
		return !(turn.state == TUV_STATE_SUCCESS && report(&peer) && report(&server));
	if (is(how, "changed"))
		return 0;
	if (is(how, "barred") || is(how, "unknown"))
		return !(tuv_end_failure(&server).reason != TUV_FAILURE_NONE && !report(&peer));
	return !turn.discards;
}
