/* talk SEED CONVERSATIONS: logins of a peer at a server by both methods, with altered
 * and cut packets, timeouts, restarts and barred users, all drawn from the seed.  It
 * writes one sum over every answer, packet, report and Session-Id: two builds of the
 * library that answer the same have the same sum. */
#include <stdio.h>
#include <stdlib.h>
#include <string.h>
#include "tuvaddri.h"

enum { STEPS = 16 };

static uint64_t drawn, sum = 14695981039346656037u, answers, reports;
static struct tuv_end ends[2];	/* the peer, the server */
static uint8_t packets[2][TUV_PACKET_MAX];	/* what comes to each */
static size_t lens[2];

static unsigned draw(unsigned most)
{
	drawn = drawn * 6364136223846793005u + 1442695040888963407u;
	return (unsigned) (drawn >> 33) % most;
}

static void fill(uint8_t *at, size_t len)
{
	while (len--)
		*at++ = (uint8_t) draw(256);
}

/* (FNV-1a) */
static void add(const void *at, size_t len)
{
	const uint8_t *octets = at;

	answers++;
	while (len--)
		sum = (sum ^ *octets++) * 1099511628211u;
}

static void add_end(struct tuv_end *end)
{
	struct tuv_report report;
	struct tuv_failure failure = tuv_end_failure(end);
	uint8_t id[TUV_SESSION_ID_MAX];

	memset(&report, 0, sizeof(report));
	report.size = sizeof(report);
	if (tuv_end_report(end, &report))
		reports++;
	add(&report.method, offsetof(struct tuv_report, server_rand) + TUV_RAND_MAX -
	    offsetof(struct tuv_report, method));
	add(&failure, sizeof(failure));
	add(id, tuv_end_session_id(end, id));
	add(id, tuv_end_session_id_wpa(end, id));
}

static struct tuv_octets some_of(const uint8_t *octets)
{
	struct tuv_octets some = { octets, 1 + draw(draw(8) ? 12 : TUV_NAME_MAX) };

	return some;
}

/* Both ends begin: what the server answers. */
static uint8_t begin(void)
{
	static uint8_t key[TUV_KEY_MAX], name[TUV_NAME_MAX], other[TUV_NAME_MAX], nonce[TUV_NONCE_LEN];
	struct tuv_settings peer, server;
	uint8_t answer, id, tries;

	memset(&peer, 0, sizeof(peer));
	peer.size = sizeof(peer);
	fill(key, sizeof(key));
	fill(name, sizeof(name));
	fill(other, sizeof(other));
	peer.name = some_of(name);
	peer.other = some_of(other);
	if (draw(2))
		peer.psk_key = (struct tuv_octets) { key, 16 };
	else
		peer.gpsk_key = (struct tuv_octets) { key, 32 + draw(33) };
	peer.suites[0] = (uint8_t) (draw(4) ? 0 : 1 + draw(2));
	peer.expanded = !draw(3);
	server = peer;
	server.name = peer.other;
	server.other = peer.name;
	server.suites[0] = (uint8_t) draw(3);
	server.barred = !draw(12);
	fill(nonce, sizeof(nonce));
	answer = tuv_peer_begin(&ends[0], &peer, nonce);
	add(&answer, 1);
	fill(nonce, sizeof(nonce));
	id = (uint8_t) draw(256);
	tries = (uint8_t) draw(12);
	answer = tuv_server_begin(&ends[1], &server, nonce, id, tries);
	add(&answer, 1);
	return answer;
}

/* What an end answers; where it sends, the packet comes to the other one. */
static void answered(int by, struct tuv_turn turn)
{
	uint8_t *room = packets[!by];

	add(&turn, sizeof(turn));
	lens[!by] = turn.sends ? tuv_end_packet(&ends[by], room, TUV_PACKET_MAX) : 0;
	add(room, lens[!by]);
}

/* The packet comes with another bit somewhere, sometimes with another length, before
 * it comes as it is. */
static void disturb(int to)
{
	static uint8_t odd[TUV_PACKET_MAX + 20];
	size_t len = draw(3) ? lens[to] : draw((unsigned) lens[to] + 20);
	struct tuv_turn turn;

	memset(odd, 0, sizeof(odd));
	memcpy(odd, packets[to], lens[to]);
	odd[draw((unsigned) lens[to])] ^= (uint8_t) (1 << draw(8));
	turn = tuv_end_deliver(&ends[to], odd, len);
	add(&turn, sizeof(turn));
	add_end(&ends[to]);
}

static void converse(void)
{
	uint8_t nonce[TUV_NONCE_LEN];
	struct tuv_turn turn;
	bool is_noisy = draw(2);
	int step, to;

	answered(1, tuv_server_start(&ends[1]));
	for (step = 0; step < STEPS && lens[step & 1]; step++) {
		to = step & 1;
		if (is_noisy && !draw(4))
			disturb(to);
		answered(to, tuv_end_deliver(&ends[to], packets[to], lens[to]));
		if (is_noisy && !draw(12)) {
			turn = tuv_server_timeout(&ends[1]);
			add(&turn, sizeof(turn));
		}
		if (is_noisy && !draw(40)) {
			fill(nonce, sizeof(nonce));
			turn = tuv_end_restart(&ends[1], nonce);
			add(&turn, sizeof(turn));
		}
	}
	add_end(&ends[0]);
	add_end(&ends[1]);
}

int main(int argc, char **argv)
{
	unsigned long count;

	if (argc != 3 || !tuv_end_new(&ends[0].at) || !tuv_end_new(&ends[1].at))
		return 2;
	drawn = strtoull(argv[1], NULL, 10);
	for (count = strtoul(argv[2], NULL, 10); count; count--)
		if (begin() == TUV_OK)
			converse();
	tuv_end_free(&ends[0]);
	tuv_end_free(&ends[1]);
	printf("%016llx of %llu answers, %llu reports\n", (unsigned long long) sum,
	       (unsigned long long) answers, (unsigned long long) reports);
	return reports == 0;
}
