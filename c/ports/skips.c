/* Logins by one without the key, whose instructions skips.py leaves out.  ready_END
 * brings an end to where that one's packet comes, attack_END gives it that packet,
 * and what would follow; `said` is what it came to, and judge() asks the end again:
 * 1 where the state is SUCCESS, 2 where there is a report, the sum of both.
 *
 * By `first` every MAC that the end checks is wrong; by `late` those of the first
 * message are the true ones, which one without the key can relay. */
#include <string.h>
#include "tuvaddri.h"

enum { MAC_S_FROM = 22, MAC_S_TO = 38, TAG_FROM = 42 };

struct way {
	uint8_t kind, suite;
	bool late;
};

static const uint8_t key[32] = { 7, 1, 2, 3, 4, 5, 6, 7, 8, 9 };
static const uint8_t other_key[32] = { 8, 1, 2, 3, 4, 5, 6, 7, 8, 9 };
static const struct tuv_octets alice = { (const uint8_t *) "alice", 5 };
static const struct tuv_octets srv = { (const uint8_t *) "srv", 3 };
static const uint8_t nonces[2][TUV_NONCE_LEN] = { { 1, 2, 3 }, { 4, 5, 6 } };

/* Whom the packets are for, and who makes them. */
static struct tuv_end end, other;
static uint8_t packet[TUV_PACKET_MAX], then[TUV_PACKET_MAX];
static size_t len;
static struct tuv_report report;

static struct tuv_settings settings_of(struct way way, const uint8_t *psk, bool is_peer)
{
	struct tuv_settings made = { .size = sizeof(made) };

	made.name = is_peer ? alice : srv;
	made.other = is_peer ? srv : alice;
	made.suites[0] = way.suite;
	if (way.kind == TUV_KIND_PSK)
		made.psk_key = (struct tuv_octets) { psk, 16 };
	else
		made.gpsk_key = (struct tuv_octets) { psk, 32 };
	return made;
}

/* The octets of a MAC of EAP-GPSK, which ends its messages. */
static size_t mac_len(struct way way)
{
	return way.suite == TUV_SUITE_CMAC ? 16 : 32;
}

static void alter(size_t from, size_t to)
{
	for (; from < to; from++)
		packet[from] ^= (uint8_t) (0x5a + from);
}

static bool begin(struct tuv_end *peer, struct tuv_end *server, struct way way, const uint8_t *psk)
{
	struct tuv_settings of_peer = settings_of(way, psk, true);
	struct tuv_settings of_server = settings_of(way, key, false);

	return tuv_end_new(&peer->at) && tuv_end_new(&server->at) &&
		!tuv_peer_begin(peer, &of_peer, nonces[0]) &&
		!tuv_server_begin(server, &of_server, nonces[1], 0, 4);
}

/* The packet of one end comes to the other, which answers. */
static bool pass(struct tuv_end *from, struct tuv_end *to)
{
	len = tuv_end_packet(from, packet, sizeof(packet));
	return tuv_end_deliver(to, packet, len).sends;
}

/* To GPSK-3 or PSK-3. */
static int ready_peer(struct way way)
{
	if (!begin(&end, &other, way, key) || !tuv_server_start(&other).sends)
		return 1;
	for (int turn = 0; turn < 2; turn++)
		if (!pass(&other, &end) || !pass(&end, &other))
			return 2;
	len = tuv_end_packet(&other, packet, sizeof(packet));
	if (way.kind == TUV_KIND_PSK) {
		if (!way.late)
			alter(MAC_S_FROM, MAC_S_TO);
		alter(TAG_FROM, len);
	} else
		alter(len - mac_len(way), len);
	return 0;
}

/* To GPSK-2 or PSK-2 by another key, or by the key to GPSK-4 or PSK-4. */
static int ready_server(struct way way)
{
	if (!begin(&other, &end, way, way.late ? key : other_key) || !tuv_server_start(&end).sends)
		return 1;
	if (!pass(&end, &other) || !pass(&other, &end) || !pass(&end, &other))
		return 2;
	if (way.late && (!pass(&other, &end) || !pass(&end, &other)))
		return 3;
	len = tuv_end_packet(&other, packet, sizeof(packet));
	if (way.late)
		alter(way.kind == TUV_KIND_PSK ? 26 : len - mac_len(way), len);
	return 0;
}

/* GPSK-4 or PSK-4, with any octets for what takes the key. */
static size_t follow(struct way way)
{
	size_t from = way.kind == TUV_KIND_PSK ? 26 : 8, size = from + (way.kind == TUV_KIND_PSK ? 17 : mac_len(way));

	memset(then, 0, sizeof(then));
	then[0] = 2;
	then[1] = (uint8_t) (packet[1] + 1);
	then[3] = (uint8_t) size;
	then[4] = way.kind;
	if (way.kind == TUV_KIND_PSK) {	/* Flags, RAND_S, the nonce 1 */
		then[5] = 0xc0;
		memcpy(then + 6, nonces[1], 16);
		then[25] = 1;
	} else
		then[5] = 4;
	for (size_t at = from; at < size; at++)
		then[at] = (uint8_t) (at * 7);
	return size;
}

static int outcome(struct tuv_turn turn)
{
	report.size = sizeof(report);
	return (turn.state == TUV_STATE_SUCCESS) | tuv_end_report(&end, &report) << 1;
}

int said;

int judge(void)
{
	return said | outcome(tuv_end_deliver(&end, packet, 0));
}

static int attack_peer(void)
{
	const uint8_t success[] = { 3, packet[1], 0, 4 };

	tuv_peer_deliver(&end, packet, len);
	return outcome(tuv_peer_deliver(&end, success, sizeof(success)));
}

static int attack_server(struct way way)
{
	struct tuv_turn turn = tuv_server_deliver(&end, packet, len);

	if (turn.state != TUV_STATE_SUCCESS)
		turn = tuv_server_deliver(&end, then, follow(way));
	return outcome(turn);
}

#define ENDS(name, ...)								\
int ready_peer_##name(void) { return ready_peer((struct way) { __VA_ARGS__ }); }	\
void attack_peer_##name(void) { said = attack_peer(); }				\
int ready_server_##name(void) { return ready_server((struct way) { __VA_ARGS__ }); }	\
void attack_server_##name(void) { said = attack_server((struct way) { __VA_ARGS__ }); }

ENDS(psk, TUV_KIND_PSK, 0, false)
ENDS(gpsk1, TUV_KIND_GPSK, TUV_SUITE_CMAC, false)
ENDS(gpsk2, TUV_KIND_GPSK, TUV_SUITE_HMAC, false)
ENDS(psk_late, TUV_KIND_PSK, 0, true)
ENDS(gpsk1_late, TUV_KIND_GPSK, TUV_SUITE_CMAC, true)
ENDS(gpsk2_late, TUV_KIND_GPSK, TUV_SUITE_HMAC, true)

#define BOTH(name) (void *) ready_peer_##name, (void *) attack_peer_##name, \
	(void *) ready_server_##name, (void *) attack_server_##name

/* (so that the linker leaves none out) */
static volatile size_t any;
static void *const kept[] = {
	BOTH(psk), BOTH(gpsk1), BOTH(gpsk2), BOTH(psk_late), BOTH(gpsk1_late), BOTH(gpsk2_late),
};

int main(void) { return judge() | (kept[any] == NULL); }
