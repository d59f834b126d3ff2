/* A peer on a machine without a system: it logs alice in at srv, with a heap in an
 * array (../pool.c) and what board.h asks of the board. */
#define _DEFAULT_SOURCE
#include <string.h>
#include "board.h"

static struct tuv_end peer;
static struct tuv_settings settings;
static struct tuv_report report;
static uint8_t packet[TUV_PACKET_MAX], nonce[TUV_NONCE_LEN];

static bool succeeds(void)
{
	struct tuv_turn turn = { 0 };
	size_t len;

	while ((len = board_receive(packet)) != 0) {
		turn = tuv_peer_deliver(&peer, packet, len);
		if (!turn.sends)
			continue;
		len = tuv_end_packet(&peer, packet, sizeof(packet));
		board_send(packet, len);
	}
	report.size = sizeof(report);
	return turn.state == TUV_STATE_SUCCESS && tuv_peer_report(&peer, &report);
}

int main(void)
{
	if (!tuv_end_new(&peer.at))
		return 1;
	for (;;) {
		memset(&settings, 0, sizeof(settings));
		settings.size = sizeof(settings);
		settings.name = (struct tuv_octets) { (const uint8_t *) "alice", 5 };
		settings.other = (struct tuv_octets) { (const uint8_t *) "srv", 3 };
		if (!board_begins(&settings, nonce))
			break;
		if (tuv_peer_begin(&peer, &settings, nonce))
			return 1;
		board_ends(succeeds() ? &report : NULL);
		explicit_bzero(&report, sizeof(report));
	}
	tuv_end_free(&peer);
	return 0;
}
