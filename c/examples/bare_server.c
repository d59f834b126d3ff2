/* A stand-alone server of one user on a machine without a system, as bare_peer.c. */
#define _DEFAULT_SOURCE
#include <string.h>
#include "board.h"

static struct tuv_end server;
static struct tuv_settings settings;
static struct tuv_report report;
static uint8_t packet[TUV_PACKET_MAX], nonce[TUV_NONCE_LEN];

/* (Where nothing comes in time, tuv_server_timeout sends the last packet again.) */
static bool succeeds(void)
{
	struct tuv_turn turn = tuv_server_start(&server);
	size_t len;

	for (;;) {
		if (turn.sends) {
			len = tuv_end_packet(&server, packet, sizeof(packet));
			board_send(packet, len);
		}
		if (turn.state != TUV_STATE_IDLE)
			break;
		len = board_receive(packet);
		turn = len ? tuv_server_deliver(&server, packet, len) : tuv_server_timeout(&server);
	}
	report.size = sizeof(report);
	return turn.state == TUV_STATE_SUCCESS && tuv_server_report(&server, &report);
}

int main(void)
{
	if (!tuv_end_new(&server.at))
		return 1;
	for (;;) {
		memset(&settings, 0, sizeof(settings));
		settings.size = sizeof(settings);
		settings.name = (struct tuv_octets) { (const uint8_t *) "srv", 3 };
		settings.other = (struct tuv_octets) { (const uint8_t *) "alice", 5 };
		if (!board_begins(&settings, nonce))
			break;
		if (tuv_server_begin(&server, &settings, nonce, 0, 4))
			return 1;
		board_ends(succeeds() ? &report : NULL);
		explicit_bzero(&report, sizeof(report));
	}
	tuv_end_free(&server);
	return 0;
}
