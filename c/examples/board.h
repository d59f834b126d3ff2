/* What bare_peer.c and bare_server.c ask of a board. */
#ifndef BOARD_H
#define BOARD_H

#include "tuvaddri.h"

/* Whether there is a login to make: the keys of both ends, the suites and fresh
 * random octets for it. */
bool board_begins(struct tuv_settings *settings, uint8_t nonce[TUV_NONCE_LEN]);

/* The next packet that came, and its length; 0 where none comes any more. */
size_t board_receive(uint8_t packet[TUV_PACKET_MAX]);
void board_send(const uint8_t *packet, size_t len);

/* The login has succeeded, or failed where there is no report. */
void board_ends(const struct tuv_report *report);

#endif
