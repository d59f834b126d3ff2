/* A peer, or with METHOD its method alone, as a small program has it: all that it
 * calls of the library, with THEIRS wpa_supplicant's peer in its place, and with
 * EMPTY nothing.  For library_size.sh. */
#define _DEFAULT_SOURCE
#include <stdlib.h>
#include <string.h>
#include <unistd.h>
#include "tuvaddri.h"

#if defined(METHOD)
#define BEGIN tuv_peer_method_begin
#define HANDLE tuv_peer_method_handle
#define DONE(turn) ((turn).state == TUV_METHOD_DONE)
typedef struct tuv_method_turn turn_t;
#elif defined(PEER)
#define BEGIN tuv_peer_begin
#define HANDLE tuv_peer_deliver
#define DONE(turn) ((turn).state != TUV_STATE_IDLE)
typedef struct tuv_turn turn_t;
#elif defined(THEIRS)
#include "login.h"
#endif

int main(void)
{
	uint8_t packet[TUV_PACKET_MAX], nonce[TUV_NONCE_LEN];
	void *block = malloc(1);
	ssize_t len;

	if (!block || read(3, nonce, sizeof(nonce)) != sizeof(nonce))
		return 1;
#ifdef BEGIN
	struct tuv_settings told = { .size = sizeof(told) };
	struct tuv_report report = { .size = sizeof(report) };
	struct tuv_end end;

	told.name = told.psk_key = (struct tuv_octets) { nonce, 16 };
	told.gpsk_key = (struct tuv_octets) { nonce, 32 };
	if (!tuv_end_new(&end.at) || BEGIN(&end, &told, nonce) != TUV_OK)
		return 1;
#elif defined(THEIRS)
	struct login login = { .method = 51, .key_len = 32, .peer_name = "alice", .server_name = "srv" };

	memcpy(login.key, nonce, 32);
	if (!register_their_peer(47) || !register_their_peer(51) || !supplicant_peer.open(&login))
		return 1;
#endif
	while ((len = read(0, packet, sizeof(packet))) > 0) {
#ifdef BEGIN
		turn_t turn = HANDLE(&end, packet, (size_t) len);

		len = (ssize_t) tuv_end_packet(&end, packet, sizeof(packet));
		if (DONE(turn) && tuv_peer_report(&end, &report))
			break;
#elif defined(THEIRS)
		struct sent sent = supplicant_peer.take(packet, (size_t) len);

		if (!sent.at)
			break;
		memcpy(packet, sent.at, sent.len);
		len = (ssize_t) sent.len;
#endif
		if (write(1, packet, (size_t) len) != len)
			return 1;
	}
#ifdef BEGIN
	len = write(4, report.msk, sizeof(report.msk));
	tuv_end_free(&end);
#elif defined(THEIRS)
	if (!supplicant_peer.succeeded())
		return 1;
	len = write(4, supplicant_peer.msk(), 64);
	supplicant_peer.close();
#endif
	explicit_bzero(packet, sizeof(packet));
	free(block);
	return len < 0;
}
