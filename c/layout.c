/* Writes where each field of the header's structs lies, and its size: what the
 * packages for other languages are held against. */
#include <stdio.h>
#include "tuvaddri.h"

#define SIZE(name) printf(#name " %zu\n", sizeof(struct tuv_##name))
#define FIELD(name, field)                                                     \
	printf(#name "." #field " %zu %zu\n",                                  \
	       offsetof(struct tuv_##name, field),                             \
	       sizeof(((struct tuv_##name *) 0)->field))

static void write_settings(void)
{
	SIZE(settings);
	FIELD(settings, size);
	FIELD(settings, name);
	FIELD(settings, other);
	FIELD(settings, psk_key);
	FIELD(settings, gpsk_key);
	FIELD(settings, methods);
	FIELD(settings, suites);
	FIELD(settings, expanded);
	FIELD(settings, barred);
}

static void write_report(void)
{
	SIZE(report);
	FIELD(report, size);
	FIELD(report, method);
	FIELD(report, suite);
	FIELD(report, peer_length);
	FIELD(report, server_length);
	FIELD(report, peer);
	FIELD(report, server);
	FIELD(report, msk);
	FIELD(report, emsk);
	FIELD(report, rand_length);
	FIELD(report, peer_rand);
	FIELD(report, server_rand);
}

static void write_turns(void)
{
	SIZE(turn);
	FIELD(turn, sends);
	FIELD(turn, discards);
	FIELD(turn, misplaced);
	FIELD(turn, cause);
	FIELD(turn, state);
	SIZE(method_turn);
	FIELD(method_turn, sends);
	FIELD(method_turn, discards);
	FIELD(method_turn, misplaced);
	FIELD(method_turn, cause);
	FIELD(method_turn, state);
	FIELD(method_turn, decision);
}

static void write_of_802_1x(void)
{
	SIZE(supplicant_turn);
	FIELD(supplicant_turn, sends);
	FIELD(supplicant_turn, discards);
	FIELD(supplicant_turn, misplaced);
	FIELD(supplicant_turn, took_nonce);
	FIELD(supplicant_turn, authorized);
	FIELD(supplicant_turn, cause);
	FIELD(supplicant_turn, state);
	SIZE(port_turn);
	FIELD(port_turn, to_station);
	FIELD(port_turn, to_server);
	FIELD(port_turn, discards);
	FIELD(port_turn, misplaced);
	FIELD(port_turn, authorized);
	FIELD(port_turn, awaits_server);
	FIELD(port_turn, cause);
	FIELD(port_turn, state);
	SIZE(supplicant_limits);
	FIELD(supplicant_limits, start_period);
	FIELD(supplicant_limits, max_start);
	FIELD(supplicant_limits, auth_period);
	FIELD(supplicant_limits, held_period);
	FIELD(supplicant_limits, port_valid);
	SIZE(port_limits);
	FIELD(port_limits, quiet_period);
	FIELD(port_limits, server_timeout);
	FIELD(port_limits, retrans_period);
	FIELD(port_limits, re_auth_period);
	FIELD(port_limits, re_auth_max);
}

int main(void)
{
	SIZE(end);
	FIELD(end, at);
	SIZE(octets);
	FIELD(octets, at);
	FIELD(octets, len);
	write_settings();
	write_report();
	write_turns();
	SIZE(failure);
	FIELD(failure, reason);
	FIELD(failure, code);
	write_of_802_1x();
	printf("limits %d %d %d %d %d %d %d %d\n", TUV_VERSION, TUV_PACKET_MAX,
	       TUV_NAME_MAX, TUV_KEY_MAX, TUV_NONCE_LEN, TUV_RAND_MAX,
	       TUV_SESSION_ID_MAX, TUV_FRAME_MAX);
	return 0;
}
