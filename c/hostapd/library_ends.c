/* The library's own peer and stand-alone server, as the sides of a login. */
#define _DEFAULT_SOURCE
#include <stdlib.h>
#include <string.h>
#include "tuvaddri.h"
#include "login.h"

struct own {
	struct tuv_end end;
	struct tuv_turn turn;
	struct tuv_report report;
	bool has_report;
	uint8_t packet[TUV_PACKET_MAX];
};

static struct own peer, server;

static struct tuv_octets name_of(const char *text)
{
	return (struct tuv_octets) { (const uint8_t *) text, strlen(text) };
}

static struct tuv_settings settings_of(const struct login *login)
{
	struct tuv_settings told;
	struct tuv_octets key = { login->key, login->key_len };

	memset(&told, 0, sizeof(told));
	told.size = sizeof(told);
	told.name = name_of(login->peer_name);
	told.other = name_of(login->server_name);
	if (login->method == TUV_KIND_PSK)
		told.psk_key = key;
	else
		told.gpsk_key = key;
	told.suites[0] = login->suite;
	return told;
}

static bool open_peer(const struct login *login)
{
	struct tuv_settings told = settings_of(login);
	uint8_t nonce[TUV_NONCE_LEN];

	os_get_random(nonce, sizeof(nonce));
	memset(&peer.turn, 0, sizeof(peer.turn));
	return tuv_end_new(&peer.end.at) &&
		tuv_peer_begin(&peer.end, &told, nonce) == TUV_OK;
}

/* It offers both suites, as hostapd's server does. */
static bool open_server(const struct login *login)
{
	struct tuv_settings told = settings_of(login);
	struct tuv_octets name = told.other;
	uint8_t nonce[TUV_NONCE_LEN];

	os_get_random(nonce, sizeof(nonce));
	told.other = told.name;
	told.name = name;
	told.suites[0] = 0;
	memset(&server.turn, 0, sizeof(server.turn));
	return tuv_end_new(&server.end.at) &&
		tuv_server_begin(&server.end, &told, nonce, 0, 5) == TUV_OK;
}

static void close_end(struct own *own)
{
	tuv_end_free(&own->end);
}

static void close_peer(void)
{
	close_end(&peer);
}

static void close_server(void)
{
	close_end(&server);
}

static struct sent sent(struct own *own)
{
	struct sent packet = { NULL, 0 };

	if (own->turn.sends) {
		packet.len = tuv_end_packet(&own->end, own->packet,
					    sizeof(own->packet));
		packet.at = own->packet;
	}
	return packet;
}

static struct sent first(void)
{
	server.turn = tuv_server_start(&server.end);
	return sent(&server);
}

static struct sent peer_takes(const unsigned char *octets, size_t len)
{
	peer.turn = tuv_end_deliver(&peer.end, octets, len);
	return sent(&peer);
}

static struct sent server_takes(const unsigned char *octets, size_t len)
{
	server.turn = tuv_end_deliver(&server.end, octets, len);
	return sent(&server);
}

static bool peer_succeeded(void)
{
	return peer.turn.state == TUV_STATE_SUCCESS;
}

static bool server_succeeded(void)
{
	return server.turn.state == TUV_STATE_SUCCESS;
}

/* One report has both keys: the EMSK is asked for after the MSK. */
static const unsigned char *msk_of(struct own *own)
{
	own->report.size = sizeof(own->report);
	own->has_report = tuv_end_report(&own->end, &own->report);
	return own->has_report ? own->report.msk : NULL;
}

static const unsigned char *peer_msk(void)
{
	return msk_of(&peer);
}

static const unsigned char *server_msk(void)
{
	return msk_of(&server);
}

static const unsigned char *peer_emsk(void)
{
	return peer.has_report ? peer.report.emsk : NULL;
}

static const unsigned char *server_emsk(void)
{
	return server.has_report ? server.report.emsk : NULL;
}

const struct side library_peer = {
	.open = open_peer,
	.close = close_peer,
	.take = peer_takes,
	.succeeded = peer_succeeded,
	.msk = peer_msk,
	.emsk = peer_emsk,
};

const struct side library_server = {
	.open = open_server,
	.close = close_server,
	.first = first,
	.take = server_takes,
	.succeeded = server_succeeded,
	.msk = server_msk,
	.emsk = server_emsk,
};
