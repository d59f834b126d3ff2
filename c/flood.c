/* The server and the peer of docs/EMBEDDING.md.  Under a stranger who sends one bad
 * packet each 0.3 seconds the server ends as it does in silence, after as many
 * Requests and as long; and it tells apart why a login fails, a wrong key within five
 * seconds.  The peer logs in each time that a server asks anew.  The clock is one that `receive` sets, and heap.c is
 * compiled with -Dmalloc=flood_malloc.  The exit status is 0 where all of this
 * holds. */
#include <stdio.h>
#include <stdlib.h>
#include <string.h>
#include "tuvaddri.h"

const char *serve(const struct tuv_settings *settings,
		  void (*send)(const uint8_t *, size_t),
		  size_t (*receive)(uint8_t *, size_t, double until),
		  double (*now)(void), struct tuv_report *report);
void log_in(const struct tuv_settings *settings,
	    void (*send)(const uint8_t *, size_t), size_t (*receive)(uint8_t *, size_t),
	    void (*tell)(const char *why, const struct tuv_report *report));

static double clock, between;	/* seconds; between two packets, 0: there are none */
static unsigned int requests, packets;
static struct tuv_end peer;	/* closed: nobody answers */
static uint8_t answer[TUV_PACKET_MAX];
static size_t answer_len;
static bool starves;

void *flood_malloc(size_t size);

void *flood_malloc(size_t size)
{
	return starves ? NULL : malloc(size);
}

static void send(const uint8_t *packet, size_t len)
{
	if (len > 4 && packet[0] == 1)
		requests++;
	tuv_end_deliver(&peer, packet, len);
	answer_len = tuv_end_packet(&peer, answer, sizeof(answer));
}

static size_t receive(uint8_t *packet, size_t room, double until)
{
	size_t len = answer_len;

	memcpy(packet, answer, len);
	answer_len = 0;
	if (len)
		return len;
	if (between == 0 || clock + between > until || packets > 10000) {
		clock = until;
		return 0;
	}
	clock += between;
	packets++;
	memset(packet, 0, room);
	return 1;
}

static double now(void)
{
	return clock;
}

static struct tuv_octets octets_of(const char *text)
{
	return (struct tuv_octets) { (const uint8_t *) text, strlen(text) };
}

static struct tuv_settings told(const char *name, const char *other, const char *key)
{
	struct tuv_settings settings = { .size = sizeof(settings) };

	settings.name = octets_of(name);
	settings.other = octets_of(other);
	settings.gpsk_key = octets_of(key);
	return settings;
}

/* Whether a server with this key ends with this word, or succeeds. */
static bool ends(const char *name, const char *key, const char *word)
{
	struct tuv_settings settings = told(name, "alice", key);
	struct tuv_report report = { .size = sizeof(report) };
	const char *why;

	requests = packets = 0;
	clock = 0;
	why = serve(&settings, send, receive, now, &report);
	if (why ? word && strcmp(why, word) == 0 : !word)
		return true;
	printf("flood: a login ends with %s, and not with %s\n",
	       why ? why : "success", word ? word : "success");
	return false;
}

/* The same with a peer of this name and key. */
static bool answered(const char *name, const char *key, const char *word)
{
	static const uint8_t nonce[TUV_NONCE_LEN] = "a nonce of one login of a test..";
	struct tuv_settings settings = told(name, "srv", key);
	bool good = tuv_peer_begin(&peer, &settings, nonce) == TUV_OK &&
		ends("srv", "32 octets that both ends share..", word);

	tuv_end_close(&peer);
	return good;
}

static bool in_time(void)
{
	printf("flood: a wrong key is told after %.1f s\n", clock);
	return clock <= 5;
}

static bool flooded(void)
{
	unsigned int in_silence;
	double lasted;

	if (!ends("srv", "32 octets that both ends share..", "Timeout"))
		return false;
	in_silence = requests;
	lasted = clock;
	between = 0.3;
	if (!ends("srv", "32 octets that both ends share..", "Timeout"))
		return false;
	between = 0;
	printf("flood: %u bad packets, %u Requests in %.1f s; in silence %u in %.1f s\n",
	       packets, requests, clock, in_silence, lasted);
	return in_silence > 1 && packets > in_silence && requests == in_silence &&
		clock == lasted;
}

/* A server, which asks anew when a login is over, and how the peer's logins went. */
enum { ASKED = 5 };
static struct tuv_end server;
static unsigned int conversations, logins;
static bool asks;
static const char *told_last;

static void answer_server(const uint8_t *packet, size_t len)
{
	asks = tuv_server_deliver(&server, packet, len).sends;
}

static size_t receive_of_server(uint8_t *packet, size_t room)
{
	uint8_t nonce[TUV_NONCE_LEN] = { 9 };

	if (!asks && conversations < ASKED) {
		nonce[1] = (uint8_t) ++conversations;
		asks = tuv_server_restart(&server, nonce).sends;
	}
	if (!asks)
		return 0;
	asks = false;
	return tuv_end_packet(&server, packet, room);
}

static void note(const char *why, const struct tuv_report *report)
{
	told_last = why;
	logins += !why && report->method == TUV_KIND_GPSK;
}

/* Whether a peer with this key logs in so often at that server, and is told this. */
static bool is_asked(const char *key, const char *other, unsigned int often, const char *word)
{
	static const uint8_t nonce[TUV_NONCE_LEN] = "another nonce of a test .......";
	struct tuv_settings of_server = told("srv", other, "32 octets that both ends share..");
	struct tuv_settings of_peer = told("alice", "srv", key);

	conversations = logins = 0;
	asks = false;
	told_last = NULL;
	if (!tuv_end_new(&server.at) || tuv_server_begin(&server, &of_server, nonce, 0, 4))
		return false;
	log_in(&of_peer, answer_server, receive_of_server, note);
	tuv_end_free(&server);
	if (logins == often && (told_last ? word && strcmp(told_last, word) == 0 : !word))
		return true;
	printf("flood: %u logins, and at last %s\n", logins, told_last ? told_last : "nothing");
	return false;
}

int main(void)
{
	bool good;

	if (!tuv_end_new(&peer.at))
		return 5;
	good = flooded() &&
		answered("alice", "32 octets that both ends share..", NULL) &&
		answered("alice", "32 octets, and of another one ..", "BadTag") && in_time() &&
		answered("bob", "32 octets that both ends share..", "UnknownUser") &&
		ends("", "32 octets that both ends share..", "BadName") &&
		ends("srv", "a short key", "BadKey") &&
		is_asked("32 octets that both ends share..", "alice", ASKED, NULL) &&
		is_asked("32 octets that both ends share..", "bob", 0, "Refused") &&
		is_asked("32 octets, and of another one ..", "alice", 0, NULL) &&
		is_asked("a short key", "alice", 0, "BadKey");
	starves = true;
	good = good && ends("srv", "32 octets that both ends share..", "NoMemory");
	free(peer.at);
	return good ? 0 : 1;
}
