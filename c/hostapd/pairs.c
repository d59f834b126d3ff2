/* pairs PEER SERVER METHOD SUITE LOGINS
 * pairs PEER SERVER METHOD SUITE altered
 * pairs PEER SERVER METHOD SUITE clear stop
 *
 * PEER and SERVER: h for their machine with their method, m for their machine
 * with the library's method, o for the library's own end. METHOD 47 or 51,
 * SUITE 1 or 2 for 51 and 0 for 47.
 *
 * LOGINS logins, each with a key and nonces of its own: all succeed at both
 * ends, with the same MSK and EMSK; the processor's time of each is printed. With
 * `altered` one login over and over, in which each octet of each packet is altered
 * once: two successes never have different keys. With `clear stop` three logins by
 * the keys on standard input, 16 octets for EAP-PSK and 48 for EAP-GPSK, whose
 * packets are written for ../secrets.py; the process then stops, so that its memory
 * can be searched. The exit status is 0 where that holds. */
#define _DEFAULT_SOURCE
#include <signal.h>
#include <stdio.h>
#include <stdlib.h>
#include <string.h>
#include <time.h>
#include <unistd.h>
#include "login.h"

static unsigned int seed = 1;
static const struct side *peer, *server;

int os_get_random(unsigned char *at, size_t len)
{
	while (len--) {
		*at++ = seed >> 24;
		seed = seed * 1664525u + 1013904223u;
	}
	return 0;
}

/* The octet that is altered: of which packet, counted from 1, and where in it.
 * Packet 0: none. */
struct change {
	unsigned int packet, at;
	/* Whether there was such an octet, and such a packet. */
	bool was_made, was_reached;
	/* Whether each packet is printed. */
	bool prints;
};

static struct sent changed(struct sent packet, unsigned int count,
			   struct change *change)
{
	static unsigned char altered[2048];
	size_t i;

	if (change->prints && packet.at) {
		printf("packet ");
		for (i = 0; i < packet.len; i++)
			printf("%02x", packet.at[i]);
		putchar('\n');
	}
	if (!packet.at || count != change->packet)
		return packet;
	change->was_reached = true;
	if (change->at >= packet.len || packet.len > sizeof(altered))
		return packet;
	memcpy(altered, packet.at, packet.len);
	altered[change->at] ^= 1;
	change->was_made = true;
	packet.at = altered;
	return packet;
}

/* Carries what the two sides send until one sends nothing; the packets. */
static unsigned int converse(struct change *change)
{
	unsigned int count = 0;
	struct sent packet = server->first();

	while (packet.at) {
		packet = changed(packet, ++count, change);
		packet = peer->take(packet.at, packet.len);
		if (!packet.at)
			break;
		packet = changed(packet, ++count, change);
		packet = server->take(packet.at, packet.len);
	}
	return count;
}

static bool both_succeeded(void)
{
	return peer->succeeded() && server->succeeded();
}

static bool same(const unsigned char *a, const unsigned char *b)
{
	return a && b && memcmp(a, b, 64) == 0;
}

static bool open_both(const struct login *login)
{
	return server->open(login) && peer->open(login);
}

static void close_both(void)
{
	peer->close();
	server->close();
}

static double processor_time(void)
{
	struct timespec at;

	clock_gettime(CLOCK_PROCESS_CPUTIME_ID, &at);
	return (double) at.tv_sec + (double) at.tv_nsec / 1e9;
}

static int run(struct login *login, int logins)
{
	struct change none = { 0 };
	unsigned int packets = 0;
	int i, good = 0;
	double began = processor_time();

	for (i = 0; i < logins; i++) {
		os_get_random(login->key, login->key_len);
		if (!open_both(login))
			return 3;
		packets += converse(&none);
		good += both_succeeded() && same(peer->msk(), server->msk()) &&
			same(peer->emsk(), server->emsk());
		close_both();
	}
	printf("logins %d, with the same MSK and EMSK %d, packets %u, microseconds each %.3f\n",
	       logins, good, packets, (processor_time() - began) * 1e6 / logins);
	return good == logins ? 0 : 1;
}

static int run_and_stop(struct login *login)
{
	struct change none = { .prints = true };
	unsigned char keys[128];
	int i;

	if (read(0, keys, sizeof(keys)) != (ssize_t) sizeof(keys))
		return 2;
	login->key_len = login->method == 47 ? 16 : 48;
	memcpy(login->key, keys + (login->method == 47 ? 0 : 16), login->key_len);
	explicit_bzero(keys, sizeof(keys));
	for (i = 0; i < 3; i++) {
		if (!open_both(login))
			return 3;
		converse(&none);
		if (!both_succeeded() || !same(peer->msk(), server->msk()))
			return 1;
		close_both();
	}
	explicit_bzero(login->key, sizeof(login->key));
	fflush(stdout);
	raise(SIGSTOP);
	return 0;
}

static int run_altered(struct login *login)
{
	struct change change = { .packet = 1 };
	long agree = 0, differ = 0, one = 0, none = 0;
	unsigned int fresh;

	os_get_random(login->key, login->key_len);
	fresh = seed;
	for (;;) {
		seed = fresh;
		change.was_made = change.was_reached = false;
		if (!open_both(login))
			return 3;
		converse(&change);
		if (change.was_made) {
			if (!both_succeeded())
				peer->succeeded() || server->succeeded() ? one++
									 : none++;
			else if (same(peer->msk(), server->msk()))
				agree++;
			else
				differ++;
		}
		close_both();
		if (!change.was_reached)
			break;
		change.packet += !change.was_made;
		change.at = change.was_made ? change.at + 1 : 0;
	}
	printf("octets altered %ld: both succeed with the same MSK %ld, with different ones %ld, one alone %ld, none %ld\n",
	       agree + differ + one + none, agree, differ, one, none);
	return differ ? 1 : 0;
}

/* The side by its letter, over a method that is registered for it. */
static const struct side *side_of(char letter, int method,
				  const struct side *theirs,
				  const struct side *own,
				  bool (*register_theirs)(int),
				  bool (*register_ours)(int))
{
	if (letter == 'o')
		return own;
	return (letter == 'm' ? register_ours : register_theirs)(method)
		? theirs : NULL;
}

/* A number up to `most`, or -1. */
static long number_of(const char *word, long most)
{
	char *end;
	long number = strtol(word, &end, 10);

	return *word && !*end && number >= 0 && number <= most ? number : -1;
}

int main(int argc, char *argv[])
{
	struct login login;
	long logins;
	bool alters, stops = argc == 7 && strcmp(argv[6], "stop") == 0;

	if (argc != 6 && !stops)
		return 2;
	memset(&login, 0, sizeof(login));
	login.method = number_of(argv[3], 51);
	login.suite = number_of(argv[4], 2);
	alters = strcmp(argv[5], "altered") == 0;
	logins = alters || stops ? 0 : number_of(argv[5], 1000000);
	if ((login.method != 47 && login.method != 51) || login.suite < 0 || logins < 0)
		return 2;
	login.key_len = login.method == 47 ? 16 : 32;
	login.peer_name = "alice";
	login.server_name = "srv";
	peer = side_of(argv[1][0], login.method, &supplicant_peer,
		       &library_peer, register_their_peer, register_our_peer);
	server = side_of(argv[2][0], login.method, &hostapd_server,
			 &library_server, register_their_server,
			 register_our_server);
	if (!peer || !server)
		return 3;
	if (stops)
		return run_and_stop(&login);
	printf("peer %s server %s method %s suite %s: ", argv[1], argv[2],
	       argv[3], argv[4]);
	return alters ? run_altered(&login) : run(&login, logins);
}
