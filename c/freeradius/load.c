/* Logs many users in over RADIUS, by the library's peer, and compares the link keys that come with the peer's MSK.
 *
 *	load PORT SECRET KIND SUITE LOGINS AT_ONCE USERS [THREADS [ALTERED [STATION]]]
 *	load begin PORT SECRET KIND SUITE LOGINS AT_ONCE USERS [STATIONS [TYPE OCTET]]
 *	load keys FORM USERS
 *
 * The server is at 127.0.0.1; the users are user0, user1, .., with the keys that the last form writes, for `users` of
 * FreeRADIUS (freeradius), for SQL (sql), or for hostapd's eap_user_file (gpsk, psk). Of a hundred EAP packets of a
 * method ALTERED have one octet altered. Each login has a Calling-Station-Id of its own, or all have that of STATION. With
 * `begin` each login stops at the method's first Request, and is left open; they come from as many STATIONS, by default from
 * as many as there are logins, and from none of the other form. With a TYPE that Request is answered by a Response of this
 * Type with one octet, a Nak (3) to the method of this number, say, and no answer is waited for.
 *
 * The line at the end has, after the counts and the rate, load's own processor time, and in milliseconds the median of
 * a login, what 99 of a hundred stay below, and the longest. The status is 0 where all are good. */
#define _GNU_SOURCE
#include <arpa/inet.h>
#include <openssl/evp.h>
#include <openssl/hmac.h>
#include <openssl/md5.h>
#include <openssl/sha.h>
#include <pthread.h>
#include <stdio.h>
#include <stdlib.h>
#include <string.h>
#include <sys/epoll.h>
#include <sys/random.h>
#include <sys/resource.h>
#include <sys/socket.h>
#include <time.h>
#include <unistd.h>
#include "tuvaddri.h"

/* Octets of a packet of RADIUS; when and how often a request goes out again; how long a run may take. */
enum { MOST = 4096, RETRY_MS = 2000, TRIES = 5, WHOLE_MS = 300000, SWEEP_MS = 100 };
/* RFC 2865, RFC 3579, RFC 2548. */
enum { REQUEST = 1, ACCEPT = 2, CHALLENGE = 11 };
enum { USER_NAME = 1, NAS_IP_ADDRESS = 4, STATE = 24, VENDOR = 26, STATION = 31, EAP_MESSAGE = 79, AUTHENTICATOR = 80 };
enum { SEND_KEY = 16, RECV_KEY = 17 };

/* What the words say. */
static struct {
	const char *secret, *station;
	int port, kind, suite, logins, at_once, users, threads, altered, stations, type, octet;
	bool only_begins;
} asked = { .threads = 1 };

/* A login that goes on. */
struct slot {
	int fd, user, station, tries;
	bool is_open;
	struct tuv_end end;
	uint8_t request[MOST], state[253], id;
	size_t len, state_len;
	double sent, begun;
};

struct worker {
	pthread_t thread;
	struct slot *slots;
	int first, at_once, todo, begun, good, bad, mismatches, again, ended;
	unsigned seed;
	double *took;
};

/* What a reply carries. */
struct reply {
	uint8_t eap[MOST], tag[16];
	size_t eap_len;
	uint8_t *tag_at;
	const uint8_t *keys[2];	/* MS-MPPE-Recv-Key, MS-MPPE-Send-Key, behind their types and lengths */
	size_t lens[2];
};

static double now_ms(void)
{
	struct timespec t;

	clock_gettime(CLOCK_MONOTONIC, &t);
	return t.tv_sec * 1e3 + t.tv_nsec / 1e6;
}

static void need(bool is_so, const char *what)
{
	if (is_so)
		return;
	perror(what);
	exit(2);
}

static size_t key_of(int kind, int user, uint8_t key[32])
{
	char told[40];
	int len = snprintf(told, sizeof(told), "key of user%d", user);

	SHA256((const uint8_t *) told, len, key);
	return kind == TUV_KIND_PSK ? 16 : 32;
}

/* The request. */

static void put(struct slot *s, int type, const void *at, size_t len)
{
	const uint8_t *from = at;

	/* (EAP-Message alone may be longer than an attribute) */
	do {
		size_t part = len > 253 ? 253 : len;

		s->request[s->len++] = type;
		s->request[s->len++] = part + 2;
		memcpy(s->request + s->len, from, part);
		s->len += part, from += part, len -= part;
	} while (len);
}

static void transmit(struct slot *s)
{
	s->sent = now_ms();
	if (send(s->fd, s->request, s->len, 0) < 0)
		perror("send");
}

static void tag(struct slot *s)
{
	uint8_t zeros[16] = { 0 };
	unsigned made;

	put(s, AUTHENTICATOR, zeros, sizeof(zeros));
	s->request[2] = s->len >> 8;
	s->request[3] = s->len;
	HMAC(EVP_md5(), asked.secret, strlen(asked.secret), s->request, s->len, s->request + s->len - 16, &made);
}

/* An EAP packet goes out as an Access-Request. */
static void ask_by(struct slot *s, const uint8_t *eap, size_t eap_len)
{
	uint8_t ip[4] = { 127, 0, 0, 1 };
	char name[32], station[32];

	s->request[0] = REQUEST;
	s->request[1] = ++s->id;
	need(getrandom(s->request + 4, 16, 0) == 16, "getrandom");
	s->len = 20;
	put(s, USER_NAME, name, snprintf(name, sizeof(name), "user%d", s->user));
	put(s, NAS_IP_ADDRESS, ip, sizeof(ip));
	if (asked.station)
		put(s, STATION, asked.station, strlen(asked.station));
	else
		put(s, STATION, station, snprintf(station, sizeof(station), "02-00-%02X-%02X-%02X-%02X", asked.only_begins,
					  s->station >> 16, s->station >> 8 & 255, s->station & 255));
	put(s, EAP_MESSAGE, eap, eap_len);
	if (s->state_len)
		put(s, STATE, s->state, s->state_len);
	tag(s);
	s->tries = 0;
	transmit(s);
}

static void begin_peer(struct slot *s)
{
	uint8_t nonce[TUV_NONCE_LEN], key[32];
	char name[32];
	size_t len = snprintf(name, sizeof(name), "user%d", s->user);
	struct tuv_octets octets = { key, key_of(asked.kind, s->user, key) };
	struct tuv_settings told = { .size = sizeof(told), .name = { (uint8_t *) name, len } };

	told.methods[0] = asked.kind;
	told.suites[0] = asked.suite;
	*(asked.kind == TUV_KIND_PSK ? &told.psk_key : &told.gpsk_key) = octets;
	need(getrandom(nonce, sizeof(nonce), 0) == sizeof(nonce), "getrandom");
	need(tuv_peer_begin(&s->end, &told, nonce) == TUV_OK, "a peer can't begin");
}

/* The end's packet, perhaps altered. */
static void ask(struct worker *w, struct slot *s)
{
	uint8_t eap[TUV_PACKET_MAX];
	size_t eap_len = tuv_end_packet(&s->end, eap, sizeof(eap));

	if (eap_len > 5 && eap[4] == asked.kind && rand_r(&w->seed) % 100 < asked.altered)
		eap[5 + rand_r(&w->seed) % (eap_len - 5)] ^= 1 << rand_r(&w->seed) % 8;
	ask_by(s, eap, eap_len);
}

/* A Response of another Type to this Request. */
static void ask_otherwise(struct slot *s, const uint8_t *request)
{
	const uint8_t eap[] = { 2, request[1], 0, 6, asked.type, asked.octet };

	ask_by(s, eap, sizeof(eap));
}

/* The next login of a worker begins in a slot, by the answer to a Request for the identity. */
static void open_slot(struct worker *w, struct slot *s)
{
	static const uint8_t identity[] = { 1, 0, 0, 5, 1 };

	if (w->begun >= w->todo)
		return;
	s->station = (w->first + w->begun++) % asked.stations;
	s->user = rand_r(&w->seed) % asked.users;
	s->state_len = 0;
	s->is_open = true;
	s->begun = now_ms();
	begin_peer(s);
	need(tuv_end_deliver(&s->end, identity, sizeof(identity)).sends, "a peer doesn't answer");
	ask(w, s);
}

static void close_slot(struct worker *w, struct slot *s, bool is_good)
{
	w->good += is_good;
	w->bad += !is_good;
	w->took[w->ended++] = now_ms() - s->begun;
	tuv_end_close(&s->end);
	s->is_open = false;
	open_slot(w, s);
}

/* The reply. */

/* The MD5 over the secret and one or two other texts. */
static void digest(const void *one, size_t one_len, const void *two, size_t two_len, uint8_t out[16])
{
	MD5_CTX c;

	MD5_Init(&c);
	MD5_Update(&c, asked.secret, strlen(asked.secret));
	MD5_Update(&c, one, one_len);
	MD5_Update(&c, two, two_len);
	MD5_Final(out, &c);
}

/* RFC 2548 section 2.4.2: whether this key is sealed there by salt, secret and Request Authenticator. */
static bool seals(const struct slot *s, const uint8_t *value, size_t len, const uint8_t key[32])
{
	uint8_t pad[16], plain[48];

	if (len != 2 + sizeof(plain))
		return false;
	for (size_t at = 0; at < sizeof(plain); at += 16) {
		if (at)
			digest(value + 2 + at - 16, 16, "", 0, pad);
		else
			digest(s->request + 4, 16, value, 2, pad);
		for (size_t i = 0; i < 16; i++)
			plain[at + i] = value[2 + at + i] ^ pad[i];
	}
	return plain[0] == 32 && memcmp(plain + 1, key, 32) == 0;
}

static void take_attribute(struct slot *s, struct reply *r, uint8_t type, uint8_t *value, size_t len)
{
	if (type == STATE)
		memcpy(s->state, value, s->state_len = len);
	if (type == EAP_MESSAGE) {
		memcpy(r->eap + r->eap_len, value, len);
		r->eap_len += len;
	}
	if (type == AUTHENTICATOR && len == 16)
		r->tag_at = value;
	if (type == VENDOR && len > 6 && memcmp(value, "\0\0\1\67", 4) == 0 &&
	    (value[4] == SEND_KEY || value[4] == RECV_KEY)) {
		r->keys[value[4] == SEND_KEY] = value + 6;
		r->lens[value[4] == SEND_KEY] = len - 6;
	}
}

/* Whether a packet is the reply to the slot's request: by its Identifier, its Response Authenticator (RFC 2865
 * section 3) and its Message-Authenticator (RFC 3579 section 3.2). */
static bool is_reply(struct slot *s, struct reply *r, uint8_t *p, size_t *len)
{
	uint8_t authenticator[16], made[16];
	unsigned made_len;
	MD5_CTX c;

	if (*len < 20 || p[1] != s->id || (size_t) (p[2] << 8 | p[3]) > *len)
		return false;
	*len = p[2] << 8 | p[3];
	memcpy(authenticator, p + 4, 16);
	memcpy(p + 4, s->request + 4, 16);
	MD5_Init(&c);
	MD5_Update(&c, p, *len);
	MD5_Update(&c, asked.secret, strlen(asked.secret));
	MD5_Final(made, &c);
	if (memcmp(made, authenticator, 16) != 0)
		return false;
	s->state_len = 0;
	for (size_t i = 20; i + 2 <= *len && p[i + 1] >= 2 && i + p[i + 1] <= *len; i += p[i + 1])
		take_attribute(s, r, p[i], p + i + 2, p[i + 1] - 2);
	if (!r->tag_at)
		return false;
	memcpy(r->tag, r->tag_at, 16);
	memset(r->tag_at, 0, 16);
	HMAC(EVP_md5(), asked.secret, strlen(asked.secret), p, *len, made, &made_len);
	return memcmp(made, r->tag, 16) == 0;
}

static bool has_same_keys(const struct slot *s, const struct reply *r, const struct tuv_report *report)
{
	return r->keys[0] && r->keys[1] && seals(s, r->keys[0], r->lens[0], report->msk) &&
		seals(s, r->keys[1], r->lens[1], report->msk + 32);
}

static void hear(struct worker *w, struct slot *s, uint8_t *p, size_t len)
{
	struct reply r = { .eap_len = 0 };
	struct tuv_report report = { .size = sizeof(report) };
	struct tuv_turn turn;

	if (!s->is_open || !is_reply(s, &r, p, &len))
		return;
	turn = tuv_end_deliver(&s->end, r.eap, r.eap_len);
	if (p[0] == CHALLENGE && asked.only_begins) {
		if (asked.type)
			ask_otherwise(s, r.eap);
		close_slot(w, s, turn.sends);
	} else if (p[0] == CHALLENGE && turn.sends) {
		ask(w, s);
	} else if (p[0] == ACCEPT && turn.state == TUV_STATE_SUCCESS && tuv_end_report(&s->end, &report)) {
		w->mismatches += !has_same_keys(s, &r, &report);
		close_slot(w, s, true);
	} else {
		close_slot(w, s, false);
	}
}

/* The workers. */

static void listen_to(struct slot *s, int poll)
{
	struct sockaddr_in to = { .sin_family = AF_INET, .sin_port = htons(asked.port) };
	struct epoll_event event = { .events = EPOLLIN, .data.ptr = s };

	to.sin_addr.s_addr = htonl(INADDR_LOOPBACK);
	s->fd = socket(AF_INET, SOCK_DGRAM | SOCK_NONBLOCK, 0);
	need(s->fd >= 0 && connect(s->fd, (struct sockaddr *) &to, sizeof(to)) == 0, "socket");
	need(epoll_ctl(poll, EPOLL_CTL_ADD, s->fd, &event) == 0, "epoll_ctl");
	need(tuv_end_new(&s->end.at), "an end can't be made");
}

/* What isn't answered is sent again, or given up. */
static void sweep(struct worker *w, double now)
{
	for (int i = 0; i < w->at_once; i++) {
		struct slot *s = &w->slots[i];

		if (!s->is_open || now - s->sent < RETRY_MS)
			continue;
		if (++s->tries >= TRIES) {
			close_slot(w, s, false);
		} else {
			w->again++;
			transmit(s);
		}
	}
}

static void serve(struct worker *w, int poll)
{
	double swept = now_ms(), until = swept + WHOLE_MS;

	while (w->ended < w->todo && now_ms() < until) {
		struct epoll_event ready[64];
		int count = epoll_wait(poll, ready, 64, SWEEP_MS);

		for (int i = 0; i < count; i++) {
			struct slot *s = ready[i].data.ptr;
			uint8_t packet[MOST];
			ssize_t len = recv(s->fd, packet, sizeof(packet), 0);

			if (len > 0)
				hear(w, s, packet, len);
		}
		if (now_ms() - swept >= SWEEP_MS) {
			swept = now_ms();
			sweep(w, swept);
		}
	}
}

static void *work(void *told)
{
	struct worker *w = told;
	int poll = epoll_create1(0);

	need(poll >= 0, "epoll_create1");
	for (int i = 0; i < w->at_once; i++) {
		listen_to(&w->slots[i], poll);
		open_slot(w, &w->slots[i]);
	}
	serve(w, poll);
	for (int i = 0; i < w->at_once; i++) {
		close(w->slots[i].fd);
		tuv_end_close(&w->slots[i].end);
		free(w->slots[i].end.at);
	}
	close(poll);
	return NULL;
}

static void start(struct worker *w, int number)
{
	w->seed = number + 1;
	w->at_once = asked.at_once / asked.threads;
	w->todo = asked.logins / asked.threads;
	w->first = number * w->todo;
	w->slots = calloc(w->at_once, sizeof(*w->slots));
	w->took = calloc(w->todo + 1, sizeof(*w->took));
	need(w->slots && w->took, "calloc");
	need(pthread_create(&w->thread, NULL, work, w) == 0, "pthread_create");
}

/* The keys of the users. */

static void write_hex(const uint8_t *at, size_t len)
{
	while (len--)
		printf("%02x", *at++);
}

static void write_user(char form, int user)
{
	static const char *const insert = "INSERT INTO radcheck (username, attribute, op, value) VALUES ";
	uint8_t key[32];

	key_of(TUV_KIND_GPSK, user, key);
	if (form == 'g' || form == 'p') {
		printf("\"user%d\" %s ", user, form == 'p' ? "PSK" : "GPSK");
		write_hex(key, form == 'p' ? 16 : 32);
		puts("");
		return;
	}
	if (form == 'f')
		printf("user%d\tTuvaddri-GPSK-Key := 0x", user);
	else
		printf("%s('user%d','Tuvaddri-GPSK-Key',':=','0x", insert, user);
	write_hex(key, 32);
	if (form == 'f')
		printf(", Tuvaddri-PSK-Key := 0x");
	else
		printf("'),('user%d','Tuvaddri-PSK-Key',':=','0x", user);
	write_hex(key, 16);
	puts(form == 'f' ? "" : "');");
}

/* The words, and what came of it. */

static int usage(void)
{
	fputs("usage: load PORT SECRET KIND SUITE LOGINS AT_ONCE USERS [THREADS [ALTERED [STATION]]]\n"
	      "       load begin PORT SECRET KIND SUITE LOGINS AT_ONCE USERS [STATIONS [TYPE OCTET]]\n"
	      "       load keys freeradius|sql|gpsk|psk USERS\n", stderr);
	return 2;
}

static int number_of(const char *word, int least, int most)
{
	char *end;
	long value = strtol(word, &end, 10);

	if (*word < '0' || *word > '9' || *end || value < least || value > most) {
		fprintf(stderr, "load: '%s' is no number of %d to %d\n", word, least, most);
		exit(2);
	}
	return value;
}

static void read_words(int count, char **words)
{
	asked.port = number_of(words[0], 1, 65535);
	asked.secret = words[1];
	asked.kind = number_of(words[2], TUV_KIND_PSK, TUV_KIND_GPSK);
	asked.suite = number_of(words[3], 0, 2);
	asked.logins = number_of(words[4], 1, 1000000);
	asked.at_once = number_of(words[5], 1, 10000);
	asked.users = number_of(words[6], 1, 1000000);
	asked.stations = asked.logins;
	if (count > 7 && asked.only_begins)
		asked.stations = number_of(words[7], 1, 1000000);
	else if (count > 7)
		asked.threads = number_of(words[7], 1, 64);
	if (count > 9 && !asked.only_begins) {
		asked.altered = number_of(words[8], 0, 100);
		asked.station = words[9];
	} else if (count > 9) {
		asked.type = number_of(words[8], 3, 255);
		asked.octet = number_of(words[9], 0, 255);
	} else if (count > 8) {
		asked.altered = number_of(words[8], 0, 100);
	}
}

static int compare(const void *one, const void *two)
{
	double a = *(const double *) one, b = *(const double *) two;

	return (a > b) - (a < b);
}

/* The workers' counts in one, and the time of each login in order. */
static struct worker sum(struct worker *workers)
{
	struct worker all = { .took = calloc(asked.logins, sizeof(double)) };

	need(all.took, "calloc");
	for (int i = 0; i < asked.threads; i++) {
		struct worker *w = &workers[i];

		pthread_join(w->thread, NULL);
		all.good += w->good, all.bad += w->bad, all.mismatches += w->mismatches, all.again += w->again;
		memcpy(all.took + all.ended, w->took, w->ended * sizeof(double));
		all.ended += w->ended;
	}
	qsort(all.took, all.ended, sizeof(double), compare);
	return all;
}

static int run(void)
{
	struct worker workers[64] = { 0 };
	double begun = now_ms(), seconds, client;
	struct rusage used;
	struct worker all;

	for (int i = 0; i < asked.threads; i++)
		start(&workers[i], i);
	all = sum(workers);
	seconds = (now_ms() - begun) / 1e3;
	getrusage(RUSAGE_SELF, &used);
	client = used.ru_utime.tv_sec + used.ru_stime.tv_sec + (used.ru_utime.tv_usec + used.ru_stime.tv_usec) / 1e6;
	printf("%d logins: %d good, %d bad, %d mppe mismatches, %d sent again; %.3f s, %.0f logins/s, client %.3f s, ",
	       asked.logins, all.good, all.bad, all.mismatches, all.again, seconds, all.ended / seconds, client);
	printf("ms %.2f %.2f %.2f\n", all.ended ? all.took[all.ended / 2] : 0, all.ended ? all.took[all.ended * 99 / 100] : 0,
	       all.ended ? all.took[all.ended - 1] : 0);
	return all.good != asked.logins / asked.threads * asked.threads || all.mismatches;
}

int main(int argc, char **argv)
{
	if (argc == 4 && strcmp(argv[1], "keys") == 0) {
		int users = number_of(argv[3], 1, 1000000);

		for (int i = 0; i < users; i++)
			write_user(argv[2][0], i);
		return 0;
	}
	asked.only_begins = argc > 1 && strcmp(argv[1], "begin") == 0;
	argc -= asked.only_begins, argv += asked.only_begins;
	if (argc < 8 || argc > 11 || (asked.only_begins && argc == 10))
		return usage();
	read_words(argc - 1, argv + 1);
	return run();
}
