/* secrets METHOD SUITE keep|clear|short [stop]
 *
 * Runs logins by METHOD (47 or 51) and SUITE (1 or 2; 0 for 47) in every way
 * that a key can go: alone, again by a restart, with altered packets, with other
 * keys, of unknown and barred users, after a Nak, in Expanded Types, through a
 * pass-through, at a port, by the methods alone, refused, and cut off.  Standard input has
 * 128 octets: the keys of EAP-PSK and of EAP-GPSK that both ends share, 16 and
 * 48, and two others.
 * Each packet is written as `packet HEX`, and after a login that succeeds both
 * Session-Ids.
 *
 * For memcheck the keys are undefined, and what goes out is defined again: it is
 * public.  At the end all is closed, cleared and freed, with `clear` the stack too as
 * tuvaddri.h says, with `short` by tuv_clear_stack wherever the calls were made.
 * With `stop` the process then stops, so that its memory can be searched, and no
 * call may have gone deeper into the stack than TUV_STACK_MAX.  The exit status is 0
 * where each way ended as it should.
 *
 * SECRETS_DEPTH in the environment is how many octets deeper than the clear the calls
 * are made.  With SECRETS_SIGNALS a timer sends a signal each 30 microseconds, and
 * on x86-64 one comes at each instruction of the clear. */
#define _DEFAULT_SOURCE
#include <signal.h>
#include <stdio.h>
#include <stdlib.h>
#include <string.h>
#include <sys/random.h>
#include <sys/time.h>
#include <unistd.h>
#include "stack_paint.h"
#include "tuvaddri.h"
#if defined(__has_include) && __has_include(<valgrind/memcheck.h>)
#include <valgrind/memcheck.h>
#else
#define VALGRIND_MAKE_MEM_UNDEFINED(at, len) ((void) (at), (void) (len))
#define VALGRIND_MAKE_MEM_DEFINED(at, len) ((void) (at), (void) (len))
#endif

struct keys {
	uint8_t psk[16], gpsk[48];
};

static struct keys shared, others;
static struct tuv_end peer, server, pass;
static struct tuv_settings of_peer, of_server;
static uint8_t method, suite;

static void fail(const char *why)
{
	printf("secrets: %s\n", why);
	exit(1);
}

static void expect(int good, const char *what)
{
	if (!good)
		fail(what);
}

static struct tuv_octets name_of(const char *text)
{
	return (struct tuv_octets) { (const uint8_t *) text, strlen(text) };
}

/* The keys for the one method, or for both. */
static void take_keys(struct tuv_settings *s, const struct keys *keys, int both)
{
	s->psk_key = s->gpsk_key = TUV_ANY;
	if (both || method == TUV_KIND_PSK)
		s->psk_key = (struct tuv_octets) { keys->psk, sizeof(keys->psk) };
	if (both || method == TUV_KIND_GPSK)
		s->gpsk_key = (struct tuv_octets) { keys->gpsk, sizeof(keys->gpsk) };
}

static void set_up(void)
{
	memset(&of_peer, 0, sizeof(of_peer));
	of_peer.size = sizeof(of_peer);
	of_peer.name = name_of("alice");
	of_peer.other = name_of("srv");
	of_peer.methods[0] = method;
	of_peer.suites[0] = suite;
	take_keys(&of_peer, &shared, 0);
	of_server = of_peer;
	of_server.name = of_peer.other;
	of_server.other = of_peer.name;
}

static const uint8_t *fresh(void)
{
	static uint8_t nonce[TUV_NONCE_LEN];

	if (getrandom(nonce, sizeof(nonce), 0) != sizeof(nonce))
		exit(5);
	return nonce;
}

static void print(const char *word, const uint8_t *at, size_t len)
{
	size_t i;

	printf("%s ", word);
	for (i = 0; i < len; i++)
		printf("%02x", at[i]);
	putchar('\n');
}

/* The packet of an end's last turn, which is public from here on. */
static size_t take(struct tuv_end *end, uint8_t packet[TUV_PACKET_MAX])
{
	size_t len = tuv_end_packet(end, packet, TUV_PACKET_MAX);

	VALGRIND_MAKE_MEM_DEFINED(packet, len);
	print("packet", packet, len);
	return len;
}

static uint8_t octets[TUV_PACKET_MAX];
static unsigned int count, altered;

/* Takes what an end sends; in the packet of number `altered` one octet of the
 * last 16 is another. */
static size_t carried(struct tuv_end *end)
{
	size_t len = take(end, octets);

	if (++count == altered && len > 16)
		octets[len - 7] ^= 4;
	return len;
}

/* Why an end has failed, which a program may ask at any time: it is public. */
static uint8_t reason(struct tuv_end *end)
{
	struct tuv_failure why = tuv_end_failure(end);

	VALGRIND_MAKE_MEM_DEFINED(&why, sizeof(why));
	return why.reason;
}

/* Whether no end says that it has failed. */
static int none_failed(void)
{
	uint8_t at_peer = reason(&peer), at_server = reason(&server);

	return at_peer == TUV_FAILURE_NONE && at_server == TUV_FAILURE_NONE;
}

/* From a server's turn on, until the server has ended: its timer ends where
 * nothing is on its way. The states of both. */
static void converse(struct tuv_turn turn, uint8_t *at_peer, uint8_t *at_server)
{
	unsigned int round;

	*at_peer = TUV_STATE_IDLE;
	*at_server = turn.state;
	for (round = 0; round < 40; round++) {
		struct tuv_turn answer = { 0 };

		if (turn.sends) {
			answer = tuv_end_deliver(&peer, octets, carried(&server));
			*at_peer = answer.state;
		}
		none_failed();
		if (turn.state != TUV_STATE_IDLE)
			return;
		turn = answer.sends
			? tuv_end_deliver(&server, octets, carried(&peer))
			: tuv_server_timeout(&server);
		*at_server = turn.state;
	}
	fail("a server never ends");
}

/* Whether both ends have the same Session-Ids, which are public and printed. */
static int identify(void)
{
	static uint8_t ids[4][TUV_SESSION_ID_MAX];
	size_t len;

	memset(ids, 0, sizeof(ids));
	len = tuv_end_session_id(&peer, ids[0]);
	if (len != tuv_end_session_id(&server, ids[1]) ||
	    len != tuv_end_session_id_wpa(&peer, ids[2]) ||
	    len != tuv_end_session_id_wpa(&server, ids[3]))
		return 0;
	VALGRIND_MAKE_MEM_DEFINED(ids, sizeof(ids));
	print("session-id", ids[0], len);
	print("session-id-wpa", ids[2], len);
	return len && memcmp(ids[0], ids[1], len) == 0 && memcmp(ids[2], ids[3], len) == 0;
}

/* Whether both ends report the same; what they report is cleared. */
static int agree(void)
{
	static struct tuv_report reports[2];
	int same;

	memset(reports, 0, sizeof(reports));
	reports[0].size = reports[1].size = sizeof(struct tuv_report);
	same = none_failed() && tuv_end_report(&peer, &reports[0]) &&
		tuv_end_report(&server, &reports[1]);
	VALGRIND_MAKE_MEM_DEFINED(reports, sizeof(reports));
	same = same && memcmp(&reports[0], &reports[1], sizeof(reports[0])) == 0 &&
		identify();
	explicit_bzero(reports, sizeof(reports));
	return same;
}

static void begin_both(void)
{
	count = 0;
	expect(!tuv_peer_begin(&peer, &of_peer, fresh()), "a peer begins");
	expect(!tuv_server_begin(&server, &of_server, fresh(), 0, 4), "a server begins");
}

/* Whether a login by these settings succeeds at the server. */
static int log_in(void)
{
	uint8_t at_peer, at_server;

	begin_both();
	converse(tuv_server_start(&server), &at_peer, &at_server);
	return at_server == TUV_STATE_SUCCESS && at_peer == TUV_STATE_SUCCESS && agree();
}

static void logins(void)
{
	uint8_t at_peer, at_server;

	set_up();
	expect(log_in(), "a login");
	tuv_end_restart(&peer, fresh());
	converse(tuv_end_restart(&server, fresh()), &at_peer, &at_server);
	expect(at_server == TUV_STATE_SUCCESS && agree(), "a login by a restart");
	for (altered = 1; altered < 12; altered++)
		log_in();
	altered = 0;
	of_server.methods[0] = method == TUV_KIND_PSK ? TUV_KIND_GPSK : TUV_KIND_PSK;
	of_server.methods[1] = method;
	take_keys(&of_server, &shared, 1);
	expect(log_in(), "a login after a Nak");
	set_up();
	of_peer.expanded = of_server.expanded = 1;
	expect(log_in(), "a login in Expanded Types");
}

static void failures(void)
{
	set_up();
	take_keys(&of_server, &others, 0);
	expect(!log_in() && reason(&server) == TUV_FAILURE_TIMEOUT, "a login by another key");
	set_up();
	of_server.other = name_of("bob");
	expect(!log_in() && reason(&server) == TUV_FAILURE_UNKNOWN_USER,
	       "a login of an unknown user");
	set_up();
	of_server.barred = 1;
	expect(!log_in() && reason(&server) == TUV_FAILURE_BARRED_USER &&
	       reason(&peer) == TUV_FAILURE_REFUSED, "a login of a barred user");
	set_up();
	of_server.methods[0] = method == TUV_KIND_PSK ? TUV_KIND_GPSK : TUV_KIND_PSK;
	take_keys(&of_server, &shared, 1);
	expect(!log_in() && reason(&server) == TUV_FAILURE_NO_METHOD,
	       "a login without a common method");
}

/* The user is known when the first Response is there, and not before. */
static void users(void)
{
	struct tuv_settings user;
	uint8_t name[TUV_NAME_MAX];
	struct tuv_turn turn;
	uint8_t at_peer, at_server;

	set_up();
	user = of_server;
	of_server.other = of_server.psk_key = of_server.gpsk_key = TUV_ANY;
	begin_both();
	turn = tuv_server_start(&server);
	take_keys(&user, &others, 0);
	expect(!tuv_server_set_user(&server, &user), "a user");
	take_keys(&user, &shared, 0);
	expect(!tuv_server_set_user(&server, &user), "another key of the user");
	converse(turn, &at_peer, &at_server);
	expect(at_server == TUV_STATE_SUCCESS && agree(), "a login of a late user");

	expect(!tuv_peer_method_begin(&peer, &of_peer, fresh()), "a peer's method");
	expect(!tuv_server_method_begin(&server, &of_server, fresh(), 7), "a server's method");
	tuv_peer_method_handle(&peer, octets, take(&server, octets));
	expect(tuv_response_name(octets, take(&peer, octets), name) == 5, "a name");
	expect(!tuv_server_method_user(&server, &user), "a method's user");
	tuv_server_method_handle(&server, octets, tuv_end_last_packet(&peer, octets, sizeof(octets)), 8);
	none_failed();
	tuv_peer_method_handle(&peer, octets, take(&server, octets));
	tuv_server_method_handle(&server, octets, take(&peer, octets), 9);
	expect(agree(), "a login by the methods");
}

static void through(void)
{
	struct tuv_turn turn = { 0 };
	unsigned int round;

	set_up();
	expect(!tuv_peer_begin(&peer, &of_peer, fresh()), "a peer begins");
	expect(!tuv_backend_begin(&server, &of_server, fresh()), "a backend begins");
	expect(!tuv_pass_begin(&pass, 0, 4), "a pass-through begins");
	turn = tuv_pass_start(&pass);
	for (round = 0; round < 20 && turn.sends; round++) {
		turn = tuv_end_deliver(&peer, octets, take(&pass, octets));
		if (!turn.sends)
			break;
		tuv_pass_from_peer(&pass, octets, take(&peer, octets));
		tuv_end_deliver(&server, octets, take(&pass, octets));
		turn = tuv_pass_from_backend(&pass, octets, take(&server, octets));
	}
	expect(turn.state == TUV_STATE_SUCCESS && agree(), "a login through a pass-through");
}

/* The frame of a turn; the packet in it is printed. */
static size_t framed(struct tuv_end *end, uint8_t frame[TUV_FRAME_MAX])
{
	size_t len = tuv_end_packet(end, frame, TUV_FRAME_MAX);

	VALGRIND_MAKE_MEM_DEFINED(frame, len);
	print("packet", frame + 4, len - 4);
	return len;
}

/* A login of a supplicant at a port, whose server is a backend. */
static void at_port(void)
{
	struct tuv_supplicant_limits limits = TUV_SUPPLICANT_LIMITS;
	struct tuv_port_limits times = TUV_PORT_LIMITS;
	struct tuv_supplicant_turn turn = { 0 };
	static uint8_t frame[TUV_FRAME_MAX];
	struct tuv_port_turn came;
	unsigned int round;

	set_up();
	expect(!tuv_supplicant_begin(&peer, &of_peer, &limits), "a supplicant begins");
	expect(!tuv_backend_begin(&server, &of_server, fresh()), "a backend begins");
	expect(!tuv_port_begin(&pass, 0, 4, &times), "a port begins");
	tuv_supplicant_link(&peer, 1);
	came = tuv_port_link(&pass, 1);
	for (round = 0; round < 20 && came.to_station; round++) {
		uint8_t code = TUV_ACCESS_CHALLENGE;

		turn = tuv_supplicant_frame(&peer, frame, framed(&pass, frame), fresh());
		if (!turn.sends)
			break;
		tuv_port_frame(&pass, frame, framed(&peer, frame));
		if (tuv_end_deliver(&server, octets, take(&pass, octets)).state == TUV_STATE_SUCCESS)
			code = TUV_ACCESS_ACCEPT;
		came = tuv_port_answer(&pass, code, octets, take(&server, octets));
	}
	expect(turn.authorized && came.authorized && agree(), "a login at a port");
}

/* Begins that are refused, and logins that are cut off. */
static void ends(void)
{
	struct tuv_settings wrong;
	uint8_t key[TUV_KEY_MAX + 1];

	set_up();
	begin_both();
	wrong = of_peer;
	memcpy(key, shared.gpsk, sizeof(shared.gpsk));
	wrong.psk_key = (struct tuv_octets) { key, 15 };
	wrong.gpsk_key = (struct tuv_octets) { key, sizeof(key) };
	expect(tuv_peer_begin(&peer, &wrong, fresh()) == TUV_BAD_KEY, "a wrong size");
	explicit_bzero(key, sizeof(key));
	tuv_server_start(&server);
	tuv_end_deliver(&peer, octets, take(&server, octets));
	tuv_end_deliver(&server, octets, take(&peer, octets));
	tuv_end_deliver(&peer, octets, take(&server, octets));
	begin_both();	/* in the middle of a login */
	tuv_server_start(&server);
	tuv_end_deliver(&peer, octets, take(&server, octets));
	tuv_end_deliver(&server, octets, take(&peer, octets));
	tuv_end_deliver(&peer, octets, take(&server, octets));
	tuv_end_deliver(&server, octets, take(&peer, octets));
	tuv_peer_alt_reject(&peer);
	none_failed();
	tuv_end_close(&server);
}

/* (Without tuv_clear_stack, which `keep` has none of.) */
static void drop(struct tuv_end *end)
{
	tuv_end_close(end);
	explicit_bzero(end->at, tuv_end_size());
	free(end->at);
}

static void run(void)
{
	expect(tuv_end_new(&peer.at) && tuv_end_new(&server.at) &&
	       tuv_end_new(&pass.at), "the ends are made");
	logins();
	failures();
	users();
	through();
	at_port();
	ends();
	drop(&peer);
	drop(&server);
	drop(&pass);
}

static void run_deeper(size_t octets)
{
	volatile uint8_t room[octets + 1];

	room[0] = room[octets] = 1;
	run();
	room[0] = 2;
}

static void nothing(int number)
{
	(void) number;
}

static void send_signals(long each)
{
	const struct itimerval timer = { { 0, each }, { 0, each } };

	setitimer(ITIMER_REAL, &timer, NULL);
}

/* Whether the processor stops at each instruction (EFLAGS.TF), by SIGTRAP. */
static void step(int on)
{
#ifdef __x86_64__
	unsigned long flags;

	__asm__ volatile("pushfq\n\tpopq %0" : "=r"(flags));
	flags = on ? flags | 0x100 : flags & ~0x100ul;
	__asm__ volatile("pushq %0\n\tpopfq" : : "r"(flags) : "cc", "memory");
#else
	(void) on;
#endif
}

static void clear(const char *how, size_t depth, int signals)
{
	if (signals)
		step(1);
	if (strcmp(how, "clear") == 0)
		tuv_clear_stack_of(TUV_STACK_MAX + depth);
	else if (strcmp(how, "short") == 0)
		tuv_clear_stack();
	if (signals)
		step(0);
}

static size_t number_in(const char *name)
{
	const char *word = getenv(name);

	return word ? strtoul(word, NULL, 10) : 0;
}

static void read_keys(struct keys *keys)
{
	if (read(0, keys, sizeof(*keys)) != (ssize_t) sizeof(*keys))
		exit(2);
	VALGRIND_MAKE_MEM_UNDEFINED(keys, sizeof(*keys));
}

int main(int argc, char *argv[])
{
	size_t depth = number_in("SECRETS_DEPTH");
	int signals = number_in("SECRETS_SIGNALS") != 0;

	if (argc < 4)
		return 2;
	method = strcmp(argv[1], "47") == 0 ? TUV_KIND_PSK : TUV_KIND_GPSK;
	suite = argv[2][0] - '0';
	read_keys(&shared);
	read_keys(&others);
	if (argc > 4)
		paint();
	if (signals) {
		signal(SIGALRM, nothing);
		signal(SIGTRAP, nothing);
		send_signals(30);
	}
	run_deeper(depth);
	if (argc > 4 && !depth && !signals) {
		size_t most = deepest();

		printf("stack %zu\n", most);
		expect(most <= TUV_STACK_MAX, "a call goes deeper than TUV_STACK_MAX");
	}
	clear(argv[3], depth, signals);
	send_signals(0);
	explicit_bzero(&shared, sizeof(shared));
	explicit_bzero(&others, sizeof(others));
	fflush(stdout);
	if (argc > 4)
		raise(SIGSTOP);
	return 0;
}
