/* border.c and narrow.c where pointers have 32 bits, each call once: what a proved call gets is the
 * layout of 64 bits, and what it answers comes back. */
#include "frama_c.h"
#include "__fc_builtin.h"
#include "../border.c"
#undef END
#undef NONCE
#define report_by narrow_report_by
#include "../narrow.c"

enum { OLD = 99, LEN = 1500, FIRST_ID = 77, MAX_RETRANS = 9, MOST = 0x7fffffff };

static uint8_t name[253], other[253], psk_key[64], gpsk_key[64], drawn[TUV_NONCE_LEN];
static uint8_t octets_given[LEN], room_given[LEN];
static struct tuv_end handle;
static const struct tuv_supplicant_limits limits_given;
static int calls, is_held;
static uint64_t word;	/* that a proved call answers */

static void takes_end(const struct tuv_end *end)
{
	calls++;
	/*@ check end: end == &handle; */
}

static void takes_nonce(const uint8_t *nonce)
{
	/*@ check nonce: nonce == &drawn[0]; */
}

static void takes_octets(const uint8_t *at, uint64_t len)
{
	/*@ check octets: at == &octets_given[0] && len == LEN; */
}

static void takes_room(const uint8_t *at, uint64_t len)
{
	/*@ check room: at == &room_given[0] && len == LEN; */
}

static void takes_numbers(uint8_t id, uint8_t most)
{
	/*@ check numbers: id == FIRST_ID && most == MAX_RETRANS; */
}

/* A slice is a place in a slot of 8 octets, and a length of 8. */
static int is_slice(const uint8_t *at, const uint8_t *place, uint64_t len)
{
	return *(const uint8_t *const *) at == place && *(const uint32_t *) (at + 4) == 0 &&
	       *(const uint64_t *) (at + 8) == len;
}

static void takes_settings(const void *settings)
{
	const uint8_t *at = settings;
	int is_name = is_slice(at + 8, name, 253), is_other = is_slice(at + 24, other, 7);
	int is_psk = is_slice(at + 40, psk_key, 16), is_gpsk = is_slice(at + 56, gpsk_key, 64);

	/*@ check begin_size: *(uint64_t *) at == 80; */
	/*@ check begin_name: is_name == 1; */
	/*@ check begin_other: is_other == 1; */
	/*@ check begin_psk_key: is_psk == 1; */
	/*@ check begin_gpsk_key: is_gpsk == 1; */
	/*@ check begin_methods: at[72] == 51 && at[73] == 47; */
	/*@ check begin_suites: at[74] == 2 && at[75] == 1; */
	/*@ check begin_octets: at[76] == 3 && at[77] == 4; */
}

#define BEGUN(call, words, nonce, id, most)					\
	uint8_t proved_##call words						\
	{									\
		takes_end(end);							\
		takes_settings(settings);					\
		takes_nonce(nonce);						\
		takes_numbers(id, most);					\
		return 0;							\
	}
#define OF_SETTINGS struct tuv_end *end, const struct tuv_settings *settings

BEGUN(tuv_peer_begin, (OF_SETTINGS, const uint8_t *nonce), nonce, FIRST_ID, MAX_RETRANS)
BEGUN(tuv_server_begin, (OF_SETTINGS, const uint8_t *nonce, uint8_t id, uint8_t most),
      nonce, id, most)
BEGUN(tuv_backend_begin, (OF_SETTINGS, const uint8_t *nonce), nonce, FIRST_ID, MAX_RETRANS)
BEGUN(tuv_supplicant_begin, (OF_SETTINGS, const struct tuv_supplicant_limits *limits),
      limits == &limits_given ? drawn : NULL, FIRST_ID, MAX_RETRANS)
BEGUN(tuv_server_set_user, (OF_SETTINGS), drawn, FIRST_ID, MAX_RETRANS)
BEGUN(tuv_peer_method_begin, (OF_SETTINGS, const uint8_t *nonce), nonce, FIRST_ID, MAX_RETRANS)
BEGUN(tuv_server_method_begin, (OF_SETTINGS, const uint8_t *nonce, uint8_t id),
      nonce, id, MAX_RETRANS)
BEGUN(tuv_server_method_user, (OF_SETTINGS), drawn, FIRST_ID, MAX_RETRANS)

/* The calls that answer a turn, by what they take. */
#define EACH_TURN(of_octets, of_nonce, of_end)					\
	of_octets(tuv_end_deliver)						\
	of_octets(tuv_peer_deliver)						\
	of_octets(tuv_server_deliver)						\
	of_octets(tuv_pass_from_peer)						\
	of_octets(tuv_pass_from_backend)					\
	of_nonce(tuv_end_restart)						\
	of_nonce(tuv_peer_restart)						\
	of_nonce(tuv_server_restart)						\
	of_end(tuv_peer_idle)							\
	of_end(tuv_peer_alt_accept)						\
	of_end(tuv_peer_alt_reject)						\
	of_end(tuv_server_start)						\
	of_end(tuv_server_timeout)						\
	of_end(tuv_pass_start)							\
	of_end(tuv_pass_restart)						\
	of_end(tuv_pass_timeout)						\
	of_end(tuv_pass_aaa_timeout)						\
	of_end(tuv_pass_aaa_noreq)

#define PROVED(call, words, takes)						\
	uint64_t proved_##call words						\
	{									\
		takes;								\
		return word;							\
	}
#define OF_OCTETS(call)								\
	PROVED(call, (struct tuv_end *end, const uint8_t *at, uint64_t len),	\
	       takes_end(end); takes_octets(at, len))
#define OF_NONCE(call)								\
	PROVED(call, (struct tuv_end *end, const uint8_t *nonce),		\
	       takes_end(end); takes_nonce(nonce))
#define OF_END(call) PROVED(call, (struct tuv_end *end), takes_end(end))
#define OF_ROOM(call)								\
	PROVED(call, (struct tuv_end *end, uint8_t *at, uint64_t len),		\
	       takes_end(end); takes_room(at, len))
#define OF_ID(call)								\
	PROVED(call, (struct tuv_end *end, uint8_t *at),			\
	       takes_end(end); takes_room(at, LEN))
#define OF_NAME(call)								\
	PROVED(call, (const uint8_t *at, uint64_t len, uint8_t *to),		\
	       takes_octets(at, len); takes_room(to, LEN))

EACH_TURN(OF_OCTETS, OF_NONCE, OF_END)
OF_OCTETS(tuv_peer_method_handle)
PROVED(tuv_server_method_handle,
       (struct tuv_end *end, const uint8_t *at, uint64_t len, uint8_t next_id),
       takes_end(end); takes_octets(at, len); takes_numbers(next_id, MAX_RETRANS))
#define OF_NUMBER(call)								\
	PROVED(call, (struct tuv_end *end, uint8_t number),			\
	       takes_end(end); takes_numbers(number, MAX_RETRANS))
OF_NUMBER(tuv_supplicant_link)
PROVED(tuv_supplicant_frame,
       (struct tuv_end *end, const uint8_t *at, uint64_t len, const uint8_t *nonce),
       takes_end(end); takes_octets(at, len); takes_nonce(nonce))
OF_END(tuv_supplicant_second)
OF_NUMBER(tuv_supplicant_logoff)
OF_NUMBER(tuv_supplicant_control)
OF_NUMBER(tuv_port_link)
OF_OCTETS(tuv_port_frame)
OF_END(tuv_port_second)
PROVED(tuv_port_answer, (struct tuv_end *end, uint8_t code, const uint8_t *at, uint64_t len),
       takes_end(end); takes_numbers(code, MAX_RETRANS); takes_octets(at, len))
OF_END(tuv_port_aaa_timeout)
OF_NUMBER(tuv_port_control)
OF_END(tuv_port_reauthenticate)
OF_END(tuv_end_failure)
PROVED(tuv_end_size, (void), calls++)
OF_ROOM(tuv_end_packet)
OF_ROOM(tuv_end_last_packet)
OF_ID(tuv_end_session_id)
OF_ID(tuv_end_session_id_wpa)
OF_NAME(tuv_request_name)
OF_NAME(tuv_response_name)

bool proved_tuv_end_new(void **at)
{
	/*@ check slot_room: \valid((uint8_t *) at + (0 .. 7)); */
	/*@ check slot_empty: \initialized((uint8_t *) at + (0 .. 7)) && *(uint64_t *) at == 0; */
	if (!is_held)
		return false;
	*at = &handle;
	((uint32_t *) at)[1] = 0;
	return true;
}

static bool reported(const struct tuv_end *end, struct wide_report *report)
{
	takes_end(end);
	/*@ check report_room: \valid(report) && report->size == 712; */
	if (!is_held)
		return false;
	report->rest[0] = 51;
	report->rest[1] = 2;
	memset(report->rest + 4, 11, 253);
	memset(report->rest + 510, 13, 64);
	memset(report->rest + 671, 16, 32);
	return true;
}

#define REPORTED(call)								\
	bool proved_##call(struct tuv_end *end, struct wide_report *report)	\
	{									\
		return reported(end, report);					\
	}

REPORTED(tuv_end_report)
REPORTED(tuv_peer_report)
REPORTED(tuv_server_report)

struct block rattle_alloc(size_t size, size_t align)
{
	struct block block = { 1, room_given };

	/*@ check alloc_size: size <= MOST; */
	/*@ check alloc_align: align == 8; */
	return block;
}

struct block rattle_realloc(void *at, size_t kept, size_t size, size_t align)
{
	struct block block = { 1, room_given };

	/*@ check realloc_block: at == &room_given[0] && kept == 44; */
	/*@ check realloc_size: size <= MOST; */
	/*@ check realloc_align: align == 8; */
	return block;
}

static void settings(void)
{
	struct tuv_settings told = { .size = 44, .name = { name, 253 }, .other = { other, 7 },
				     .psk_key = { psk_key, 16 }, .gpsk_key = { gpsk_key, 64 },
				     .methods = { 51, 47 }, .suites = { 2, 1 },
				     .expanded = 3, .barred = 4 };

	calls = 0;
	tuv_peer_begin(&handle, &told, drawn);
	tuv_server_begin(&handle, &told, drawn, FIRST_ID, MAX_RETRANS);
	tuv_backend_begin(&handle, &told, drawn);
	tuv_server_set_user(&handle, &told);
	tuv_peer_method_begin(&handle, &told, drawn);
	tuv_server_method_begin(&handle, &told, drawn, FIRST_ID);
	tuv_server_method_user(&handle, &told);
	tuv_supplicant_begin(&handle, &told, &limits_given);
	/*@ check begun: calls == 8; */
}

static void is_turn(struct tuv_turn turn)
{
	/*@ check turn_told: turn.sends == 1 && turn.discards == 0 && turn.misplaced == 1; */
	/*@ check turn_words: turn.cause == 4 && turn.state == 5; */
}

#define BY_OCTETS(call) is_turn(call(&handle, octets_given, LEN));
#define BY_NONCE(call) is_turn(call(&handle, drawn));
#define BY_END(call) is_turn(call(&handle));

static void turns(void)
{
	word = 0x0504010001;	/* from its lowest octet on */
	calls = 0;
	EACH_TURN(BY_OCTETS, BY_NONCE, BY_END)
	/*@ check turned: calls == 18; */
}

static void is_method_turn(struct tuv_method_turn turn)
{
	/*@ check method_told: turn.sends == 1 && turn.discards == 0 && turn.misplaced == 1; */
	/*@ check method_words: turn.cause == 4 && turn.state == 5 && turn.decision == 2; */
}

static void method_turns(void)
{
	struct tuv_failure failure;

	word = 0x020504010001;
	calls = 0;
	is_method_turn(tuv_peer_method_handle(&handle, octets_given, LEN));
	is_method_turn(tuv_server_method_handle(&handle, octets_given, LEN, FIRST_ID));
	word = 0x0306;
	failure = tuv_end_failure(&handle);
	/*@ check failure_told: failure.reason == 6 && failure.code == 3; */
	/*@ check method_turned: calls == 3; */
}

static void is_supplicant_turn(struct tuv_supplicant_turn turn)
{
	/*@ check supplicant_told: turn.sends == 1 && turn.discards == 0 && turn.misplaced == 1; */
	/*@ check supplicant_port: turn.took_nonce == 0 && turn.authorized == 1; */
	/*@ check supplicant_words: turn.cause == 4 && turn.state == 5; */
}

static void supplicant_turns(void)
{
	word = 0x05040100010001;
	calls = 0;
	is_supplicant_turn(tuv_supplicant_link(&handle, FIRST_ID));
	is_supplicant_turn(tuv_supplicant_frame(&handle, octets_given, LEN, drawn));
	is_supplicant_turn(tuv_supplicant_second(&handle));
	is_supplicant_turn(tuv_supplicant_logoff(&handle, FIRST_ID));
	is_supplicant_turn(tuv_supplicant_control(&handle, FIRST_ID));
	/*@ check supplicant_turned: calls == 5; */
}

static void is_port_turn(struct tuv_port_turn turn)
{
	/*@ check port_sends: turn.to_station == 1 && turn.to_server == 0; */
	/*@ check port_told: turn.discards == 1 && turn.misplaced == 0; */
	/*@ check port_port: turn.authorized == 1 && turn.awaits_server == 0; */
	/*@ check port_words: turn.cause == 4 && turn.state == 5; */
}

static void port_turns(void)
{
	word = 0x0504000100010001;
	calls = 0;
	is_port_turn(tuv_port_link(&handle, FIRST_ID));
	is_port_turn(tuv_port_frame(&handle, octets_given, LEN));
	is_port_turn(tuv_port_second(&handle));
	is_port_turn(tuv_port_answer(&handle, FIRST_ID, octets_given, LEN));
	is_port_turn(tuv_port_aaa_timeout(&handle));
	is_port_turn(tuv_port_control(&handle, FIRST_ID));
	is_port_turn(tuv_port_reauthenticate(&handle));
	/*@ check port_turned: calls == 7; */
}

static void is_size(size_t size)
{
	/*@ check size: size == 1020; */
}

static void sizes(void)
{
	word = 1020;
	calls = 0;
	is_size(tuv_end_size());
	is_size(tuv_end_packet(&handle, room_given, LEN));
	is_size(tuv_end_last_packet(&handle, room_given, LEN));
	is_size(tuv_end_session_id(&handle, room_given));
	is_size(tuv_end_session_id_wpa(&handle, room_given));
	is_size(tuv_request_name(octets_given, LEN, room_given));
	is_size(tuv_response_name(octets_given, LEN, room_given));
	/*@ check sized: calls == 5; */
}

static void new_end(void)
{
	void *at = NULL;
	bool made = tuv_end_new(&at);

	/*@ check new_made: made == is_held; */
	/*@ check new_at: is_held ? at == (void *) &handle : at == \null; */
}

static void report_by_call(bool (*call)(struct tuv_end *, struct tuv_report *))
{
	struct tuv_report report;
	bool made;

	memset(&report, OLD, sizeof(report));
	report.size = 708;
	calls = 0;
	made = call(&handle, &report);
	/*@ check report_called: calls == 1; */
	/*@ check report_made: made == is_held; */
	/*@ check report_size: report.size == 708; */
	if (is_held) {
		/*@ check report_numbers: report.method == 51 && report.suite == 2; */
		/*@ check report_old: report.peer_length == OLD && report.server[0] == OLD; */
		/*@ check report_peer: report.peer[0] == 11 && report.peer[252] == 11; */
		/*@ check report_msk: report.msk[0] == 13 && report.msk[63] == 13; */
		/*@ check report_emsk: report.emsk[0] == OLD; */
		/*@ check report_rand: report.server_rand[0] == 16; */
		/*@ check report_rand_end: report.server_rand[31] == 16; */
	} else {
		/*@ check report_none: report.method == OLD && report.msk[7] == OLD; */
		/*@ check report_no_rand: report.server_rand[31] == OLD; */
	}
}

static void heap(void)
{
	uint64_t answer[2];

	tuv_wide_alloc(answer, 1984, 8);
	/*@ check heap_ok: answer[0] == 1; */
	/*@ check heap_at: answer[1] == (uintptr_t) &room_given[0]; */
	tuv_wide_alloc(answer, UINT64_MAX, 8);
	tuv_wide_realloc(answer, room_given, 44, 0x8000000000000000, 8);
	/*@ check heap_moved: answer[0] == 1 && answer[1] == (uintptr_t) &room_given[0]; */
}

int main(void)
{
	settings();
	turns();
	method_turns();
	supplicant_turns();
	port_turns();
	sizes();
	/*@ loop unroll 2; */
	for (is_held = 0; is_held < 2; is_held++) {
		new_end();
		report_by_call(tuv_end_report);
		report_by_call(tuv_peer_report);
		report_by_call(tuv_server_report);
	}
	heap();
	return 0;
}
