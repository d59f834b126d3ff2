/* The calls where a pointer and a size have 32 bits.  Behind this file and border.c
 * they have 64, as on the machine that the proofs speak of: a struct's pointer lies
 * in a slot of 8 octets, a size is a uint64_t, and a small struct comes as one.
 * (c/library names the proved call of each line below proved_..) */
#define _DEFAULT_SOURCE
#include <string.h>
#include "heap.h"
#include "tuvaddri.h"

#if UINTPTR_MAX == UINT32_MAX

#if defined(__BYTE_ORDER__) && __BYTE_ORDER__ != __ORDER_LITTLE_ENDIAN__
#error "The library is built for little-endian processors alone."
#endif

/* --- turns --- */

static struct tuv_turn turn_of(uint64_t octets)
{
	struct tuv_turn turn;

	memcpy(&turn, &octets, sizeof(turn));
	return turn;
}

static struct tuv_method_turn method_turn_of(uint64_t octets)
{
	struct tuv_method_turn turn;

	memcpy(&turn, &octets, sizeof(turn));
	return turn;
}

static struct tuv_failure failure_of(uint64_t octets)
{
	struct tuv_failure failure;

	memcpy(&failure, &octets, sizeof(failure));
	return failure;
}

static struct tuv_supplicant_turn supplicant_turn_of(uint64_t octets)
{
	struct tuv_supplicant_turn turn;

	memcpy(&turn, &octets, sizeof(turn));
	return turn;
}

static struct tuv_port_turn port_turn_of(uint64_t octets)
{
	struct tuv_port_turn turn;

	memcpy(&turn, &octets, sizeof(turn));
	return turn;
}

#define CALL(result, by, name, words, handed)					\
	uint64_t proved_##name words(uint64_t);					\
	result name words(size_t)						\
	{									\
		return by(proved_##name handed);				\
	}
#define TURN(name, words, handed) CALL(struct tuv_turn, turn_of, name, words, handed)
#define METHOD_TURN(name, words, handed)					\
	CALL(struct tuv_method_turn, method_turn_of, name, words, handed)
#define SUPPLICANT(name, words, handed)						\
	CALL(struct tuv_supplicant_turn, supplicant_turn_of, name, words, handed)
#define PORT(name, words, handed)						\
	CALL(struct tuv_port_turn, port_turn_of, name, words, handed)
#define SIZE(name, words, handed) CALL(size_t, (size_t), name, words, handed)

#define END(len_type) (struct tuv_end *end)
#define FRESH(len_type) (struct tuv_end *end, const uint8_t nonce[TUV_NONCE_LEN])
#define OCTETS(len_type) (struct tuv_end *end, const uint8_t *octets, len_type len)
#define ASKED(len_type)								\
	(struct tuv_end *end, const uint8_t *octets, len_type len, uint8_t next_id)
#define NUMBER(len_type) (struct tuv_end *end, uint8_t number)
#define FRESH_OCTETS(len_type)							\
	(struct tuv_end *end, const uint8_t *octets, len_type len,		\
	 const uint8_t nonce[TUV_NONCE_LEN])
#define CODED(len_type)								\
	(struct tuv_end *end, uint8_t code, const uint8_t *octets, len_type len)
#define ROOM(len_type) (struct tuv_end *end, uint8_t *room, len_type len)
#define ID_ROOM(len_type) (struct tuv_end *end, uint8_t room[TUV_SESSION_ID_MAX])
#define NAME_ROOM(len_type)							\
	(const uint8_t *octets, len_type len, uint8_t room[TUV_NAME_MAX])
#define NOTHING(len_type) (void)

TURN(tuv_end_deliver, OCTETS, (end, octets, len))
TURN(tuv_peer_deliver, OCTETS, (end, octets, len))
TURN(tuv_server_deliver, OCTETS, (end, octets, len))
TURN(tuv_end_restart, FRESH, (end, nonce))
TURN(tuv_peer_restart, FRESH, (end, nonce))
TURN(tuv_server_restart, FRESH, (end, nonce))
TURN(tuv_peer_idle, END, (end))
TURN(tuv_peer_alt_accept, END, (end))
TURN(tuv_peer_alt_reject, END, (end))
TURN(tuv_server_start, END, (end))
TURN(tuv_server_timeout, END, (end))
TURN(tuv_pass_start, END, (end))
TURN(tuv_pass_restart, END, (end))
TURN(tuv_pass_from_peer, OCTETS, (end, octets, len))
TURN(tuv_pass_from_backend, OCTETS, (end, octets, len))
TURN(tuv_pass_timeout, END, (end))
TURN(tuv_pass_aaa_timeout, END, (end))
TURN(tuv_pass_aaa_noreq, END, (end))
METHOD_TURN(tuv_peer_method_handle, OCTETS, (end, octets, len))
METHOD_TURN(tuv_server_method_handle, ASKED, (end, octets, len, next_id))
SUPPLICANT(tuv_supplicant_link, NUMBER, (end, number))
SUPPLICANT(tuv_supplicant_frame, FRESH_OCTETS, (end, octets, len, nonce))
SUPPLICANT(tuv_supplicant_second, END, (end))
SUPPLICANT(tuv_supplicant_logoff, NUMBER, (end, number))
SUPPLICANT(tuv_supplicant_control, NUMBER, (end, number))
PORT(tuv_port_link, NUMBER, (end, number))
PORT(tuv_port_frame, OCTETS, (end, octets, len))
PORT(tuv_port_second, END, (end))
PORT(tuv_port_answer, CODED, (end, code, octets, len))
PORT(tuv_port_aaa_timeout, END, (end))
PORT(tuv_port_control, NUMBER, (end, number))
PORT(tuv_port_reauthenticate, END, (end))
CALL(struct tuv_failure, failure_of, tuv_end_failure, END, (end))
SIZE(tuv_end_size, NOTHING, ())
SIZE(tuv_end_packet, ROOM, (end, room, len))
SIZE(tuv_end_last_packet, ROOM, (end, room, len))
SIZE(tuv_end_session_id, ID_ROOM, (end, room))
SIZE(tuv_end_session_id_wpa, ID_ROOM, (end, room))
SIZE(tuv_request_name, NAME_ROOM, (octets, len, room))
SIZE(tuv_response_name, NAME_ROOM, (octets, len, room))

/* --- a new end --- */

/* (behind the border its slot has 8 octets, of which the program has 4) */
#define NEW(name)								\
	bool proved_##name(void **at);						\
	bool name(void **at)							\
	{									\
		union {								\
			void *at;						\
			uint64_t slot;						\
		} wide = { .slot = 0 };						\
		bool made = proved_##name(&wide.at);				\
										\
		if (made)							\
			*at = wide.at;						\
		return made;							\
	}

NEW(tuv_end_new)

/* --- the report --- */

enum { REPORT_FRONT = offsetof(struct tuv_report, method),
       REPORT_REST = offsetof(struct tuv_report, server_rand) + TUV_RAND_MAX - REPORT_FRONT };

struct wide_report {
	uint64_t size;
	uint8_t rest[REPORT_REST];
};

_Static_assert(sizeof(struct wide_report) == 712, "size of the report");
_Static_assert(sizeof(struct tuv_report) == 708, "size of the short report");
_Static_assert(offsetof(struct tuv_report, server_rand) - REPORT_FRONT == 671, "its octets");
_Static_assert(sizeof(struct tuv_turn) == 5, "size of a turn");
_Static_assert(sizeof(struct tuv_method_turn) == 6, "size of a method's turn");
_Static_assert(sizeof(struct tuv_failure) == 2, "size of a failure");
_Static_assert(sizeof(struct tuv_supplicant_turn) == 7, "size of a supplicant's turn");
_Static_assert(sizeof(struct tuv_port_turn) == 8, "size of a port's turn");

static bool report_by(bool (*proved)(struct tuv_end *, struct wide_report *),
		      struct tuv_end *end, struct tuv_report *report)
{
	struct wide_report wide;
	uint8_t *rest = (uint8_t *) report + REPORT_FRONT;
	bool made;

	wide.size = sizeof(wide);
	memcpy(wide.rest, rest, sizeof(wide.rest));
	made = proved(end, &wide);
	if (made)
		memcpy(rest, wide.rest, sizeof(wide.rest));
	explicit_bzero(&wide, sizeof(wide));
	return made;
}

#define REPORT(name)								\
	bool proved_##name(struct tuv_end *end, struct wide_report *report);	\
	bool whole_##name(struct tuv_end *end, struct tuv_report *report);	\
	bool whole_##name(struct tuv_end *end, struct tuv_report *report)	\
	{									\
		return report_by(proved_##name, end, report);			\
	}

REPORT(tuv_end_report)
REPORT(tuv_peer_report)
REPORT(tuv_server_report)

/* --- the heap --- */

void tuv_wide_alloc(uint64_t answer[2], uint64_t size, uint64_t align);
void tuv_wide_realloc(uint64_t answer[2], void *at, uint64_t kept, uint64_t size,
		      uint64_t align);

static void tell(uint64_t answer[2], struct block block)
{
	answer[0] = block.ok;
	answer[1] = (uintptr_t) block.at;
}

/* What doesn't fit into 32 bits there isn't. */
void tuv_wide_alloc(uint64_t answer[2], uint64_t size, uint64_t align)
{
	tell(answer, rattle_alloc(size > SIZE_MAX / 2 ? SIZE_MAX / 2 : (size_t) size,
				  (size_t) align));
}

void tuv_wide_realloc(uint64_t answer[2], void *at, uint64_t kept, uint64_t size,
		      uint64_t align)
{
	tell(answer, rattle_realloc(at, (size_t) kept,
				    size > SIZE_MAX / 2 ? SIZE_MAX / 2 : (size_t) size,
				    (size_t) align));
}

#endif
