/* border.c's three calls of a report: a struct of each size, an end that has a report or none. */
#include "frama_c.h"
#include "__fc_builtin.h"

/* (Frama-C's memset wants a place that can be read for no octets too; C11 7.1.4 has one behind an
 * array's end) */
static void *set(void *at, int octet, size_t len)
{
	return len ? memset(at, octet, len) : at;
}

#define memset set
#include "../border.c"
#undef memset

enum { OLD = 99 };

/* A struct ends where this array ends: what lies behind it is no memory at all. */
static uint8_t arena[4352];
static struct tuv_end handle;
static int calls, is_held;

/* Each proved call: it gets a whole struct, which it fills in or leaves as it was. */
static bool reported(const struct tuv_end *end, struct tuv_report *report)
{
	calls++;
	/*@ check handle: end == &handle; */
	/*@ check whole: \valid(report) && report->size == 712; */
	if (!is_held)
		return false;
	report->method = 51;
	report->suite = 2;
	report->peer_length = 253;
	report->server_length = 9;
	memset(report->peer, 11, sizeof(report->peer));
	memset(report->server, 12, 9);	/* (behind a name the octets stay) */
	memset(report->msk, 13, sizeof(report->msk));
	memset(report->emsk, 14, sizeof(report->emsk));
	report->rand_length = 32;
	memset(report->peer_rand, 15, sizeof(report->peer_rand));
	memset(report->server_rand, 16, sizeof(report->server_rand));
	return true;
}

#define PROVED(name)								\
	bool proved_##name(struct tuv_end *end, struct tuv_report *report)	\
	{									\
		return reported(end, report);					\
	}

PROVED(tuv_end_report)
PROVED(tuv_peer_report)
PROVED(tuv_server_report)

static bool call(int which, struct tuv_report *report)
{
	switch (which) {
	case 0: return tuv_end_report(&handle, report);
	case 1: return tuv_peer_report(&handle, report);
	default: return tuv_server_report(&handle, report);
	}
}

static void is_told(const uint8_t *at, size_t room)
{
	/*@ check numbers: at[8] == 51 && at[9] == 2 && at[10] == 253 && at[11] == 9; */
	/*@ check peer: \forall integer i; 12 <= i < 265 ==> at[i] == 11; */
	/*@ check server: \forall integer i; 265 <= i < 274 ==> at[i] == 12; */
	/*@ check behind_server: \forall integer i; 274 <= i < 518 ==> at[i] == OLD; */
	/*@ check msk: \forall integer i; 518 <= i < 582 ==> at[i] == 13; */
	/*@ check emsk: \forall integer i; 582 <= i < 646 ==> at[i] == 14; */
	/*@ check rand_length: at[646] == 32; */
	/*@ check peer_rand: \forall integer i; 647 <= i < 679 ==> at[i] == 15; */
	/*@ check server_rand: \forall integer i; 679 <= i < 711 ==> at[i] == 16; */
	/*@ check behind: \forall integer i; 712 <= i < room ==> at[i] == 0; */
}

/* A struct without a size is the first one; so many octets are there, all OLD but the size. */
static void report_of(size_t size)
{
	size_t room = size == 0 ? 712 : size < 8 || size > 4096 ? 8 : size;
	uint8_t *at = arena + sizeof(arena) - room;
	bool is_served = size == 0 || (size >= 712 && size <= 4096), answer;

	memset(arena, OLD, sizeof(arena));
	memcpy(at, &size, sizeof(size));
	calls = 0;
	answer = call(Frama_C_interval(0, 2), (struct tuv_report *) at);
	/*@ check size_stays: *(size_t *) at == size; */
	/*@ check before: \forall integer i; 0 <= i < 4352 - room ==> arena[i] == OLD; */
	/*@ check called: calls == is_served; */
	if (is_served && is_held) {
		/*@ check told: answer == 1; */
		is_told(at, room);
	} else {
		/*@ check none: answer == 0; */
		/*@ check untouched: \forall integer i; 8 <= i < room ==> at[i] == OLD; */
	}
}

#ifdef ALL_SIZES
enum { FIRST = 700, LAST = 739 };
#else
enum { FIRST = 708, LAST = 724 };
#endif

int main(void)
{
	/*@ loop unroll 2; */
	for (is_held = 0; is_held < 2; is_held++) {
		/*@ loop unroll 10; */
		for (size_t size = 0; size < 10; size++)
			report_of(size);
		/*@ loop unroll 50; */
		for (size_t size = FIRST; size <= LAST; size++)
			report_of(size);
		/*@ loop unroll 20; */
		for (size_t size = 4090; size <= 4100; size++)
			report_of(size);
		/*@ loop unroll 60; */
		for (int bit = 4; bit < 64; bit++)
			report_of((size_t) 1 << bit);
		report_of(SIZE_MAX);
	}
	return 0;
}
