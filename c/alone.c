/* border.c, heap.c and machine.c by themselves, at each of their limits, which random
 * calls come to or not: `c/check alone` compiles heap.c with free named alone_free. */

/* A processor that lacks some of its features. */
#ifdef __x86_64__
#include <cpuid.h>

static unsigned int lacking;

static int fake_cpuid(unsigned int leaf, unsigned int part, unsigned int *a,
		      unsigned int *b, unsigned int *c, unsigned int *d)
{
	int known = (__get_cpuid_count)(leaf, part, a, b, c, d);

	if (leaf == 1)
		*c = (*c | bit_SSSE3 | bit_SSE4_1 | bit_SSE4_2 | bit_POPCNT) & ~lacking;
	return known;
}

#define __get_cpuid_count(...) fake_cpuid(__VA_ARGS__)
#endif
#include "machine.c"	/* NOLINT(bugprone-suspicious-include): the processor is another one here */
#include "heap.h"
#include <malloc.h>
#include <stdio.h>
#include <stdlib.h>
#include <sys/wait.h>
#include <unistd.h>

static int faults;

static void holds(bool is_so, const char *fault)
{
	if (is_so)
		return;
	faults++;
	printf("alone: %s\n", fault);
}

/* The heap. */
void alone_free(void *at);

static unsigned int freed;

void alone_free(void *at)
{
	size_t i, size = malloc_usable_size(at);

	for (i = 0; i < size; i++)
		holds(((uint8_t *) at)[i] == 0, "a block is given back with octets in it");
	freed++;
	free(at);
}

static void try_heap(size_t size, size_t next)
{
	struct block one = rattle_alloc(size, 1), other;
	size_t i, same = size < next ? size : next;

	freed = 0;
	holds(one.ok && one.at, "there is no memory");
	memset(one.at, 'k', malloc_usable_size(one.at));
	other = rattle_realloc(one.at, size, next, 1);
	holds(other.ok && freed == 1, "a block that moves isn't given back");
	for (i = 0; i < same; i++)
		holds(((uint8_t *) other.at)[i] == 'k', "a block loses octets where it moves");
	memset(other.at, 'k', malloc_usable_size(other.at));
	rattle_dealloc(other.at);
	holds(freed == 2, "a block isn't given back");
}

/* What malloc aligns to there is, and what it doesn't there isn't. */
static void try_alignment(void)
{
	struct block block = rattle_alloc(64, _Alignof(max_align_t));

	holds(block.ok == 1 && (uintptr_t) block.at % _Alignof(max_align_t) == 0, "a block isn't aligned");
	rattle_dealloc(block.at);
	block = rattle_alloc(64, 2 * _Alignof(max_align_t));
	holds(block.ok == 0 && block.at, "a block is aligned by chance");
}

/* Each feature by itself: what is known of a processor is kept, so each is asked in a
 * process of its own. */
static void try_processor(unsigned int lacks, bool serves)
{
	pid_t child = fork();
	int status = 1;

	if (child == 0) {
#ifdef __x86_64__
		lacking = lacks;
#endif
		holds(tuv_cpu_supported() == serves, "another processor serves");
		holds(rattle_alloc(64, 1).ok == serves, "the heap doesn't ask for the processor");
		holds(rattle_alloc(64, 1).at != NULL, "a block stands at null");
		fflush(stdout);
		_exit(faults != 0);
	}
	waitpid(child, &status, 0);
	holds(status == 0, "a processor is taken for another one");
}

/* The border: what comes of settings of each size, as it is handed on. */
static struct tuv_settings handed;
static int calls;

#define PROVED(name, ...)							\
	uint8_t proved_##name(struct tuv_end *end, __VA_ARGS__);		\
	uint8_t proved_##name(struct tuv_end *end, __VA_ARGS__)			\
	{									\
		(void) end;							\
		handed = *settings;						\
		calls++;							\
		return TUV_OK;						\
	}
#define SETTINGS const struct tuv_settings *settings
#define NONCE const uint8_t *nonce

PROVED(tuv_peer_begin, SETTINGS, __attribute__((unused)) NONCE)
PROVED(tuv_server_begin, SETTINGS, __attribute__((unused)) NONCE,
       __attribute__((unused)) uint8_t first_id, __attribute__((unused)) uint8_t retries)
PROVED(tuv_backend_begin, SETTINGS, __attribute__((unused)) NONCE)
PROVED(tuv_server_set_user, SETTINGS)
PROVED(tuv_peer_method_begin, SETTINGS, __attribute__((unused)) NONCE)
PROVED(tuv_server_method_begin, SETTINGS, __attribute__((unused)) NONCE,
       __attribute__((unused)) uint8_t id)
PROVED(tuv_server_method_user, SETTINGS)
PROVED(tuv_supplicant_begin, SETTINGS, __attribute__((unused)) const struct tuv_supplicant_limits *limits)

/* The struct of version 2 ends behind `barred`, padded as a size_t; and a page is the
 * most that is read. */
enum { FIRST = 80, MOST = 4096 };

/* (where there are no octets any place does) */
static void set_places(struct tuv_settings *settings, const uint8_t *at)
{
	settings->name.at = settings->other.at = settings->psk_key.at = settings->gpsk_key.at = at;
}

/* Octets that are there are handed on where they are. */
static void try_places(void)
{
	static const uint8_t octets[4], nonce[TUV_NONCE_LEN];
	struct tuv_settings told = { sizeof(told), { octets, 1 }, { octets + 1, 1 }, { octets + 2, 1 },
				     { octets + 3, 1 }, { 0 }, { 0 }, 0, 0 };

	tuv_peer_begin(NULL, &told, nonce);
	holds(!memcmp(&handed, &told, sizeof(told)), "octets are handed on from another place");
}

/* Each call with settings of this size, which have another octet at this place. */
static void try_settings(size_t size, size_t at, uint8_t octet)
{
	static const uint8_t nonce[TUV_NONCE_LEN];
	static union {
		size_t size;
		uint8_t octets[MOST + 8];
	} room;
	const struct tuv_settings *settings = (const void *) &room;
	struct tuv_settings wanted = { .size = sizeof(wanted) };
	bool is_good = size >= FIRST && size <= MOST && !(octet && at >= sizeof(wanted));
	static const struct tuv_supplicant_limits limits;
	uint8_t answers[8];
	size_t i;

	memset(&room, 0, sizeof(room));
	room.size = size;
	if (octet)
		room.octets[at] = octet;
	memcpy((uint8_t *) &wanted + sizeof(size), room.octets + sizeof(size), sizeof(wanted) - sizeof(size));
	set_places(&wanted, NULL);
	calls = 0;
	memset(&handed, 'x', sizeof(handed));
	answers[0] = tuv_peer_begin(NULL, settings, nonce);
	answers[1] = tuv_server_begin(NULL, settings, nonce, 1, 2);
	answers[2] = tuv_backend_begin(NULL, settings, nonce);
	answers[3] = tuv_server_set_user(NULL, settings);
	answers[4] = tuv_peer_method_begin(NULL, settings, nonce);
	answers[5] = tuv_server_method_begin(NULL, settings, nonce, 1);
	answers[6] = tuv_server_method_user(NULL, settings);
	answers[7] = tuv_supplicant_begin(NULL, settings, &limits);
	for (i = 0; i < 8; i++)
		holds(answers[i] == (is_good ? TUV_OK : TUV_BAD_SIZE),
		      "settings are taken or refused by another size");
	holds(calls == (is_good ? 8 : 0), "settings that are refused are handed on");
	holds(!is_good || (handed.name.at && handed.other.at && handed.psk_key.at && handed.gpsk_key.at),
	      "no octets are handed on as null");
	set_places(&handed, NULL);
	holds(!is_good || !memcmp(&handed, &wanted, sizeof(wanted)),
	      "settings are handed on otherwise than they were given");
}

/* Reports of each size: what is known of them is written, and what lies behind it becomes 0. */
#define REPORTS(name)								\
	bool proved_##name(struct tuv_end *end, struct tuv_report *report);	\
	bool proved_##name(struct tuv_end *end, struct tuv_report *report)	\
	{									\
		(void) end;							\
		memset((uint8_t *) report + sizeof(size_t), 'r', sizeof(*report) - sizeof(size_t)); \
		return true;							\
	}

REPORTS(tuv_end_report)
REPORTS(tuv_peer_report)
REPORTS(tuv_server_report)

static void try_reports(size_t size, bool is_good)
{
	bool (*const calls_of[])(struct tuv_end *, struct tuv_report *) = {
		tuv_end_report, tuv_peer_report, tuv_server_report
	};
	static union {
		size_t size;
		uint8_t octets[MOST + 8];
	} room;
	size_t whole = sizeof(struct tuv_report), known = size && size < whole ? size : whole, i, j;

	for (i = 0; i < 3; i++) {
		memset(&room, 'x', sizeof(room));
		room.size = size;
		holds(calls_of[i](NULL, (void *) &room) == is_good, "a report is given or refused by another size");
		holds(room.size == size, "the size of a report changes");
		for (j = sizeof(size); j < sizeof(room); j++)
			holds(room.octets[j] == (!is_good || (j >= known && j >= size) ? 'x' : j < known ? 'r' : 0),
			      "a report is written otherwise than its size says");
	}
}

/* A handle that is dropped is closed, cleared and given back, once. */
static unsigned int closed;

void tuv_end_close(struct tuv_end *end)
{
	(void) end;
	closed++;
}

static void try_drop(void)
{
	struct tuv_end end = { .at = rattle_alloc(64, 8).at };

	closed = freed = 0;
	memset(end.at, 'k', malloc_usable_size(end.at));
	tuv_end_free(&end);
	tuv_end_free(&end);
	holds(closed == 1 && freed == 1 && !end.at, "a handle isn't dropped once");
}

static void try_border(void)
{
	static const size_t sizes[] = { 0, 1, 7, 8, 9, 72, 78, 79, 80, 81, 88, 96, 4088, 4095,
					4096, 4097, 65536 + 80, UINT32_MAX, UINT32_MAX + (size_t) 81,
					SIZE_MAX };
	static const size_t places[] = { 8, 40, 72, 77, 79, 80, 81, 87, 88, 4087, 4094, 4095 };
	size_t i, j;

	try_places();
	for (i = 0; i < sizeof(sizes) / sizeof(*sizes); i++) {
		try_settings(sizes[i], 0, 0);
		for (j = 0; j < sizeof(places) / sizeof(*places); j++)
			if (places[j] < sizes[i] && sizes[i] <= MOST)
				try_settings(sizes[i], places[j], 1);
	}
}

int main(void)
{
	static const size_t sizes[] = { 1, 16, 64, 4000 };
	size_t i, j;

	try_processor(0, true);
#ifdef __x86_64__
	try_processor(bit_SSSE3, false);
	try_processor(bit_SSE4_1, false);
	try_processor(bit_SSE4_2, false);
	try_processor(bit_POPCNT, false);
#endif
	try_alignment();
	try_border();
	try_reports(0, true);
	try_reports(1, false);
	try_reports(sizeof(struct tuv_report) - 8, false);
	try_reports(sizeof(struct tuv_report), true);
	try_reports(sizeof(struct tuv_report) + 8, true);
	try_reports(MOST, true);
	try_reports(MOST + 1, false);
	try_reports(SIZE_MAX, false);
	try_drop();
	for (i = 0; i < 4; i++)
		for (j = 0; j < 4; j++)
			try_heap(sizes[i], sizes[j]);
	return faults != 0;
}
