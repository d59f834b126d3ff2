/* The calls that take settings or write a report: `size` is read first, and no
 * more than it says is read or written.  The proved call behind each gets a whole
 * struct, as this library knows it, with 0 in each field that the caller's has
 * not.  (c/library names the proved call of each line below proved_..)  And the
 * end of a handle. */
#define _DEFAULT_SOURCE
#include <string.h>
#include "heap.h"
#include "tuvaddri.h"

#ifndef TAKES_SETTINGS	/* (else for the table alone) */
/* The structs of version 2, which are the shortest, and what is read at most. */
#define ENDS_WITH(type, field, len) ((offsetof(struct type, field) + (len) + sizeof(size_t) - 1) / \
				     sizeof(size_t) * sizeof(size_t))
enum { FIRST_SETTINGS = ENDS_WITH(tuv_settings, barred, 1),
       FIRST_REPORT = ENDS_WITH(tuv_report, server_rand, TUV_RAND_MAX), MOST_SIZE = 4096 };

static size_t size_of(const void *at)
{
	size_t size;

	memcpy(&size, at, sizeof(size));
	return size;
}

/* Where there are no octets any place does; the proved call is never given null. */
static void place(struct tuv_octets *octets)
{
	if (!octets->len)
		octets->at = (const uint8_t *) "";
}

static bool complete(struct tuv_settings *whole, const void *settings)
{
	const uint8_t *octets = settings;
	size_t size = size_of(settings), i;

	if (size < FIRST_SETTINGS || size > MOST_SIZE)
		return false;
	for (i = sizeof(*whole); i < size; i++)
		if (octets[i])
			return false;
	memset(whole, 0, sizeof(*whole));
	memcpy(whole, octets, size < sizeof(*whole) ? size : sizeof(*whole));
	whole->size = sizeof(*whole);
	place(&whole->name);
	place(&whole->other);
	place(&whole->psk_key);
	place(&whole->gpsk_key);
	return true;
}

#if UINTPTR_MAX == UINT64_MAX
typedef struct tuv_settings wide_settings;
#define widened complete
#else	/* (narrow.c: behind the border pointers and sizes have 64 bits) */
struct wide_octets {
	const uint8_t *at;
	uint32_t none;
	uint64_t len;
};

typedef struct {
	uint64_t size;
	struct wide_octets name, other, psk_key, gpsk_key;
	uint8_t methods[2], suites[2], expanded, barred;
} wide_settings;

_Static_assert(sizeof(wide_settings) == 80, "size of the settings");
_Static_assert(offsetof(wide_settings, gpsk_key) == 56, "their keys");
_Static_assert(offsetof(wide_settings, methods) == 72, "their octets");
_Static_assert(sizeof(struct tuv_settings) == 44, "size of the short settings");

static struct wide_octets wide_octets(struct tuv_octets octets)
{
	struct wide_octets wide = { octets.at, 0, octets.len };

	return wide;
}

static bool widened(wide_settings *wide, const void *settings)
{
	struct tuv_settings whole;

	if (!complete(&whole, settings))
		return false;
	memset(wide, 0, sizeof(*wide));
	wide->size = sizeof(*wide);
	wide->name = wide_octets(whole.name);
	wide->other = wide_octets(whole.other);
	wide->psk_key = wide_octets(whole.psk_key);
	wide->gpsk_key = wide_octets(whole.gpsk_key);
	memcpy(wide->methods, whole.methods, sizeof(wide->methods));
	memcpy(wide->suites, whole.suites, sizeof(wide->suites));
	wide->expanded = whole.expanded;
	wide->barred = whole.barred;
	return true;
}
#endif

#define TAKES_SETTINGS(name, words, handed)					\
	uint8_t proved_##name words;						\
	uint8_t name words							\
	{									\
		wide_settings whole;						\
										\
		return widened(&whole, settings) ? proved_##name handed	\
						  : TUV_BAD_SIZE;		\
	}

#if UINTPTR_MAX == UINT64_MAX
#define WHOLE_REPORT(name) proved_##name
#else
#define WHOLE_REPORT(name) whole_##name	/* narrow.c's */
#endif

typedef bool reporter(struct tuv_end *end, struct tuv_report *report);

/* A struct without a size is the first one.  What lies behind the report that this
 * library knows is 0. */
static bool report_by(reporter *whole_by, struct tuv_end *end, void *report)
{
	struct tuv_report whole;
	size_t size = size_of(report) ? size_of(report) : FIRST_REPORT;
	size_t known = size < sizeof(whole) ? size : sizeof(whole);
	bool held;

	if (size_of(report) == sizeof(whole))
		return whole_by(end, report);
	if (size < FIRST_REPORT || size > MOST_SIZE)
		return false;
	memset(&whole, 0, sizeof(whole));
	memcpy(&whole, report, known);
	whole.size = sizeof(whole);
	held = whole_by(end, &whole);
	whole.size = size_of(report);
	if (held) {
		memcpy(report, &whole, known);
		memset((uint8_t *) report + known, 0, size - known);
	}
	explicit_bzero(&whole, sizeof(whole));
	return held;
}

#define TAKES_REPORT(name)							\
	reporter WHOLE_REPORT(name);						\
	bool name(struct tuv_end *end, struct tuv_report *report)		\
	{									\
		return report_by(WHOLE_REPORT(name), end, report);		\
	}

/* The block that is given back is one that the proved handle owns.  A closed end owns
 * nothing behind it (tuv_end_close ensures no_end), and with a null `at` the handle is
 * none that a proved call takes. */
void tuv_end_free(struct tuv_end *end)
{
	if (end->at) {
		tuv_end_close(end);
		rattle_dealloc(end->at);
		end->at = NULL;
	}
	tuv_clear_stack();
}
#endif

/* (a pointer is a pointer, whatever it points to) */
#define WHOLE ((const struct tuv_settings *) (const void *) &whole)
#define END struct tuv_end *end, const struct tuv_settings *settings
#define NONCE const uint8_t nonce[TUV_NONCE_LEN]

TAKES_SETTINGS(tuv_peer_begin, (END, NONCE), (end, WHOLE, nonce))
TAKES_SETTINGS(tuv_server_begin, (END, NONCE, uint8_t first_id, uint8_t max_retrans),
	       (end, WHOLE, nonce, first_id, max_retrans))
TAKES_SETTINGS(tuv_backend_begin, (END, NONCE), (end, WHOLE, nonce))
TAKES_SETTINGS(tuv_supplicant_begin, (END, const struct tuv_supplicant_limits *limits),
	       (end, WHOLE, limits))
TAKES_SETTINGS(tuv_server_set_user, (END), (end, WHOLE))
TAKES_SETTINGS(tuv_peer_method_begin, (END, NONCE), (end, WHOLE, nonce))
TAKES_SETTINGS(tuv_server_method_begin, (END, NONCE, uint8_t id),
	       (end, WHOLE, nonce, id))
TAKES_SETTINGS(tuv_server_method_user, (END), (end, WHOLE))
TAKES_REPORT(tuv_end_report)
TAKES_REPORT(tuv_peer_report)
TAKES_REPORT(tuv_server_report)
