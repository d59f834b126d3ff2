/* A library whose structs tuv_settings and tuv_report have one field more, `more`,
 * in the eyes of border.c: c/check compiles both with such a header, and programs
 * with today's.  Behind these calls, which get the whole struct, are the proved ones
 * of today's.  A program that doesn't know the field has said nothing of it; else it
 * ends with status 9. */
#include <stdlib.h>
#include <string.h>
#include "tuvaddri.h"

static struct tuv_settings without_more(const struct tuv_settings *settings)
{
	struct tuv_settings whole = *settings;

	if (whole.size != sizeof(whole) || whole.more.at || whole.more.len)
		exit(9);
	whole.size = offsetof(struct tuv_settings, more);
	return whole;
}

#define TAKES_SETTINGS(name, words, handed)				\
	uint8_t todays_##name words;					\
	uint8_t proved_##name words;					\
	uint8_t proved_##name words					\
	{								\
		struct tuv_settings whole = without_more(settings);	\
									\
		return todays_##name handed;				\
	}

#define TAKES_REPORT(name)						\
	bool todays_##name(struct tuv_end *end, struct tuv_report *report);	\
	bool proved_##name(struct tuv_end *end, struct tuv_report *report);	\
	bool proved_##name(struct tuv_end *end, struct tuv_report *report)	\
	{								\
		if (report->size != sizeof(*report))			\
			exit(9);					\
		report->size = offsetof(struct tuv_report, more);	\
		memset(report->more, 7, sizeof(report->more));		\
		return todays_##name(end, report);			\
	}

#include "border.c"
