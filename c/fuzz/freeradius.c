/* What the module for FreeRADIUS makes of a key from a store, and of a text for the log,
 * by libFuzzer: `key_of` and `quoted` as they stand in its sources (cut.h, which `run`
 * writes), with the little of FreeRADIUS that they ask for.  The first octet of an input
 * says whether the value is a string. */
#define _DEFAULT_SOURCE
#include <ctype.h>
#include <stdbool.h>
#include <stdint.h>
#include <stdio.h>
#include <stdlib.h>
#include <string.h>
#include "tuvaddri.h"

enum { PW_TYPE_STRING = 1, PW_TYPE_OCTETS = 6 };

typedef struct {
	int type;
} DICT_ATTR;

typedef struct {
	DICT_ATTR const *da;
	size_t vp_length;
	union {
		char const *vp_strvalue;
		uint8_t const *vp_octets;
	};
} VALUE_PAIR;

typedef void TALLOC_CTX;
#define talloc_array(ctx, type, count) ((void) (ctx), (type *) malloc((count) * sizeof(type)))

int LLVMFuzzerTestOneInput(const uint8_t *data, size_t len);

static const char digits[] = "0123456789abcdef";

/* As FreeRADIUS 3.2 has it, to which an octet of 0 is a digit too. */
static size_t fr_hex2bin(uint8_t *bin, size_t outlen, char const *hex, size_t inlen)
{
	size_t n, most = inlen / 2 < outlen ? inlen / 2 : outlen;

	for (n = 0; n < most; n++) {
		const char *one = memchr(digits, tolower((unsigned char) hex[2 * n]), sizeof(digits));
		const char *two = memchr(digits, tolower((unsigned char) hex[2 * n + 1]), sizeof(digits));

		if (!one || !two)
			break;
		bin[n] = (uint8_t) ((one - digits) * 16 + (two - digits));
	}
	return n;
}

#include "cut.h"

static void hold(bool is_so, const char *what)
{
	if (!is_so) {
		fprintf(stderr, "%s\n", what);
		abort();
	}
}

/* The value of a hexadecimal digit, or -1. */
static int digit(uint8_t octet)
{
	const char *at = octet ? strchr(digits, tolower(octet)) : NULL;

	return at ? (int) (at - digits) : -1;
}

static bool is_hex(const uint8_t *at, size_t len)
{
	while (len--)
		if (digit(*at++) < 0)
			return false;
	return true;
}

/* "0x" and two digits for each of up to TUV_KEY_MAX octets are these octets, and with
 * anything else behind "0x" no key; every other value is itself, where it isn't longer. */
static void try_key(const uint8_t *at, size_t len, bool is_string)
{
	DICT_ATTR da = { is_string ? PW_TYPE_STRING : PW_TYPE_OCTETS };
	VALUE_PAIR vp = { .da = &da, .vp_length = len, .vp_octets = at };
	uint8_t room[TUV_KEY_MAX];
	size_t i, made = key_of(&vp, room), wants = len <= TUV_KEY_MAX ? len : 0;

	if (is_string && len > 2 && at[0] == '0' && at[1] == 'x') {
		wants = is_hex(at + 2, len - 2) && len % 2 == 0 && len / 2 - 1 <= TUV_KEY_MAX ? len / 2 - 1 : 0;
		hold(made == wants, "a key of hex that is none, or the other way round");
		for (i = 0; i < made; i++)
			hold(room[i] == 16 * digit(at[2 + 2 * i]) + digit(at[3 + 2 * i]), "another octet than the digits say");
	} else
		hold(made == wants && (!made || memcmp(room, at, made) == 0), "a key is another one than the value");
}

/* Between two quotes stand printable characters alone, none of them a quote. */
static void try_text(const uint8_t *at, size_t len)
{
	char *shown = quoted(NULL, at, len);
	size_t i;

	if (!shown)
		return;
	hold(shown[0] == '"', "no quote begins the text");
	for (i = 1; shown[i] && shown[i] != '"'; i++)
		hold(shown[i] >= ' ' && shown[i] <= '~', "a line may be forged");
	hold(shown[i] == '"', "no quote ends the text");
	hold(strcmp(shown + i + 1, len > MOST_SHOWN ? ".." : "") == 0, "something stands behind the text");
	free(shown);
}

int LLVMFuzzerTestOneInput(const uint8_t *data, size_t len)
{
	size_t value = len ? len - 1 : 0;
	bool is_string = len && data[0] & 1;
	/* (a string has a 0 behind it, other octets have nothing there) */
	uint8_t *at = malloc(value + is_string + !len);

	hold(at != NULL, "no memory");
	if (value)
		memcpy(at, data + 1, value);
	if (is_string)
		at[value] = 0;
	try_key(at, value, is_string);
	try_text(at, value);
	free(at);
	return 0;
}
