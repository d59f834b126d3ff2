/* words
 *
 * Writes what the library is, and each number that has a word, with its word. */
#include <inttypes.h>
#include <stdio.h>
#include "tuvaddri.h"

static void write_words(const char *kind, const char *(*word_of)(uint8_t))
{
	unsigned int number;

	for (number = 0; number <= UINT8_MAX; number++)
		if (word_of((uint8_t) number)[0] != '?')
			printf("%s %u %s\n", kind, number, word_of((uint8_t) number));
}

int main(void)
{
	struct tuv_turn turn = { .discards = true, .cause = TUV_CAUSE_BAD_TAG,
				 .state = TUV_STATE_IDLE };
	char text[TUV_TEXT_MAX];

	tuv_turn_text(turn, text);
	printf("%s\nversion %" PRIu32 "\nturn %s\n", tuv_ident, tuv_version(), text);
	write_words("cause", tuv_cause_word);
	write_words("state", tuv_state_word);
	write_words("supplicant", tuv_supplicant_word);
	write_words("port", tuv_port_word);
	write_words("answer", tuv_refusal_word);
	write_words("reason", tuv_failure_word);
	return 0;
}
