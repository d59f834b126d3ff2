/* words.c: each number has a word, and the text of each turn fits into its room. */
#include "frama_c.h"
#include "__fc_builtin.h"
#include "../words.c"

enum { CAUSES = sizeof(causes) / sizeof(causes[0]), STATES = sizeof(states) / sizeof(states[0]) };

static char room[TUV_TEXT_MAX];

/* An octet of 0 comes behind at most so many others. */
static void is_text(const char *at, int most)
{
	int n = 0;

	/*@ check there: at != \null; */
	/*@ loop unroll 100; */
	while (at[n])
		n++;
	/*@ check has_octets: n > 0; */
	/*@ check fits: n <= most; */
}

/* A number; those that have no word are tried at once. */
static uint8_t number(int n, int words)
{
	return (uint8_t) (n < words ? n : Frama_C_interval(words, 255));
}

static uint8_t any(int most)
{
	return (uint8_t) Frama_C_interval(0, most);
}

static void text_of(bool misplaced, bool discards, bool sends, uint8_t cause, uint8_t state)
{
	struct tuv_turn turn;

	turn.misplaced = misplaced;
	turn.discards = discards;
	turn.sends = sends;
	turn.cause = cause;
	turn.state = state;
	memset(room, 'x', sizeof(room));
	tuv_turn_text(turn, room);
	is_text(room, TUV_TEXT_MAX - 1);
}

int main(void)
{
	/*@ loop unroll 256; */
	for (int n = 0; n < 256; n++) {
		is_text(tuv_cause_word((uint8_t) n), 15);
		is_text(tuv_state_word((uint8_t) n), 22);
		is_text(tuv_supplicant_word((uint8_t) n), 22);
		is_text(tuv_port_word((uint8_t) n), 22);
		is_text(tuv_refusal_word((uint8_t) n), 11);
		is_text(tuv_failure_word((uint8_t) n), 11);
	}
	text_of(true, any(1), any(1), any(255), any(255));
	/*@ loop unroll 40; */
	for (int state = 0; state <= STATES; state++) {
		text_of(false, false, true, any(255), number(state, STATES));
		text_of(false, false, false, any(255), number(state, STATES));
		/*@ loop unroll 80; */
		for (int cause = 0; cause <= CAUSES; cause++)
			text_of(false, true, any(1), number(cause, CAUSES), number(state, STATES));
	}
	return 0;
}
