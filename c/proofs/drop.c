/* The end of a handle: it is closed, its block given back, it is null, and the stack is cleared, in
 * this order.  A second time clears the stack alone. */
#include "frama_c.h"
#include "__fc_builtin.h"
#include "../border.c"

enum { BEFORE, CLOSED, GIVEN_BACK, CLEARED };

static uint8_t block[1984];
static int step;

void tuv_end_close(struct tuv_end *end)
{
	/*@ check closes_first: step == BEFORE; */
	/*@ check closes_block: end->at == &block[0]; */
	step = CLOSED;
}

void rattle_dealloc(void *at)
{
	/*@ check gives_back_closed: step == CLOSED; */
	/*@ check gives_back_block: at == &block[0]; */
	step = GIVEN_BACK;
}

void tuv_clear_stack(void)
{
	/*@ check clears_last: step == GIVEN_BACK; */
	step = CLEARED;
}

int main(void)
{
	struct tuv_end end = { block };

	tuv_end_free(&end);
	/*@ check cleared: step == CLEARED; */
	/*@ check null: end.at == \null; */
	step = GIVEN_BACK;	/* (nothing but the stack is left to do) */
	tuv_end_free(&end);
	/*@ check cleared_again: step == CLEARED; */
	/*@ check null_again: end.at == \null; */
	return 0;
}
