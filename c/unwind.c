/* unwind METHOD SUITE KEY NONCE..
 *
 * examples/both.c, whose main is `log_both_in` here, over a heap that looks at who asks for each
 * block: the status is 1 if backtrace(3) doesn't come from there, through the library, to
 * what called `log_both_in`, or if no block was asked for within the library. */
#include <execinfo.h>
#include <stdbool.h>
#include <stdint.h>
#include <stdio.h>
#include <stdlib.h>

int log_both_in(int argc, char **argv);
void *unwind_malloc(size_t size);

enum { DEPTH = 64 };

static void *caller;
static unsigned asked, lost;

/* Whether the caller is among those that wait for what is called here. */
static bool is_below(void)
{
	void *places[DEPTH];
	int n = backtrace(places, DEPTH);

	while (n > 0)
		if (places[--n] == caller)
			return true;
	return false;
}

void *unwind_malloc(size_t size)
{
	asked++;
	lost += !is_below();
	return malloc(size);
}

/* (kept apart from main, so that its return address is one place) */
__attribute__((noinline)) static int between(int argc, char **argv)
{
	int status;

	caller = __builtin_return_address(0);
	status = log_both_in(argc, argv);
	return status ? status : asked == 0 || lost != 0;
}

int main(int argc, char **argv)
{
	int status = between(argc, argv);

	fprintf(stderr, "unwind: of %u blocks %u without their caller\n", asked, lost);
	return status;
}
