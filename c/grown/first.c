/* What a program of the first calls of version 2 wrote in place of tuv_end_free,
 * which was added: c/check compiles it by -Dtuv_end_free=first_end_free. */
#define _DEFAULT_SOURCE
#include <stdlib.h>
#include <string.h>
#include "tuvaddri.h"

void tuv_end_free(struct tuv_end *end)
{
	tuv_end_close(end);
	explicit_bzero(end->at, tuv_end_size());
	free(end->at);
	tuv_clear_stack();
}
