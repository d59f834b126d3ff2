/* How deep into the stack calls go: paint() before them, deepest() behind them,
 * from one function. */
#ifndef STACK_PAINT_H
#define STACK_PAINT_H

#include <stddef.h>
#include <stdint.h>
#include "tuvaddri.h"

enum { PAINT = 0xa5, PAINTED = 8 * TUV_STACK_MAX };

/* Paints the stack below the caller. */
__attribute__((noinline)) static void paint(void)
{
	volatile uint8_t room[PAINTED];
	size_t i;

	for (i = 0; i < sizeof(room); i++)
		room[i] = PAINT;
}

/* The octets below the caller down to where the paint is left.  (An Arm frame's
 * address is its lower end, so that the paint ends above PAINTED octets below.) */
__attribute__((noinline)) static size_t deepest(void)
{
	const volatile uint8_t *top = __builtin_frame_address(0);
	size_t depth = PAINTED - 256;

	while (depth && *(top - depth) == PAINT)
		depth--;
	return depth;
}

#endif
