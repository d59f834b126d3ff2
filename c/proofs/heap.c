/* heap.c: blocks of each size, with and without memory, moved and given back. */
#include "frama_c.h"
#include "__fc_builtin.h"
#include <stdlib.h>

enum { KEY = 7, MOST = 0x7fffffff };

/* What the C library has of the block: all that was asked for, and maybe more. */
static size_t usable;
static int has_memory, serves, returned;

#define malloc_usable_size(at) usable

static void given_back(void *at)
{
	/*@ check cleared: \forall integer i; 0 <= i < usable ==> ((uint8_t *) at)[i] == 0; */
	returned++;
	free(at);
}

static void *new_block(size_t size)
{
	return has_memory ? malloc(size) : NULL;
}

#define free given_back
#define malloc new_block
#include "../heap.c"
#undef free
#undef malloc

bool tuv_cpu_supported(void)
{
	return serves;
}

static void block_of(size_t size, size_t align)
{
	struct block block = rattle_alloc(size, align);

	/*@ check never_null: block.at != \null; */
	/*@ check one_or_none: block.ok <= 1; */
	if (!block.ok)
		return;
	usable = size ? size : align;
	/*@ check room: \valid((uint8_t *) block.at + (0 .. size - 1)); */
	memset(block.at, KEY, usable);
	returned = 0;
	rattle_dealloc(block.at);
	/*@ check given_back: returned == 1; */
}

/* There is none without memory, without the processor, or at an alignment that malloc lacks. */
static void none_of(int memory, int processor, size_t align)
{
	struct block block;

	has_memory = memory;
	serves = processor;
	block = rattle_alloc(Frama_C_interval(0, MOST), align);
	/*@ check none: block.ok == 0; */
	/*@ check none_has_a_place: block.at != \null; */
	has_memory = serves = 1;
}

/* A block that moves: `kept` of its `had` octets are in use, all are keys. */
static void moved(size_t had, size_t kept, size_t wants, int memory)
{
	struct block old = rattle_alloc(had, 8), block;
	uint8_t *was = old.at;

	if (!old.ok)
		return;
	memset(old.at, KEY, had);
	usable = had;
	has_memory = memory;
	returned = 0;
	block = rattle_realloc(old.at, kept, wants, 8);
	has_memory = 1;
	/*@ check moved_not_null: block.at != \null; */
	/*@ check moved_with_memory: block.ok == memory; */
	/*@ check old_given_back: returned == memory; */
	if (!block.ok) {
		/*@ check stays: \forall integer i; 0 <= i < had ==> was[i] == KEY; */
		return;
	}
	/*@ check moved_room: \valid((uint8_t *) block.at + (0 .. wants - 1)); */
	/*@ check kept: \forall integer i; 0 <= i < kept ==> ((uint8_t *) block.at)[i] == KEY; */
}

int main(void)
{
	none_of(0, 1, 8);
	none_of(1, 0, 8);
	none_of(1, 1, 2 * _Alignof(max_align_t));
	/*@ loop unroll 40; */
	for (size_t size = 0; size < 40; size++) {
		block_of(size, 8);
		block_of(size, 16);
	}
	block_of(1984, 8);
	block_of(9000, 1);
	/*@ loop unroll 20; */
	for (size_t had = 1; had < 20; had++) {
		/*@ loop unroll 20; */
		for (size_t kept = 0; kept <= had; kept++)
			moved(had, kept, had + 8, 1);
		moved(had, had / 2, had / 2 + 1, 1);
		moved(had, had, had + 8, 0);
	}
	return 0;
}
