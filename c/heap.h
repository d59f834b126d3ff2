/* The heap that the library asks for: heap.c, pool.c, or the program's own. */
#ifndef TUV_HEAP_H
#define TUV_HEAP_H
#include <stddef.h>
#include <stdint.h>

/* 1 and where a block is, or 0 where there is no memory; the place is never null.
 * (The library reads two words.  C leaves seven octets of a bool open.) */
struct block {
	uint64_t ok;
	void *at;
};

/* A block of `size` octets, at a multiple of `align`; none where the heap has no such
 * multiple. */
struct block rattle_alloc(size_t size, size_t align);

/* A block of `size` octets whose first ones are the `kept` octets in use of the old
 * block, or as many as fit; the old block is cleared and given back.  It may have more
 * octets than `kept`, with keys in them, so it is not cleared by that number.  Where
 * there is no memory it stays as it was. */
struct block rattle_realloc(void *at, size_t kept, size_t size, size_t align);

/* It clears what it gives back: the whole block, whatever was asked for. */
void rattle_dealloc(void *at);

#endif
