/* The heap that libtuvaddri_c.a asks for beside memcpy, memmove and memset.  A
 * block is cleared before it is given back, since it may hold keys.  Where the
 * processor doesn't serve, or malloc doesn't align so, there is no memory: tuv_end_new
 * answers false. */
#define _DEFAULT_SOURCE
#include <malloc.h>
#include <stddef.h>
#include <stdlib.h>
#include <string.h>
#include "heap.h"
#include "tuvaddri.h"

static struct block block_at(void *at)
{
	static max_align_t nothing;
	struct block block = { at != NULL, at ? at : (void *) &nothing };

	return block;
}

struct block rattle_alloc(size_t size, size_t align)
{
	if (align > _Alignof(max_align_t) || !tuv_cpu_supported())
		return block_at(NULL);
	return block_at(malloc(size ? size : align));
}

/* The octets in use move to a new block: the old one is cleared, as realloc doesn't. */
struct block rattle_realloc(void *at, size_t kept, size_t size, size_t align)
{
	struct block block = rattle_alloc(size, align);

	if (block.ok) {
		memcpy(block.at, at, kept < size ? kept : size);
		rattle_dealloc(at);
	}
	return block;
}

void rattle_dealloc(void *at)
{
	explicit_bzero(at, malloc_usable_size(at));
	free(at);
}
