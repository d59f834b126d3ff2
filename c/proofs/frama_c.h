/* What the library's C takes for granted and Frama-C 25 lacks.  c/proved includes it before all
 * else: its own parser comes behind the preprocessor. */
#ifndef TUV_FRAMA_C_H
#define TUV_FRAMA_C_H
#include <stddef.h>
#include <stdint.h>
#include <string.h>

/* A static assert that doesn't hold is an array of a negative size. */
#define _Static_assert(holds, why) extern char frama_c_holds[(holds) ? 1 : -1]

typedef struct {
	long double most[2];
} max_align_t;

#define _Alignof __alignof__
#define _Alignas(octets)

/* (the name of a function in its object, of which no proof speaks) */
#define __asm__(name)

/* (that no compiler leaves it out is nothing that a value shows) */
#define explicit_bzero(at, len) memset(at, 0, len)

/*@ requires \valid((char *) at);
  @ assigns \nothing; */
size_t malloc_usable_size(void *at);

#endif
