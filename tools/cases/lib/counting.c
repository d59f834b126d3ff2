/* A malloc that counts its calls, of which the one of the number FAILING fails, and tells them at the end. */
#include <stdio.h>
#include <stdlib.h>
void *__libc_malloc(size_t size);
void *__libc_realloc(void *at, size_t size);
static unsigned long calls, failing;
__attribute__((constructor)) static void begin(void) { failing = getenv("FAILING") ? strtoul(getenv("FAILING"), NULL, 10) : 0; }
void *malloc(size_t size) { return ++calls == failing ? NULL : __libc_malloc(size); }
void *realloc(void *at, size_t size) { return ++calls == failing ? NULL : __libc_realloc(at, size); }
__attribute__((destructor)) static void tell(void) { fprintf(stderr, "malloced by %lu calls\n", calls); }
