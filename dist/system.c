/* What the program eap_login asks of the system: its arguments, its heap, its errors, and the
 * processor.  read, memcpy, memmove and memset are libc's.
 *
 * Where the kit is, its archives libos_c.a and liblibc_c.a and glibc have these calls.  Each here
 * does what it does there, by any libc. */
#include <errno.h>
#include <signal.h>
#include <stddef.h>
#include <stdint.h>
#include <stdlib.h>
#include <unistd.h>

/* Whether there is memory, and where: the place is never null. */
struct block {
	uint64_t ok;
	void *at;
};

int __real_main(void);
int __wrap_main(int argc, char **argv);
int64_t rattle_arg(uint64_t which, uint8_t *room, uint64_t size);
struct block rattle_alloc(uint64_t size, uint64_t align);
struct block rattle_realloc(void *at, uint64_t kept, uint64_t size, uint64_t align);
void rattle_dealloc(void *at);
int rattle_errno(void);
void rattle_set_errno(int number);

/* The program's main takes no arguments: the linker's --wrap=main has this one called first. */
static uint64_t count;
static char **words;

int __wrap_main(int argc, char **argv)
{
	count = (uint64_t) argc;
	words = argv;
	return __real_main();
}

/*@ predicate Words =
  @   (count == 0 || \valid_read(words + (0 .. count - 1))) && count <= 0x7fffffff &&
  @   \forall integer i; 0 <= i < count ==> words[i] == \null ||
  @     (valid_read_string(words[i]) && strlen(words[i]) <= 0x7fffffff);
  @*/

/* The octets of an argument, and how many: -1 if there is none, -2 if there is no room for it.
 * (The lines with an @ say it again: c/proved has them proved.) */
/*@ requires Words && \valid(room + (0 .. size - 1));
  @ requires \separated(room + (0 .. size - 1), words + (0 .. count - 1), &words, &count);
  @ requires which < count && words[which] != \null ==>
  @   \separated(room + (0 .. size - 1), words[which] + (0 ..));
  @ assigns room[0 .. size - 1];
  @ ensures none: \result == -1 <==> which >= count || words[which] == \null;
  @ ensures long: \result == -2 <==>
  @   which < count && words[which] != \null && strlen(words[which]) > size;
  @ ensures full: \result == -2 ==>
  @   \forall integer i; 0 <= i < size ==> room[i] == (uint8_t) words[which][i];
  @ ensures whole: \result >= 0 ==> \result == strlen(words[which]) <= size &&
  @   \forall integer i; 0 <= i < \result ==> room[i] == (uint8_t) words[which][i];
  @ ensures one: \result >= -2;
  @*/
int64_t rattle_arg(uint64_t which, uint8_t *room, uint64_t size)
{
	uint64_t n;

	if (which >= count || !words[which])
		return -1;
	/*@ loop invariant 0 <= n <= strlen(words[which]) && n <= size;
	  @ loop invariant \forall integer i; 0 <= i < n ==> room[i] == (uint8_t) words[which][i];
	  @ loop assigns n, room[0 .. size - 1];
	  @ loop variant strlen(words[which]) - n; */
	for (n = 0; words[which][n]; n++) {
		if (n == size)
			return -2;
		room[n] = (uint8_t) words[which][n];
	}
	return (int64_t) n;
}

static struct block block_at(void *at)
{
	static max_align_t nothing;
	struct block block = { at != NULL, at ? at : (void *) &nothing };

	return block;
}

/* A block of no octets has a place too.  No more alignment is asked for than malloc gives. */
struct block rattle_alloc(uint64_t size, uint64_t align)
{
	return block_at(malloc(size ? size : align));
}

/* The `kept` octets in use stay, as all that fit do.  Without memory the old block stays as it was. */
struct block rattle_realloc(void *at, uint64_t kept, uint64_t size, uint64_t align)
{
	(void) kept;
	return block_at(realloc(at, size ? size : align));
}

void rattle_dealloc(void *at)
{
	free(at);
}

int rattle_errno(void)
{
	return errno;
}

void rattle_set_errno(int number)
{
	errno = number;
}

/* The program has glibc's own names for these two. */
uintptr_t handled(int number, uintptr_t handler) __asm__("__sysv_signal");
ssize_t written(int file, const void *octets, size_t size) __asm__("__write");

/* It ignores SIGPIPE by this, so that a closed pipe is an error of the write. */
uintptr_t handled(int number, uintptr_t handler)
{
	return (uintptr_t) signal(number, (void (*)(int)) handler);
}

ssize_t written(int file, const void *octets, size_t size)
{
	return write(file, octets, size);
}

#ifdef __x86_64__
#include <cpuid.h>

/* What CPUID says: eax, ebx, ecx, edx of leaf 1 (0 here) or 80000001 (2 here), and behind them the
 * same as far as the system lets it be used.  The program asks for ecx, of which nothing takes the
 * system's leave: SSE3, SSSE3, SSE4.1, SSE4.2, POPCNT, CMPXCHG16B, LAHF. */
const uint32_t *features(uint32_t leaf) __asm__("__x86_get_cpuid_feature_leaf");

const uint32_t *features(uint32_t leaf)
{
	static uint32_t found[3][8];
	uint32_t *at = found[leaf == 2 ? 2 : 0];
	int n;

	__get_cpuid(leaf == 2 ? 0x80000001 : 1, &at[0], &at[1], &at[2], &at[3]);
	for (n = 0; n < 4; n++)
		at[4 + n] = at[n];
	return at;
}
#endif
