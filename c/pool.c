/* A heap in an array, for a program without malloc: heap.c's place where there is
 * no system, with TUV_POOL octets; a program compiles it itself for another size
 * (tuv_end_size() and some more for each end).  First fit; blocks that are given
 * back join their neighbours.  One thread.
 *
 * The lines with an @ say what its functions do: c/proved has them proved. */
#include <stdint.h>
#include <string.h>
#include "heap.h"
#include "tuvaddri.h"

#ifndef TUV_POOL
#define TUV_POOL 16384
#endif

/* The pool is units of eight octets.  The first of each block is its head: how many
 * units it has, with this one, and whether it is taken. */
struct unit {
	uint32_t size, taken;
};

enum { UNITS = TUV_POOL / 8 };

static _Alignas(8) struct unit pool[UNITS];

/*@ ghost int head[UNITS + 1]; */	/* whether a unit is a head; the pool's end is one */

/*@ predicate Head{L}(integer i) = \at(head[i], L) != 0;
  @ predicate Taken{L}(integer i) = Head{L}(i) && \at(pool[i].taken, L) != 0;
  @ predicate Free{L}(integer i) = Head{L}(i) && \at(pool[i].taken, L) == 0;
  @ logic integer Size{L}(integer i) = \at(pool[i].size, L);
  @ logic integer After{L}(integer i) = i + Size{L}(i);
  @
  @ // Each head's block ends at a head, and has none within.
  @ predicate Chained{L} = Head{L}(0) && Head{L}(UNITS) &&
  @   (\forall integer i; 0 <= i < UNITS && Head{L}(i) ==>
  @      Size{L}(i) >= 1 && After{L}(i) <= UNITS && Head{L}(After{L}(i))) &&
  @   (\forall integer i, j; 0 <= i < UNITS && Head{L}(i) && i < j < After{L}(i) ==> !Head{L}(j));
  @
  @ // Before the first call the pool has one head, of no size.
  @ predicate Fresh{L} = Size{L}(0) == 0 && Free{L}(0) && Head{L}(UNITS) &&
  @   (\forall integer i; 0 < i < UNITS ==> !Head{L}(i));
  @ predicate Sound{L} = Fresh{L} || Chained{L};
  @
  @ predicate SameUnit{K, L}(integer i) =
  @   \at(pool[i].size, K) == \at(pool[i].size, L) &&
  @   \at(pool[i].taken, K) == \at(pool[i].taken, L);
  @ // The taken blocks but this one are as they were, with all that is in them.
  @ predicate Keeps{K, L}(integer but) =
  @   \forall integer i; 0 <= i < UNITS && i != but && Taken{K}(i) ==>
  @     Head{L}(i) && (\forall integer k; i <= k < After{K}(i) ==> SameUnit{K, L}(k));
  @ // No block but this one becomes taken.
  @ predicate NoMore{K, L}(integer but) =
  @   \forall integer i; 0 <= i < UNITS && i != but && Taken{L}(i) ==> Taken{K}(i);
  @
  @ lemma apart{L}: Chained{L} ==> \forall integer i, j;
  @   0 <= i < j < UNITS && Head{L}(i) && Head{L}(j) ==> After{L}(i) <= j;
  @*/

#ifdef TUV_POOL_MOST	/* (how much of it was ever taken, to choose its size by) */
static size_t most;
size_t pool_most(void);

size_t pool_most(void)
{
	return most;
}

static void note(void)
{
	size_t it, taken = 0;

	for (it = 0; it < UNITS; it += pool[it].size)
		taken += pool[it].taken ? 8 * (size_t) pool[it].size : 0;
	if (taken > most)
		most = taken;
}
#endif

/* The head of a free block of so many units, which is then taken; UNITS if there is
 * none. */
/*@ requires Sound && 1 <= units <= UNITS + 1;
  @ assigns pool[..], head[..];
  @ ensures chained: Chained;
  @ ensures none: \result == UNITS ==> Keeps{Pre, Post}(-1) && NoMore{Pre, Post}(-1) &&
  @   \forall integer i; 0 <= i < UNITS && Free(i) ==> Size(i) < units;
  @ ensures one: \result != UNITS ==> \result < UNITS && Taken(\result) && Size(\result) == units &&
  @   !Taken{Pre}(\result) && Keeps{Pre, Post}(-1) && NoMore{Pre, Post}(\result);
  @*/
static size_t take(size_t units)
{
	size_t it = 0, rest;

	if (!pool[0].size)
		pool[0].size = UNITS;
	/*@ assert Chained; */
	/*@ ghost Begun: ; */
	/*@ loop invariant 0 <= it <= UNITS && Head(it);
	  @ loop invariant Chained;
	  @ loop invariant \forall integer i; 0 <= i < it && Free(i) ==> Size(i) < units;
	  @ loop assigns it;
	  @ loop variant UNITS - it; */
	for (; it < UNITS; it += pool[it].size) {
		if (pool[it].taken || pool[it].size < units)
			continue;
		if (pool[it].size > units) {
			rest = it + units;
			/*@ ghost Splits: ; */
			pool[rest].size = pool[it].size - (uint32_t) units;
			pool[rest].taken = 0;
			pool[it].size = (uint32_t) units;
			/*@ ghost head[rest] = 1; */
			/*@ assert rest == it + units < After{Splits}(it) <= UNITS; */
			/*@ assert Size(it) == units && After(it) == rest && Head(rest) &&
			  @   !Head{Splits}(rest); */
			/*@ assert Size(rest) >= 1 && After(rest) == After{Splits}(it) &&
			  @   Head(After(rest)); */
			/*@ assert \forall integer i; 0 <= i <= UNITS && i != rest ==>
			  @   (Head(i) <==> Head{Splits}(i)); */
			/*@ assert \forall integer i; 0 <= i < UNITS && i != it && i != rest ==>
			  @   SameUnit{Splits, Here}(i); */
			/*@ assert \forall integer i; 0 <= i < UNITS && Head(i) ==>
			  @   Size(i) >= 1 && After(i) <= UNITS && Head(After(i)); */
			/*@ assert \forall integer i; 0 <= i < UNITS && Head(i) && i != it &&
			  @   i != rest ==> After(i) <= it || After{Splits}(it) <= i; */
			/*@ assert \forall integer i, j; 0 <= i < UNITS && Head(i) &&
			  @   i < j < After(i) ==> !Head(j); */
			/*@ assert Chained; */
		}
		/*@ assert Chained && Free(it) && Size(it) == units; */
		/*@ assert !Taken{Pre}(it) && Keeps{Pre, Here}(-1) && NoMore{Pre, Here}(-1); */
		/*@ ghost Found: ; */
		pool[it].taken = 1;
		/*@ assert \forall integer i; 0 <= i < UNITS ==> Size(i) == Size{Found}(i); */
		/*@ assert Chained; */
		/*@ assert Keeps{Pre, Here}(-1) && NoMore{Pre, Here}(it); */
#ifdef TUV_POOL_MOST
		note();
#endif
		return it;
	}
	return UNITS;
}

/* The block of this head is cleared and free, and each free block joins those behind
 * it.  (What has a block reads the pool, so no compiler leaves the clear out.) */
/*@ requires Chained && at < UNITS && Taken(at);
  @ assigns pool[..], head[..];
  @ ensures chained: Chained;
  @ ensures others: Keeps{Pre, Post}(at) && NoMore{Pre, Post}(-1) && !Taken(at);
  @ ensures cleared: \forall integer k; at < k < After{Pre}(at) ==>
  @   pool[k].size == 0 && pool[k].taken == 0;
  @ ensures joined: \forall integer i; 0 <= i < UNITS && Free(i) && After(i) < UNITS ==>
  @   Taken(After(i));
  @*/
static void give_back(size_t at)
{
	size_t it, next, end = at + pool[at].size;

	/*@ loop invariant at + 1 <= it <= end;
	  @ loop invariant \forall integer k; at < k < it ==>
	  @   pool[k].size == 0 && pool[k].taken == 0;
	  @ loop invariant \forall integer k; 0 <= k < UNITS && !(at < k < it) ==>
	  @   SameUnit{Pre, Here}(k);
	  @ loop assigns it, pool[at + 1 .. end - 1];
	  @ loop variant end - it; */
	for (it = at + 1; it < end; it++) {
		pool[it].size = 0;
		pool[it].taken = 0;
	}
	/*@ assert Chained; */
	pool[at].taken = 0;
	/*@ assert Chained; */
	/*@ loop invariant 0 <= it <= UNITS && Head(it);
	  @ loop invariant Chained;
	  @ loop invariant Keeps{Pre, Here}(at) && NoMore{Pre, Here}(-1) && !Taken(at);
	  @ loop invariant \forall integer k; at < k < end ==>
	  @   pool[k].size == 0 && pool[k].taken == 0;
	  @ loop invariant \forall integer i; 0 <= i < it && Free(i) && After(i) < UNITS ==>
	  @   Taken(After(i));
	  @ loop assigns it, next, pool[..], head[..];
	  @ loop variant UNITS - it; */
	for (it = 0; it < UNITS; it += pool[it].size) {
		/*@ loop invariant Chained && Head(it) && it < UNITS;
		  @ loop invariant Keeps{Pre, Here}(at) && NoMore{Pre, Here}(-1) && !Taken(at);
		  @ loop invariant \forall integer k; at < k < end ==>
		  @   pool[k].size == 0 && pool[k].taken == 0;
		  @ loop invariant \forall integer i; 0 <= i < it && Free(i) && After(i) < UNITS ==>
		  @   Taken(After(i));
		  @ loop assigns next, pool[it].size, head[..];
		  @ loop variant UNITS - (it + pool[it].size); */
		while (!pool[it].taken && (next = it + pool[it].size) < UNITS &&
		       !pool[next].taken) {
			/*@ ghost Joins: ; */
			/*@ assert it < next == After(it) && Free(next) && After(next) <= UNITS &&
			  @   Head(After(next)); */
			pool[it].size += pool[next].size;
			/*@ ghost head[next] = 0; */
			/*@ assert After(it) == After{Joins}(next); */
			/*@ assert \forall integer i; 0 <= i <= UNITS && i != next ==>
			  @   (Head(i) <==> Head{Joins}(i)); */
			/*@ assert \forall integer i; 0 <= i < UNITS && i != it ==>
			  @   SameUnit{Joins, Here}(i); */
			/*@ assert \forall integer i; 0 <= i < UNITS && Head(i) && i != it ==>
			  @   After(i) != next; */
			/*@ assert \forall integer i; 0 <= i < UNITS && Head(i) ==>
			  @   Size(i) >= 1 && After(i) <= UNITS && Head(After(i)); */
			/*@ assert \forall integer i, j; 0 <= i < UNITS && Head(i) &&
			  @   i < j < After(i) ==> !Head(j); */
			/*@ assert Chained; */
			/*@ assert After{Joins}(it) == next < After(it) <= UNITS; */
			/*@ assert After(it) > After{LoopCurrent}(it); */
			/*@ assert \forall integer i; 0 <= i < it && Free(i) && After(i) < UNITS ==>
			  @   Free{Joins}(i) && After(i) == After{Joins}(i) &&
			  @   Taken{Joins}(After(i)); */
			/*@ assert \forall integer i; 0 <= i < UNITS && Taken{Joins}(i) ==>
			  @   Taken(i); */
		}
		/*@ assert Free(it) && After(it) < UNITS ==> Taken(After(it)); */
		/*@ assert \forall integer i; 0 <= i < After(it) && Free(i) && After(i) < UNITS ==>
		  @   Taken(After(i)); */
	}
}

/* The `kept` units in use of this block move to a new one of so many units, and the
 * old one is given back.  The head of the new one; UNITS if there is none, and the old
 * one stays. */
/*@ requires Chained && from < UNITS && Taken(from) && 1 <= units <= UNITS + 1;
  @ requires room: kept <= Size(from) - 1 && kept <= units - 1;
  @ assigns pool[..], head[..];
  @ ensures chained: Chained;
  @ ensures none: \result == UNITS ==> Keeps{Pre, Post}(-1) && NoMore{Pre, Post}(-1);
  @ ensures one: \result != UNITS ==>
  @   \result < UNITS && \result != from && Taken(\result) && Size(\result) == units &&
  @   !Taken{Pre}(\result) && Keeps{Pre, Post}(from) && NoMore{Pre, Post}(\result) && !Taken(from);
  @ ensures moved: \result != UNITS ==> \forall integer k; 1 <= k <= kept ==>
  @   pool[\result + k].size == \old(pool[from + k].size) &&
  @   pool[\result + k].taken == \old(pool[from + k].taken);
  @*/
static size_t move(size_t from, size_t kept, size_t units)
{
	size_t to = take(units), n;

	if (to == UNITS)
		return UNITS;
	/*@ ghost Copies: ; */
	/*@ assert \forall integer k; from <= k < After{Pre}(from) ==> SameUnit{Pre, Copies}(k); */
	/*@ assert to != from && Taken(from) && Taken(to) && (After(to) <= from ||
	  @   After(from) <= to); */
	/*@ loop invariant 0 <= n <= kept;
	  @ loop invariant \forall integer k; 0 <= k < UNITS && !(to < k <= to + n) ==>
	  @   SameUnit{Copies, Here}(k);
	  @ loop invariant \forall integer k; 1 <= k <= n ==>
	  @   pool[to + k].size == \at(pool[from + k].size, Copies) &&
	  @   pool[to + k].taken == \at(pool[from + k].taken, Copies);
	  @ loop assigns n, pool[to + 1 .. to + kept];
	  @ loop variant kept - n; */
	for (n = 0; n < kept; n++)
		pool[to + 1 + n] = pool[from + 1 + n];
	/*@ assert \forall integer i; 0 <= i < UNITS && Head(i) ==> SameUnit{Copies, Here}(i); */
	/*@ assert Chained && Taken(from) && Taken(to) && Size(to) == units; */
	/*@ assert Keeps{Pre, Here}(-1) && NoMore{Pre, Here}(to); */
	/*@ ghost Gives: ; */
	give_back(from);
	/*@ assert Keeps{Gives, Here}(from) && NoMore{Gives, Here}(-1); */
	/*@ assert Taken(to) && \forall integer k; to <= k < After{Gives}(to) ==>
	  @   SameUnit{Gives, Here}(k); */
	/*@ assert Keeps{Pre, Here}(from); */
	return to;
}

/* From here on places, not numbers of units, of which c/proved says nothing. */
static size_t head_of(void *at)
{
	return (size_t) ((struct unit *) at - pool) - 1;
}

static struct block block_of(size_t at)
{
	struct block block = { at < UNITS, at < UNITS ? pool + at + 1 : pool };

	return block;
}

static bool serves(size_t size, size_t align)
{
	return size <= TUV_POOL && align <= 8 && tuv_cpu_supported();
}

static size_t units_of(size_t octets)
{
	return (octets + 7) / 8;
}

struct block rattle_alloc(size_t size, size_t align)
{
	return block_of(serves(size, align) ? take(units_of(size) + 1) : UNITS);
}

void rattle_dealloc(void *at)
{
	give_back(head_of(at));
}

struct block rattle_realloc(void *at, size_t kept, size_t size, size_t align)
{
	size_t units = units_of(kept < size ? kept : size);

	return block_of(serves(size, align) ? move(head_of(at), units, units_of(size) + 1) : UNITS);
}
