/* fuzz SEED CALLS
 *
 * Random calls at a peer, a server or backend, and a pass-through, in and out of
 * place, with the packets that they send: as they are, altered, cut, repeated or
 * made up.  Each login begins with fresh nonces, and so does each restart.  At
 * every call this holds, or the exit status is 1:
 *
 * - it is misplaced exactly where the header says, by a model of the ends; then,
 *   and at a discard, no octet of the block behind the handle changes but the
 *   one that says that nothing is sent;
 * - a begin, or a user, is refused exactly where the header says, by the lowest
 *   number; then the block stays as it was, octet for octet;
 * - after a call that sends nothing the packet has no octets, and the one that
 *   was sent last since the begin or restart can be had again;
 * - a packet is asked for by a room that is too small and then by one that fits;
 * - no call takes memory but tuv_end_new, of tuv_end_size octets, and the begins:
 *   one block, and a server and a backend two;
 * - an end's report has its own nonce and names and a suite that both allow;
 *   whenever both ends hold a report, both hold the same, with the same
 *   Session-Ids, and none where their keys differ;
 * - a login that nothing disturbs ends as the settings say, at both ends, and
 *   with the reasons that the header gives; then each end begins again by a
 *   restart, without memory or a report, and it ends as before.
 *
 * Whatever is handed in or written to ends before a page that can't be touched, and
 * what lies before it stays: handles, octets, nonces, rooms, reports, and settings of
 * as many octets as their `size` says (or of `size` alone, where it is over what the
 * header reads).  Names,
 * keys, Identifiers, sizes and counts are at one of their limits in one of eight.
 *
 * heap.c is compiled with -Dmalloc=fuzz_malloc -Dfree=fuzz_free: in between each
 * allocation of a login fails in its turn, and what was refused succeeds when it is
 * asked again; each block is given back cleared.
 *
 * Before them, whatever the seed: each limit of settings, at the last that it allows
 * and one past it, and a block that grows and shrinks. */
#define _DEFAULT_SOURCE
#include <malloc.h>
#include <stdio.h>
#include <stdlib.h>
#include <string.h>
#include <sys/mman.h>
#include <unistd.h>
#include "fuzz.h"
#include "heap.h"

void *fuzz_malloc(size_t size);
void fuzz_free(void *at);

/* The allocation that fails, counted from 1; none where it is 0. */
static unsigned long fails_at, allocations;
static size_t taken;	/* octets, by the last one */

void *fuzz_malloc(size_t size)
{
	taken = size;
	return ++allocations == fails_at ? NULL : malloc(size);
}

/* What a call came to, of either kind. */
struct turn {
	bool sends, discards, misplaced;
	uint8_t cause, state;
};

static struct tuv_end *ends[HANDLES];
struct model models[HANDLES];
static uint8_t *before;		/* the block as it was before a call */
static struct packet sent, kept[8];
static enum handle to;		/* where `sent` goes, and by which call */
static enum call by;
enum setting setting;
struct tuv_settings told[2], user;
unsigned int user_after;
bool keys_agree;
static unsigned long calls, logins, again, discarded, misplaced, refused, failed;
static uint64_t state;
/* What is drawn first: a fuzzer's input (fuzz/library.c), or nothing. */
static const uint8_t *input;
static size_t input_len;

static uint32_t of_input(uint32_t below)
{
	uint32_t most, n = 0;

	for (most = below - 1; most && input_len; most >>= 8, input_len--)
		n = n << 8 | *input++;
	return n % below;
}

static uint32_t any(uint32_t below)
{
	if (input_len)
		return of_input(below);
	state = state * 6364136223846793005u + 1442695040888963407u;
	return (uint32_t) (state >> 33) % below;
}

/* Any number of these, in one of eight the least or the greatest. */
static uint32_t among(uint32_t least, uint32_t most)
{
	if (any(8) == 0)
		return any(2) ? least : most;
	return least + any(most - least + 1);
}

static void fill(uint8_t *at, size_t len)
{
	while (len--)
		*at++ = any(256);
}

static bool is_filled(const uint8_t *at, uint8_t octet, size_t len)
{
	while (len--)
		if (*at++ != octet)
			return false;
	return true;
}

static void fail(const char *why)
{
	printf("fuzz: %s, after %lu calls\n", why, calls);
	exit(1);
}

/* Places that end before a page which can't be touched, each used again after
 * PLACES more: those of one call, of one login, and of the handles. */
enum { PLACES = 64, ROOM = 8192, FRONT = 32 };
struct place {
	uint8_t *at, *used;
};
struct pool {
	struct place places[PLACES];
	unsigned int next;
};
static struct pool passing, lasting, standing;

static void hold_front(const struct place *place)
{
	if (place->used && !is_filled(place->used - FRONT, 0xa5, FRONT))
		fail("what lies before a place is written");
}

static uint8_t *guarded(struct pool *pool, size_t len)
{
	struct place *place = &pool->places[pool->next++ % PLACES];
	size_t page = sysconf(_SC_PAGESIZE);
	size_t room = ROOM > page ? ROOM : page;

	if (!place->at) {
		place->at = mmap(NULL, room + page, PROT_READ | PROT_WRITE,
				 MAP_PRIVATE | MAP_ANONYMOUS, -1, 0);
		if (place->at == MAP_FAILED || mprotect(place->at + room, page, PROT_NONE))
			exit(5);
	}
	hold_front(place);
	place->used = place->at + room - len;
	memset(place->used - FRONT, 0xa5, FRONT);
	return place->used;
}

static struct tuv_end *new_handle(struct pool *pool)
{
	return (void *) guarded(pool, sizeof(struct tuv_end));
}

/* Octets for one call. */
static uint8_t *copied(const void *octets, size_t len)
{
	return memcpy(guarded(&passing, len), octets, len);
}

/* Octets for one login. */
static struct tuv_octets kept_octets(const uint8_t *octets, size_t len)
{
	uint8_t *at = guarded(&lasting, len);

	memcpy(at, octets, len);
	return (struct tuv_octets) { at, len };
}

static struct tuv_octets new_octets(size_t len)
{
	uint8_t *at = guarded(&lasting, len);

	fill(at, len);
	return (struct tuv_octets) { at, len };
}

static void remember(enum handle h)
{
	calls++;
	memcpy(before, ends[h]->at, tuv_end_size());
}

void fuzz_free(void *at)
{
	if (!is_filled(at, 0, malloc_usable_size(at)))
		fail("a block is given back with what it held");
	free(at);
}

/* So many octets of the block may have changed. */
static void same(enum handle h, size_t but, const char *why)
{
	const uint8_t *now = ends[h]->at;
	size_t i, size = tuv_end_size();

	if (memcmp(before, now, size) == 0)
		return;
	for (i = 0; i < size; i++)
		if (before[i] != now[i] && but-- == 0)
			fail(why);
}

static struct turn of(struct tuv_turn turn)
{
	return (struct turn) { turn.sends, turn.discards, turn.misplaced,
			       turn.cause, turn.state };
}

static struct turn of_method(struct tuv_method_turn turn)
{
	if (turn.state > TUV_METHOD_DONE || turn.decision > TUV_DECISION_UNCOND_SUCC)
		fail("a method has no such state or decision");
	return (struct turn) { turn.sends, turn.discards, turn.misplaced,
			       turn.cause, turn.state };
}

static const uint8_t *fresh(enum handle h)
{
	fill(models[h].nonce, TUV_NONCE_LEN);
	return copied(models[h].nonce, TUV_NONCE_LEN);
}

/* The call of any end, or that of the handle's role. */
#define BY_ROLE(h, name) (any(2) ? tuv_end_##name \
			  : (h) == PEER ? tuv_peer_##name : tuv_server_##name)

/* A restart's nonce counts where it has its place. */
static struct tuv_turn restarted(enum handle h)
{
	uint8_t nonce[TUV_NONCE_LEN];
	struct tuv_turn turn;

	fill(nonce, sizeof(nonce));
	turn = BY_ROLE(h, restart)(ends[h], copied(nonce, sizeof(nonce)));
	if (!turn.misplaced)
		memcpy(models[h].nonce, nonce, sizeof(nonce));
	return turn;
}

static struct turn call_of(enum handle h, enum call c, const uint8_t *at,
			   size_t len)
{
	struct tuv_end *end = ends[h];

	switch (c) {
	case DELIVER: return of(BY_ROLE(h, deliver)(end, at, len));
	case PEER_METHOD: return of_method(tuv_peer_method_handle(end, at, len));
	case SERVER_METHOD:
		return of_method(tuv_server_method_handle(end, at, len,
							  among(0, 255)));
	case FROM_PEER: return of(tuv_pass_from_peer(end, at, len));
	case FROM_BACKEND: return of(tuv_pass_from_backend(end, at, len));
	case START: return of(tuv_server_start(end));
	case TIMEOUT: return of(tuv_server_timeout(end));
	case IDLE: return of(tuv_peer_idle(end));
	case ACCEPT: return of(tuv_peer_alt_accept(end));
	case REJECT: return of(tuv_peer_alt_reject(end));
	case PASS_START: return of(tuv_pass_start(end));
	case PASS_TIMEOUT: return of(tuv_pass_timeout(end));
	case AAA_TIMEOUT: return of(tuv_pass_aaa_timeout(end));
	case AAA_NOREQ: return of(tuv_pass_aaa_noreq(end));
	case RESTART: return of(restarted(h));
	default: return of(tuv_pass_restart(end));
	}
}

/* Where a packet goes that this handle sends at this call. */
static void route(enum handle h, enum call c)
{
	if (setting == METHODS) {
		to = h == PEER ? SERVER : PEER;
		by = h == PEER ? SERVER_METHOD : PEER_METHOD;
	} else if (setting == ALONE || (h == PASS && c == FROM_PEER)) {
		to = h == SERVER ? PEER : SERVER;
		by = DELIVER;
	} else {
		to = h == PASS ? PEER : PASS;
		by = h == PASS ? DELIVER : h == PEER ? FROM_PEER : FROM_BACKEND;
	}
}

/* Asks for a packet, first by a room that is too small; its length. */
static size_t ask(enum handle h, size_t (*which)(struct tuv_end *, uint8_t *, size_t),
		  struct packet *packet)
{
	static const uint8_t untouched[3] = { 1, 2, 3 };
	uint8_t *small = copied(untouched, sizeof(untouched)), *room;

	packet->len = which(ends[h], small, sizeof(untouched));
	if (packet->len > TUV_PACKET_MAX ||
	    memcmp(small, untouched, sizeof(untouched)) != 0)
		fail("a packet is cut or lost");
	room = guarded(&passing, packet->len);
	if (which(ends[h], room, packet->len) != packet->len)
		fail("a packet is lost");
	memcpy(packet->octets, room, packet->len);
	return packet->len;
}

/* What is to be had of an end is what its model says. */
static void hold_packets(enum handle h)
{
	static struct packet packet;
	struct model *m = &models[h];

	remember(h);
	if (ask(h, tuv_end_packet, &packet) != (m->sends ? m->last.len : 0) ||
	    memcmp(packet.octets, m->last.octets, packet.len) != 0)
		fail("a packet isn't that of the last turn");
	if (ask(h, tuv_end_last_packet, &packet) != m->last.len ||
	    memcmp(packet.octets, m->last.octets, packet.len) != 0)
		fail("the packet isn't the one that was sent last");
	same(h, 0, "asking for a packet changes the end");
}

/* Whether it is this message of a method, in either form (RFC 3748 section 5.7): 1 is
 * the first Request, 2 the first Response. */
static bool is_message(const struct packet *p, uint8_t number)
{
	static const uint8_t wrapped[7] = { 254 };
	const uint8_t *at = p->octets + 4;
	bool expanded = p->len > 13 && memcmp(at, wrapped, sizeof(wrapped)) == 0;

	at += expanded ? 7 : 0;
	return p->len > 6 && ((at[0] == TUV_KIND_PSK && at[1] >> 6 == number - 1) ||
			      (at[0] == TUV_KIND_GPSK && at[1] == number));
}

/* The name in what an end has sent is its own, and is where it belongs alone. */
static void hold_name(enum handle h)
{
	static size_t (*const ask[2])(const uint8_t *, size_t, uint8_t *) =
		{ tuv_response_name, tuv_request_name };
	const uint8_t *octets = copied(sent.octets, sent.len);

	for (int i = 0; i < 2; i++) {
		uint8_t *room = guarded(&passing, TUV_NAME_MAX);
		size_t len = ask[i](octets, sent.len, room);
		bool has = i == (h == SERVER) && is_message(&sent, 2 - i);

		calls++;
		if (len != (has ? told[i].name.len : 0) ||
		    memcmp(room, told[i].name.at, len) != 0)
			fail("the name in a packet is another");
	}
}

/* Takes the packet of the last call. */
static void take(enum handle h, enum call c)
{
	ask(h, tuv_end_packet, &sent);
	if (sent.len < 4 || (size_t) (sent.octets[2] << 8 | sent.octets[3]) != sent.len)
		fail("a packet has another Length");
	models[h].last = sent;
	if (h != PASS)
		hold_name(h);
	route(h, c);
	kept[any(8)] = sent;
}

static bool known(const struct tuv_octets *name, const uint8_t *at, uint8_t len)
{
	return name->len == len && memcmp(name->at, at, len) == 0;
}

/* A report of a size that is refused is read no further, and not written. */
static void ask_refused(enum handle h)
{
	size_t size = any(2) ? among(1, REPORT_FIRST - 1)
			     : among(SETTINGS_MOST + 1, UINT32_MAX - 1);
	uint8_t *at = copied(&size, sizeof(size));

	remember(h);
	if (BY_ROLE(h, report)(ends[h], (void *) at) || memcmp(at, &size, sizeof(size)) != 0)
		fail("a report of a size that is none");
	same(h, 0, "a report of a size that is none changes the end");
}

/* A report of another size that is served: of 0, the first struct's, or of more than
 * is known, where what lies behind becomes 0. */
static void ask_otherwise(enum handle h, bool has, const struct tuv_report *r)
{
	size_t size = any(2) ? 0 : sizeof(*r) + sizeof(size) * among(1, 400);
	size_t room = size ? size : REPORT_FIRST, known = room < sizeof(*r) ? room : sizeof(*r);
	uint8_t *at = memset(guarded(&passing, room), 1, room);

	memset(at, 0, known);
	memcpy(at, &size, sizeof(size));
	remember(h);
	if (BY_ROLE(h, report)(ends[h], (void *) at) != has)
		fail("a report depends on its size");
	if (memcmp(at, &size, sizeof(size)) != 0 ||
	    memcmp(at + sizeof(size), (const uint8_t *) r + sizeof(size), known - sizeof(size)) != 0 ||
	    !is_filled(at + known, has ? 0 : 1, room - known))
		fail("a report of another size is another");
	same(h, 0, "a report of another size changes the end");
}

/* An end's report has what is its own. */
static bool report(enum handle h, struct tuv_report *r)
{
	struct tuv_report *at;
	bool has;

	ask_refused(h);
	memset(r, 0, sizeof(*r));
	r->size = sizeof(*r);
	at = (void *) copied(r, sizeof(*r));
	remember(h);
	if ((h == PEER ? tuv_server_report : tuv_peer_report)(ends[h], at))
		fail("a report of the other role");
	has = BY_ROLE(h, report)(ends[h], at);
	same(h, 0, "a report changes the end");
	if (!has && memcmp(at, r, sizeof(*r)) != 0)
		fail("a report is written where there is none");
	*r = *at;
	ask_otherwise(h, has, r);
	if (!has)
		return false;
	if (r->rand_length != (r->method == TUV_KIND_PSK ? 16 : 32) ||
	    memcmp(h == PEER ? r->peer_rand : r->server_rand, models[h].nonce,
		   r->rand_length) != 0)
		fail("a report has another nonce");
	if (h == PEER ? !known(&told[0].name, r->peer, r->peer_length)
		      : !known(&told[1].name, r->server, r->server_length))
		fail("a report has another name");
	return true;
}

/* The Session-Ids of an end, 0 behind their octets. */
static size_t identify(enum handle h, const struct tuv_report *r,
		       uint8_t ids[2][TUV_SESSION_ID_MAX])
{
	uint8_t *rooms[2];
	size_t len;

	memset(ids, 0, 2 * sizeof(ids[0]));
	rooms[0] = copied(ids[0], sizeof(ids[0]));
	rooms[1] = copied(ids[1], sizeof(ids[1]));
	remember(h);
	len = tuv_end_session_id(ends[h], rooms[0]);
	if (tuv_end_session_id_wpa(ends[h], rooms[1]) != len)
		fail("Session-Ids of two lengths");
	memcpy(ids[0], rooms[0], sizeof(ids[0]));
	memcpy(ids[1], rooms[1], sizeof(ids[1]));
	same(h, 0, "a Session-Id changes the end");
	if (r && (len != (r->method == TUV_KIND_PSK ? 33 : 17) ||
		  ids[0][0] != r->method || ids[1][0] != r->method))
		fail("a Session-Id has another form");
	if (r && r->method == TUV_KIND_PSK &&
	    (memcmp(ids[0] + 1, r->peer_rand, 16) != 0 ||
	     memcmp(ids[0] + 17, r->server_rand, 16) != 0 ||
	     memcmp(ids[0], ids[1], 33) != 0))
		fail("a Session-Id has other nonces");
	if (r && r->method == TUV_KIND_GPSK && memcmp(ids[0], ids[1], 17) == 0)
		fail("both Session-Ids have the same Method-ID");
	if (!r && len != 0)
		fail("a Session-Id without a report");
	return len;
}

/* Whenever both ends hold a report, both hold the same: true where they do. */
static bool compare(void)
{
	static struct tuv_report r[2];
	static uint8_t ids[2][2][TUV_SESSION_ID_MAX];
	bool has[2] = { report(PEER, &r[0]), report(SERVER, &r[1]) };

	identify(PEER, has[0] ? &r[0] : NULL, ids[0]);
	identify(SERVER, has[1] ? &r[1] : NULL, ids[1]);
	if (!has[0] || !has[1])
		return false;
	if (!keys_agree)
		fail("ends without a common key both succeeded");
	if (memcmp(&r[0], &r[1], sizeof(r[0])) != 0)
		fail("two ends succeeded with different reports");
	if (memcmp(ids[0], ids[1], sizeof(ids[0])) != 0)
		fail("two ends have different Session-Ids");
	return true;
}

/* A reason fits the state of its end. */
static void hold_reason(enum handle h)
{
	struct model *m = &models[h];
	struct tuv_failure why;

	remember(h);
	why = tuv_end_failure(ends[h]);
	same(h, 0, "asking for a reason changes the end");
	if (why.reason > TUV_FAILURE_ENDED || why.code > 3)
		fail("there is no such reason");
	if (why.code && (why.reason == TUV_FAILURE_NONE || why.reason > TUV_FAILURE_REFUSED))
		fail("a code without its reason");
	if ((m->role == CLOSED || m->state == TUV_STATE_SUCCESS ||
	     m->state == TUV_STATE_SUCCESS2) && why.reason)
		fail("what hasn't failed has a reason");
	if (m->role != CLOSED && m->role < A_PEER_METHOD && !why.reason &&
	    (m->state == TUV_STATE_FAILURE || m->state == TUV_STATE_FAILURE2 ||
	     m->state == TUV_STATE_TIMEOUT_FAILURE ||
	     m->state == TUV_STATE_TIMEOUT_FAILURE2))
		fail("a failure has no reason");
}

/* What the turn says is what the model says, and what it left. */
static void judge(enum handle h, enum call c, struct turn turn)
{
	struct model *m = &models[h];

	if (turn.misplaced == has_place(m, c))
		fail(turn.misplaced ? "a call has no place" : "a call has a place");
	if (turn.misplaced && (turn.sends || turn.discards || turn.cause || turn.state))
		fail("a call out of place says more than that");
	if (turn.sends && turn.discards)
		fail("a discard sends");
	if (!turn.discards && turn.cause)
		fail("a cause without a discard");
	if (turn.misplaced || turn.discards)
		same(h, 1, "a call that does nothing changes the end");
	m->sends = turn.sends;
	if (turn.misplaced)
		return;
	if (m->role < A_PEER_METHOD && !stands(m->role, turn.state))
		fail("an end stands in a state that is none of its own");
	m->state = turn.state;
	if (c == RESTART || c == PASS_RESTART)
		m->last.len = 0;
}

/* A call with these octets. */
static void call(enum handle h, enum call c, const uint8_t *octets, size_t len)
{
	unsigned long blocks = allocations;
	struct turn turn;

	if (tuv_response_name(copied(octets, len), len,
			      guarded(&passing, TUV_NAME_MAX)) > TUV_NAME_MAX ||
	    tuv_request_name(copied(octets, len), len,
			     guarded(&passing, TUV_NAME_MAX)) > TUV_NAME_MAX)
		fail("a name is too long");
	remember(h);
	turn = call_of(h, c, copied(octets, len), len);
	if (allocations != blocks)
		fail("a call takes memory");
	discarded += turn.discards;
	misplaced += turn.misplaced;
	judge(h, c, turn);
	if (turn.sends)
		take(h, c);
	hold_packets(h);
	hold_reason(h);
}

/* A size that no struct has had, or the size of a later one. */
static size_t other_size(void)
{
	switch (any(6)) {
	case 0: return 0;
	case 1: return any(2) ? SETTINGS_FIRST - 1 : among(0, SETTINGS_FIRST - 1);
	case 2: return among(SETTINGS_MOST + 1, UINT32_MAX - 1);
	case 3: return SIZE_MAX;
	default: return any(4) ? among(SETTINGS_FIRST, SETTINGS_MOST) : SETTINGS_MOST;
	}
}

/* What lies behind the struct that is known here: of a login's any of these. */
static enum { RANDOM, NOTHING, AT_ONCE, AT_LAST } behind;

/* Where it isn't 0. */
static size_t place_behind(size_t size)
{
	if (behind == AT_LAST)
		return size - 1;
	return behind == AT_ONCE || any(2) ? sizeof(*told) : among(sizeof(*told), size - 1);
}

/* Settings as they are handed in: what they say is there of them. */
static const struct tuv_settings *handed(const struct tuv_settings *s)
{
	size_t size = s->size > SETTINGS_MOST || s->size < sizeof(s->size)
		? sizeof(s->size) : (s->size + sizeof(size) - 1) / sizeof(size) * sizeof(size);
	uint8_t *at = memset(guarded(&passing, size), 0, size);

	memcpy(at, s, size < sizeof(*s) ? size : sizeof(*s));
	if (size > sizeof(*s) && (behind ? behind != NOTHING : any(2)))
		at[place_behind(s->size)] = 1;
	return (void *) at;
}

/* Octets of which there are as many as is allowed at the least or at the most, one
 * more, one fewer, or none. */
static struct tuv_octets octets_at(size_t least, size_t most)
{
	size_t sizes[] = { 0, least - 1, least, most, most + 1 };

	return new_octets(sizes[any(5)]);
}

static void spoil(struct tuv_settings *s)
{
	switch (any(11)) {
	case 0: case 1: s->size = other_size(); break;
	case 2: s->methods[any(2)] = any(2) ? any(256) : TUV_KIND_PSK; break;
	case 3: s->suites[any(2)] = any(4); break;
	case 4: s->name = octets_at(1, TUV_NAME_MAX); break;
	case 5: s->other = octets_at(1, TUV_NAME_MAX); break;
	case 6: s->psk_key = octets_at(16, 16); break;
	case 7: s->gpsk_key = octets_at(32, TUV_KEY_MAX); break;
	case 8: s->psk_key = new_octets(among(0, TUV_KEY_MAX)); break;
	case 9: s->other = TUV_ANY; break;
	default: break;
	}
}

/* Settings of which two things may be wrong, or at a limit. */
static struct tuv_settings spoiled(struct tuv_settings s)
{
	spoil(&s);
	if (any(2))
		spoil(&s);
	return s;
}

static uint8_t begin_as(enum role role, struct tuv_end *end,
			const struct tuv_settings *s, const uint8_t *nonce,
			uint8_t retries)
{
	switch (role) {
	case A_PASS: return tuv_pass_begin(end, among(0, 255), retries);
	case A_PEER_METHOD: return tuv_peer_method_begin(end, s, nonce);
	case A_SERVER_METHOD:
		return tuv_server_method_begin(end, s, nonce, among(0, 255));
	case A_PEER: return tuv_peer_begin(end, s, nonce);
	case A_BACKEND: return tuv_backend_begin(end, s, nonce);
	default:
		return tuv_server_begin(end, s, nonce, among(0, 255), retries);
	}
}

static uint8_t begin(enum handle h, const struct tuv_settings *s,
		     uint8_t retries)
{
	struct model *m = &models[h];
	unsigned long blocks = allocations;
	uint8_t nonce[TUV_NONCE_LEN], answer;

	fill(nonce, sizeof(nonce));
	remember(h);
	s = handed(s);
	answer = begin_as(role_of(h), ends[h], s, copied(nonce, sizeof(nonce)), retries);
	if (answer != judged(h, s, retries))
		fail("a begin is refused otherwise than the header says");
	if (answer != TUV_OK) {
		refused++;
		same(h, 0, "a begin that was refused changed the end");
		return answer;
	}
	m->role = role_of(h);
	if (allocations - blocks != (m->role == A_SERVER || m->role == A_BACKEND ? 2 : 1))
		fail("a begin takes other blocks than it says");
	m->state = m->role == A_PEER ? TUV_STATE_IDLE : TUV_STATE_INITIALIZE;
	m->last.len = 0;
	m->sends = m->role == A_SERVER_METHOD;
	memcpy(m->nonce, nonce, sizeof(nonce));
	if (m->sends)
		take(h, SERVER_METHOD);
	hold_packets(h);
	return answer;
}

static void give(enum handle h, const struct tuv_settings *s, bool by_method)
{
	unsigned long blocks = allocations;
	uint8_t answer;

	remember(h);
	s = handed(s);
	answer = by_method ? tuv_server_method_user(ends[h], s)
			   : tuv_server_set_user(ends[h], s);
	if (answer != judged_user(h, s, by_method))
		fail("a user is refused otherwise than the header says");
	if (answer != TUV_OK) {
		refused++;
		same(h, 0, "a user who was refused changed the end");
	}
	if (allocations != blocks)
		fail("a user takes memory");
	hold_packets(h);
}

/* The user of the login, of whom one thing may be wrong; then the right one, so
 * that the keys of the login stay known. */
static void give_any(void)
{
	struct tuv_settings s = spoiled(user);

	give(any(HANDLES), &s, any(2));
	give(SERVER, &user, setting == METHODS);
}

/* A begin with settings that may be wrong; where it isn't refused the end gets
 * the right ones at once. */
static void begin_spoiled(enum handle h)
{
	struct tuv_settings s = spoiled(told[h == SERVER]);

	if (begin(h, &s, among(0, 20)) == TUV_OK &&
	    begin(h, &told[h == SERVER], 3) != TUV_OK)
		fail("a sound begin was refused");
	if (h == SERVER && models[h].role != CLOSED)
		give(h, &user, setting == METHODS);
}

/* The packet on its way, or one from before; as it is, altered, cut, padded, or
 * made up. */
static void disturb(void)
{
	struct packet p = any(2) ? sent : kept[any(8)];

	switch (any(5)) {
	case 0:
		if (p.len)
			p.octets[any(p.len)] ^= 1 << any(8);
		break;
	case 1: p.len = any(p.len + 1); break;
	case 2: fill(p.octets + p.len, 4); p.len += any(5); break;
	case 3:
		p.len = any(8) == 0 ? TUV_PACKET_MAX : 4 + any(60);
		fill(p.octets, p.len);
		p.octets[0] = any(5);	/* Code; then the Length is right */
		p.octets[2] = p.len >> 8;
		p.octets[3] = p.len;
		if (p.len > 4 && any(2))
			p.octets[4] = any(3) ? 254 : 2;
		break;
	default: break;
	}
	if (any(2))
		call(to, by, p.octets, p.len);
	else
		call(any(HANDLES), any(CALLS), p.octets, p.len);
}

static void first_call(void)
{
	if (setting == METHODS)
		take(SERVER, SERVER_METHOD);
	else
		call(setting == ALONE ? SERVER : PASS,
		     setting == ALONE ? START : PASS_START, sent.octets, 0);
}

static const struct tuv_octets none = { NULL, 0 };

static void list(uint8_t at[2], uint8_t one, uint8_t other)
{
	at[0] = any(5) == 0 ? 0 : any(2) ? one : other;
	at[1] = at[0] == 0 || any(2) ? 0 : at[0] == one ? other : one;
}

/* A name of 1 to 253 octets, mostly a short one. */
static struct tuv_octets new_name(void)
{
	return new_octets(any(4) ? among(1, 8) : among(1, TUV_NAME_MAX));
}

/* The same key at the other end, or one that differs in one bit. */
static struct tuv_octets other_key(struct tuv_octets key)
{
	uint8_t copy[TUV_KEY_MAX];

	memcpy(copy, key.at, key.len);
	if (!keys_agree)
		copy[any(key.len)] ^= 1 << any(8);
	return kept_octets(copy, key.len);
}

/* Keys for the methods of these settings; for those of a list of none any. */
static void new_keys(struct tuv_settings *s, struct tuv_octets psk,
		     struct tuv_octets gpsk)
{
	unsigned int which = any(3);
	bool lists = s->methods[0] != 0;

	s->psk_key = s->gpsk_key = none;
	if (lists ? has_method(s, TUV_KIND_PSK) : which != 1)
		s->psk_key = psk;
	if (lists ? has_method(s, TUV_KIND_GPSK) : which != 2)
		s->gpsk_key = gpsk;
}

/* A login with new names, keys and nonces; both ends' keys differ in one of
 * eight, the user is unknown, barred or comes late in some. */
static void prepare(void)
{
	struct tuv_settings *s = &told[0], *t = &told[1];
	struct tuv_octets psk = new_octets(16);
	struct tuv_octets gpsk = new_octets(among(32, TUV_KEY_MAX));
	struct tuv_octets others_psk, others_gpsk;

	setting = any(3);
	memset(told, 0, sizeof(told));
	s->size = t->size = sizeof(*s);
	keys_agree = any(8) != 0;
	others_psk = other_key(psk);
	others_gpsk = other_key(gpsk);
	list(s->methods, TUV_KIND_PSK, TUV_KIND_GPSK);
	list(s->suites, 1, 2);
	list(t->methods, TUV_KIND_PSK, TUV_KIND_GPSK);
	list(t->suites, 1, 2);
	if (setting == METHODS)
		memcpy(t->methods, s->methods, sizeof(s->methods));
	new_keys(s, psk, gpsk);
	new_keys(t, others_psk, others_gpsk);
	if (setting == METHODS && !s->methods[0]) {
		t->psk_key = s->psk_key.len ? others_psk : none;
		t->gpsk_key = s->gpsk_key.len ? others_gpsk : none;
	}
	s->name = new_name();
	t->name = new_name();
	s->other = any(3) ? t->name : TUV_ANY;
	t->other = s->name;
	if (any(8) == 0 && s->name.len > 1)
		t->other = kept_octets(s->name.at, s->name.len - 1);
	t->barred = any(8) == 0;
	s->expanded = any(3) == 0;
	t->expanded = any(3) == 0;
	user = *t;
	user_after = any(3) ? 0 : setting == METHODS ? 1 : 1 + any(3);
	if (user_after) {
		t->other = t->psk_key = t->gpsk_key = none;
		t->barred = any(2);
		/* (the one method that it begins with is the user's) */
		if (setting == METHODS && !t->methods[0])
			t->methods[0] = first_method(&user);
	}
	sent.len = 0;
}

static bool ended_for(enum handle h, uint8_t reason, uint8_t code)
{
	struct tuv_failure why = tuv_end_failure(ends[h]);

	return why.reason == reason && why.code == code;
}

/* The login has ended as it should. */
static void hold_outcome(bool both)
{
	uint8_t method;
	enum outcome is = expected(&method);
	bool gpsk = method == TUV_KIND_GPSK;
	bool good = true;

	switch (is) {
	case SUCCEEDS:
		good = both && ended_for(PEER, TUV_FAILURE_NONE, 0) &&
			ended_for(SERVER, TUV_FAILURE_NONE, 0);
		break;
	case UNKNOWN:
		good = !both && ended_for(SERVER, TUV_FAILURE_UNKNOWN_USER, gpsk) &&
			(!gpsk || ended_for(PEER, TUV_FAILURE_REFUSED, 1));
		break;
	case BARRED:
		good = !both && ended_for(SERVER, TUV_FAILURE_BARRED_USER, gpsk ? 3 : 0) &&
			ended_for(PEER, TUV_FAILURE_REFUSED, gpsk ? 3 : 0);
		break;
	case NO_METHOD:
		good = !both && ended_for(SERVER, TUV_FAILURE_NO_METHOD, 0) &&
			ended_for(PEER, TUV_FAILURE_NO_METHOD, 0);
		break;
	case STUCK:
		good = !both && ended_for(SERVER, TUV_FAILURE_NONE, 0);
		break;
	default: break;
	}
	failed += is > SUCCEEDS;
	if (!good)
		fail("a login that nothing disturbs ends otherwise than its settings say");
}

/* Carries packets, with disturbances in so many of a hundred: whether both ends
 * came to hold a report. */
static bool carry(unsigned int disturbances)
{
	unsigned int i;
	bool both = false;

	for (i = 0; i < 24; i++) {
		if (user_after && i + 1 == user_after)
			give(SERVER, &user, setting == METHODS);
		if (any(100) >= disturbances)
			call(to, by, sent.octets, sent.len);
		else if (any(6))
			disturb();
		else if (any(3))
			begin_spoiled(any(HANDLES));
		else if (any(3))
			call(any(HANDLES), any(3) ? RESTART : PASS_RESTART,
			     sent.octets, 0);
		else if (any(3))
			give_any();
		else {
			enum handle h = any(HANDLES);

			tuv_end_close(ends[h]);
			memset(&models[h], 0, sizeof(models[h]));
			hold_packets(h);
		}
		both |= compare();
	}
	return both;
}

/* Each end begins a new conversation: a login of which nothing is disturbed, and
 * which ends as the one before it did. */
static void log_in_again(bool both)
{
	static struct tuv_report left = { .size = sizeof(left) };
	unsigned long places = misplaced;

	call(PEER, RESTART, sent.octets, 0);
	call(SERVER, RESTART, sent.octets, 0);
	if (setting == THROUGH)
		call(PASS, PASS_RESTART, sent.octets, 0);
	if (misplaced != places)
		fail("a restart has no place");
	if (tuv_end_report(ends[PEER], &left) ||
	    tuv_end_report(ends[SERVER], &left))
		fail("a restart leaves a report");
	if (carry(0) != both)
		fail("a login by a restart ends otherwise");
	hold_outcome(both);
	again += both;
}

static void login(unsigned int disturbances)
{
	unsigned int i;
	bool both;

	prepare();
	for (i = 0; i < HANDLES; i++)
		if (begin(i, &told[i == SERVER], among(0, 10)) != TUV_OK)
			fail("a sound begin was refused");
	first_call();
	both = carry(disturbances);
	logins += both;
	if (disturbances)
		return;
	hold_outcome(both);
	if (setting != METHODS)
		log_in_again(both);
}

/* Nobody answers a server, or a pass-through. */
static void be_silent(void)
{
	enum handle h = any(2) ? SERVER : PASS;
	unsigned int i, retries = among(0, 10);

	prepare();
	setting = ALONE;
	if (begin(h, &told[1], retries) != TUV_OK)
		fail("a sound begin was refused");
	call(h, h == SERVER ? START : PASS_START, sent.octets, 0);
	for (i = 0; i < retries; i++) {
		call(h, h == SERVER ? TIMEOUT : PASS_TIMEOUT, sent.octets, 0);
		if (!models[h].sends)
			fail("a Request isn't sent again");
	}
	call(h, h == SERVER ? TIMEOUT : PASS_TIMEOUT, sent.octets, 0);
	if (models[h].sends || models[h].state != TUV_STATE_TIMEOUT_FAILURE ||
	    !ended_for(h, TUV_FAILURE_TIMEOUT, 0))
		fail("silence doesn't end a login");
}

/* What is done twice does no harm. */
static void drop(struct tuv_end *end)
{
	tuv_end_close(end);
	tuv_end_close(end);
	tuv_end_free(end);
	tuv_end_free(end);
	if (end->at)
		fail("a handle that is dropped has a block");
}

/* Begins at an end whose allocations may fail: asked again, it has begun. Whether
 * one did fail. */
static bool starved(enum role role, struct tuv_end *end)
{
	bool at_peer = role == A_PEER || role == A_PEER_METHOD;
	const struct tuv_settings *s = handed(&told[!at_peer]);
	unsigned int i;

	for (i = 0; i < 2; i++) {
		uint8_t answer = begin_as(role, end, s, fresh(at_peer ? PEER : SERVER),
					  among(0, 10));

		calls++;
		if (answer == TUV_OK)
			return i == 1;
		if (answer != TUV_NO_MEMORY || allocations != fails_at)
			fail("a begin answers otherwise than its memory allows");
	}
	fail("memory is refused twice");
	return false;
}

/* Each allocation of a login fails in its turn. */
static void starve(void)
{
	unsigned int refusals, role;
	struct tuv_end *end;

	prepare();
	end = new_handle(&lasting);
	setting = ALONE;
	fails_at = 0;
	do {
		allocations = 0;
		fails_at++;
		refusals = 0;
		calls++;
		if (!tuv_end_new(&end->at)) {
			refusals++;
			if (!tuv_end_new(&end->at))
				fail("memory is refused twice");
		}
		for (role = A_PEER; role <= A_SERVER_METHOD; role++)
			refusals += starved(role, end);
		if (refusals != (fails_at <= allocations))
			fail("want of memory is not said");
		drop(end);
	} while (refusals);
	fails_at = 0;
}

enum limit { LONGEST_NAME, SHORTEST_NAME, LONGEST_OTHER, LONGEST_PSK, SHORTEST_PSK,
	     LONGEST_GPSK, SHORTEST_GPSK, LEAST_SIZE, GREATEST_SIZE, LIMITS };

/* Settings at a limit, or one octet past it. */
static struct tuv_settings limited(enum limit limit, size_t past)
{
	struct tuv_settings s = { .size = sizeof(s), .name = new_octets(5), .other = new_octets(5),
				  .psk_key = new_octets(16), .gpsk_key = new_octets(32) };

	switch (limit) {
	case LONGEST_NAME: s.name = new_octets(TUV_NAME_MAX + past); break;
	case SHORTEST_NAME: s.name = new_octets(1 - past); break;
	case LONGEST_OTHER: s.other = new_octets(TUV_NAME_MAX + past); break;
	case LONGEST_PSK: s.psk_key = new_octets(16 + past); break;
	case SHORTEST_PSK: s.psk_key = new_octets(16 - past); break;
	case LONGEST_GPSK: s.gpsk_key = new_octets(TUV_KEY_MAX + past); break;
	case SHORTEST_GPSK: s.gpsk_key = new_octets(32 - past); break;
	case LEAST_SIZE: s.size = SETTINGS_FIRST - past; break;
	case GREATEST_SIZE: s.size = SETTINGS_MOST + past; break;
	default: break;
	}
	return s;
}

static void at_limit(const struct tuv_settings *s, uint8_t retries, bool good)
{
	enum handle h;

	for (h = PEER; h <= SERVER; h++)
		if ((begin(h, s, h == PEER ? 0 : retries) == TUV_OK) !=
		    (good || (h == PEER && retries > 10)))
			fail("a limit of settings isn't where the header has it");
}

static void try_limits(void)
{
	struct tuv_settings s = limited(LIMITS, 0), later = limited(LIMITS, 0);
	enum limit limit;
	size_t past;

	setting = ALONE;
	behind = NOTHING;
	for (past = 0; past < 2; past++) {
		for (limit = 0; limit < LIMITS; limit++) {
			struct tuv_settings it = limited(limit, past);

			at_limit(&it, 10, !past);
		}
		at_limit(&s, 10 + past, !past);
	}
	later.size += sizeof(size_t);
	at_limit(&later, 10, true);
	behind = AT_ONCE;
	at_limit(&later, 10, false);
	behind = AT_LAST;
	at_limit(&later, 10, false);
	later.size = SETTINGS_MOST;
	at_limit(&later, 10, false);
	behind = RANDOM;
}

/* A filled block moves, to more room and to less; where there is none it stays. */
static void try_heap(void)
{
	static const size_t sizes[] = { 100, 300, 40, 40 };
	struct block block = rattle_alloc(sizes[0], 8), next;
	size_t i, kept = sizes[0];

	memset(block.at, 0x5a, sizes[0]);
	for (i = 1; i < 4; i++) {
		fails_at = allocations + 1;
		next = rattle_realloc(block.at, sizes[i - 1], sizes[i], 8);
		fails_at = 0;
		if (next.ok || !is_filled(block.at, 0x5a, kept))
			fail("a block that can't move is lost");
		block = rattle_realloc(block.at, sizes[i - 1], sizes[i], 8);
		kept = kept < sizes[i] ? kept : sizes[i];
		if (!block.ok || !is_filled(block.at, 0x5a, kept))
			fail("a block that moves loses what it held");
	}
	rattle_dealloc(block.at);
}

static void make_ends(void)
{
	int i, c;

	if (tuv_version() != TUV_VERSION)
		fail("the header is of another version");
	before = malloc(tuv_end_size());
	if (!before)
		exit(5);
	for (i = 0; i < HANDLES; i++) {
		ends[i] = new_handle(&standing);
		if (!tuv_end_new(&ends[i]->at))
			exit(5);
		if (taken != tuv_end_size())
			fail("tuv_end_size is another than what tuv_end_new takes");
		hold_packets(i);
		hold_reason(i);
		for (c = 0; c < CALLS; c++)
			call(i, c, sent.octets, 0);
	}
}

int main(int argc, char *argv[])
{
	unsigned long most;
	int i;

	if (argc != 3)
		return 2;
	state = strtoull(argv[1], NULL, 10);
	most = strtoul(argv[2], NULL, 10);
	make_ends();
	try_limits();
	try_heap();
	while (calls < most) {
		login(any(2) ? 0 : 1 + any(60));
		if (any(16) == 0)
			starve();
		if (any(16) == 0)
			be_silent();
	}
	for (i = 0; i < HANDLES; i++)
		drop(ends[i]);
	for (i = 0; i < PLACES; i++) {
		hold_front(&passing.places[i]);
		hold_front(&lasting.places[i]);
		hold_front(&standing.places[i]);
	}
	free(before);
	printf("fuzz: %lu calls, %lu logins, %lu by a restart, %lu that fail as they should, %lu discards, %lu out of place, %lu refused, none wrong\n",
	       calls, logins, again, failed, discarded, misplaced, refused);
	return 0;
}
