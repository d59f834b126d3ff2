/* What tuvaddri.h says of calls, settings and logins, for fuzz.c. */
#include <string.h>
#include "fuzz.h"

bool is_over(uint8_t at)
{
	return at == TUV_STATE_SUCCESS || at == TUV_STATE_FAILURE ||
		at == TUV_STATE_TIMEOUT_FAILURE;
}

bool has_place(const struct model *m, enum call c)
{
	bool started = m->state != TUV_STATE_INITIALIZE;

	switch (c) {
	case DELIVER:
		return m->role == A_PEER || m->role == A_BACKEND ||
			(m->role == A_SERVER && started);
	case PEER_METHOD: return m->role == A_PEER_METHOD;
	case SERVER_METHOD: return m->role == A_SERVER_METHOD;
	case FROM_PEER: case FROM_BACKEND: case PASS_RESTART:
		return m->role == A_PASS;
	case START: return m->role == A_SERVER && !started;
	case TIMEOUT:
		return m->role == A_SERVER && started && !is_over(m->state);
	case IDLE: case ACCEPT: case REJECT:
		return m->role == A_PEER && !is_over(m->state);
	case PASS_START: return m->role == A_PASS && !started;
	case PASS_TIMEOUT:
		return m->role == A_PASS && (m->state == TUV_STATE_IDLE ||
					     m->state == TUV_STATE_IDLE2);
	case AAA_TIMEOUT: case AAA_NOREQ:
		return m->role == A_PASS && m->state == TUV_STATE_AAA_IDLE;
	default:
		return m->role == A_PEER || m->role == A_SERVER ||
			m->role == A_BACKEND;
	}
}

bool stands(enum role role, uint8_t at)
{
	switch (at) {
	case TUV_STATE_IDLE: return role != CLOSED;
	case TUV_STATE_SUCCESS: case TUV_STATE_FAILURE: return role != A_PASS;
	case TUV_STATE_INITIALIZE: case TUV_STATE_TIMEOUT_FAILURE:
		return role != A_PEER;
	case TUV_STATE_AAA_IDLE: case TUV_STATE_IDLE2: case TUV_STATE_SUCCESS2:
	case TUV_STATE_FAILURE2: case TUV_STATE_TIMEOUT_FAILURE2:
		return role == A_PASS;
	default: return false;
	}
}

static bool is_list(const uint8_t *list, uint8_t one, uint8_t other)
{
	if (list[0] == 0)
		return list[1] == 0;
	return (list[0] == one || list[0] == other) && list[0] != list[1] &&
		(list[1] == 0 || list[1] == one || list[1] == other);
}

bool has_method(const struct tuv_settings *s, uint8_t method)
{
	return s->methods[0] == method || s->methods[1] == method;
}

static bool are_keys(const struct tuv_settings *s)
{
	size_t psk = s->psk_key.len, gpsk = s->gpsk_key.len;

	return (psk == 0 || psk == 16) &&
		(gpsk == 0 || (gpsk >= 32 && gpsk <= TUV_KEY_MAX));
}

/* A struct that is known, or a later one that says no more than this one. */
static bool has_size(const struct tuv_settings *s)
{
	const uint8_t *octets = (const uint8_t *) s;
	size_t i;

	if (s->size < SETTINGS_FIRST || s->size > SETTINGS_MOST)
		return false;
	for (i = sizeof(*s); i < s->size; i++)
		if (octets[i])
			return false;
	return true;
}

uint8_t judged(enum handle h, const struct tuv_settings *s,
		      uint8_t retries)
{
	bool keyed;

	if (h != PASS) {
		if (!has_size(s))
			return TUV_BAD_SIZE;
		keyed = s->psk_key.len || s->gpsk_key.len;
		if (!is_list(s->methods, TUV_KIND_PSK, TUV_KIND_GPSK) ||
		    (h == PEER && !keyed && !s->methods[0]))
			return TUV_NO_METHOD;
		if (!is_list(s->suites, 1, 2))
			return TUV_NO_SUITE;
		if (s->name.len == 0 || s->name.len > TUV_NAME_MAX)
			return TUV_BAD_NAME;
		if (s->other.len > TUV_NAME_MAX)
			return TUV_BAD_OTHER;
		if (!are_keys(s) ||
		    (h == PEER && ((has_method(s, TUV_KIND_PSK) && !s->psk_key.len) ||
				   (has_method(s, TUV_KIND_GPSK) && !s->gpsk_key.len))) ||
		    (h == SERVER && keyed != (s->other.len != 0)))
			return TUV_BAD_KEY;
	}
	if (retries > 10 && (h == PASS || (h == SERVER && setting == ALONE)))
		return TUV_MANY_RETRIES;
	return TUV_OK;
}

uint8_t first_method(const struct tuv_settings *s)
{
	if (s->methods[0])
		return s->methods[0];
	return s->gpsk_key.len || !s->psk_key.len ? TUV_KIND_GPSK : TUV_KIND_PSK;
}

uint8_t judged_user(enum handle h, const struct tuv_settings *s,
			   bool by_method)
{
	enum role role = models[h].role;
	bool fits = by_method ? role == A_SERVER_METHOD
			      : role == A_SERVER || role == A_BACKEND;

	if (!has_size(s))
		return TUV_BAD_SIZE;
	if (s->other.len == 0 || s->other.len > TUV_NAME_MAX)
		return TUV_BAD_OTHER;
	if (!are_keys(s) || (!s->psk_key.len && !s->gpsk_key.len))
		return TUV_BAD_KEY;
	if (!fits)
		return TUV_WRONG_END;
	if (by_method && (first_method(&told[1]) == TUV_KIND_PSK ? !s->psk_key.len
							       : !s->gpsk_key.len))
		return TUV_BAD_KEY;
	return TUV_OK;
}

enum role role_of(enum handle h)
{
	if (h == PASS)
		return A_PASS;
	if (setting == METHODS)
		return h == PEER ? A_PEER_METHOD : A_SERVER_METHOD;
	return h == PEER ? A_PEER : setting == THROUGH ? A_BACKEND : A_SERVER;
}

static size_t key_len(const struct tuv_settings *s, uint8_t method)
{
	return method == TUV_KIND_PSK ? s->psk_key.len : s->gpsk_key.len;
}

/* Whether these settings allow a method; of a server without a user, by its
 * list. */
static bool allows(const struct tuv_settings *s, uint8_t method, bool always)
{
	return s->methods[0] ? has_method(s, method) : always || key_len(s, method);
}

/* The method of a login, or 0. */
static uint8_t chosen(void)
{
	const struct tuv_settings *s = &told[0], *t = &told[1];
	uint8_t order[2] = { TUV_KIND_GPSK, TUV_KIND_PSK };
	int i;

	if (setting == METHODS)
		return first_method(s);
	if (t->methods[0])
		memcpy(order, t->methods, sizeof(order));
	for (i = 0; i < 2; i++)
		if (order[i] && allows(t, order[i], user_after != 0) &&
		    allows(s, order[i], false))
			return order[i];
	return 0;
}

static bool has_suite(const struct tuv_settings *s, uint8_t suite)
{
	return !s->suites[0] || s->suites[0] == suite || s->suites[1] == suite;
}

enum outcome expected(uint8_t *method)
{
	const struct tuv_settings *s = &told[0], *t = &told[1];

	*method = chosen();
	if (setting != METHODS && t->expanded && !s->expanded)
		return ANY;	/* (the peer answers with a Nak of its own) */
	if (!*method)
		return NO_METHOD;
	if (*method == TUV_KIND_GPSK && !(has_suite(s, 1) && has_suite(t, 1)) &&
	    !(has_suite(s, 2) && has_suite(t, 2)))
		return STUCK;
	if (user.other.len != s->name.len || !key_len(&user, *method))
		return UNKNOWN;
	return !keys_agree ? STUCK : user.barred ? BARRED : SUCCEEDS;
}
