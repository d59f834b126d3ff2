/* What the modules share: how the log names a login, and how policies do. */
#ifndef TUVADDRI_LINES_H
#define TUVADDRI_LINES_H

#include <freeradius-devel/radiusd.h>

/* Octets of a text that the log shows: an attribute of RADIUS has no more. */
enum { MOST_SHOWN = 253 };

/* A text from the network as the log has it: in quotes, by printable ASCII alone,
 * so that nobody writes a line or a field there. */
static inline char *quoted(TALLOC_CTX *ctx, void const *text, size_t len)
{
	uint8_t const *from = text;
	size_t shown = len < MOST_SHOWN ? len : MOST_SHOWN;
	char *made = talloc_array(ctx, char, 4 * shown + sizeof("\"\".."));
	char *to = made;

	if (!made) return NULL;
	*to++ = '"';
	for (size_t i = 0; i < shown; i++) {
		if (from[i] >= ' ' && from[i] <= '~' && from[i] != '"' && from[i] != '\\') *to++ = from[i];
		else to += sprintf(to, "\\x%02x", from[i]);
	}
	strcpy(to, shown < len ? "\".." : "\"");
	return made;
}

static inline char *quoted_of(TALLOC_CTX *ctx, REQUEST *request, unsigned attribute)
{
	VALUE_PAIR *vp = fr_pair_find_by_num(request->packet->vps, attribute, 0, TAG_ANY);

	return vp ? quoted(ctx, vp->vp_strvalue, vp->vp_length) : quoted(ctx, "", 0);
}

/* Why a module has failed or rejected, in its own words; null where it has none. */
static inline char *failure_of(TALLOC_CTX *ctx, REQUEST *request)
{
	VALUE_PAIR *vp = fr_pair_find_by_num(request->packet->vps, PW_MODULE_FAILURE_MESSAGE, 0, TAG_ANY);

	return vp ? quoted(ctx, vp->vp_strvalue, vp->vp_length) : NULL;
}

/* Where a login comes from. */
static inline char *place_of(TALLOC_CTX *ctx, REQUEST *request)
{
	char const *client = request->client && request->client->shortname ? request->client->shortname : "";
	char *station = quoted_of(ctx, request, PW_CALLING_STATION_ID);
	char *point = quoted_of(ctx, request, PW_CALLED_STATION_ID);
	char *by = quoted(ctx, client, strlen(client));

	return station && point && by ? talloc_asprintf(ctx, "station=%s ap=%s client=%s", station, point, by) : NULL;
}

/* For policies and queries in post-auth; nothing where the dictionary lacks it. */
static inline void put_outcome(REQUEST *request, char const *name, char const *value)
{
	if (dict_attrbyname(name)) fr_pair_make(request->state_ctx, &request->state, name, value, T_OP_SET);
}

#endif
