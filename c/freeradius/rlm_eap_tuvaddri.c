/* EAP-PSK (47) and EAP-GPSK (51) of Tuvaddri as sub-modules of FreeRADIUS's
 * rlm_eap, 3.2: rlm_eap_psk or rlm_eap_gpsk, by -DKIND=47 or -DKIND=51.
 * FreeRADIUS keeps the conversation, State, the match of Identifiers, the Success
 * and the Failure; the method is the library's.  What the settings say stands in
 * the file tuvaddri beside this one. */
#include <freeradius-devel/radiusd.h>
#include <freeradius-devel/modules.h>
#include <ctype.h>
#include <sys/random.h>
#include "rlm_eap.h"
#include "lines.h"
#include "tuvaddri.h"

#if KIND == 47
#define NAME "EAP-PSK"
#define MODULE rlm_eap_psk
#define MODULE_NAME "eap_psk"
#define KEY_SIZES "16 octets"
#else
#define NAME "EAP-GPSK"
#define MODULE rlm_eap_gpsk
#define MODULE_NAME "eap_gpsk"
#define KEY_SIZES "32 to 64 octets"
#endif

/* The keys that a store may have of a user: the old one and the new one; how long
 * nobody has had a conversation that is given back, far longer than rlm_eap needs to
 * hand one on; and at how many one look is. */
enum { KEYS = 2, MISSED_SECONDS = 3, LOOKED_AT = 8 };

/* Of NAS-Port-Type (RFC 2865 section 5.41): a VPN gateway's, and Wi-Fi's. */
enum { VIRTUAL_PORT = 5, WIRELESS_PORT = 19 };

struct settings {
	char const	*server_id;
	char const	*suites;
	char const	*key_attribute;
	char const	*virtual_server;
	char const	*session_id;
	uint32_t	max_discards, timer_expire;
	bool		inner_identity;
	bool		one_per_station;
	/* What these come to: the suites in the library's numbers, the attribute,
	 * and whether wpa_supplicant's Session-Id is wanted. */
	uint8_t		suites_told[2];
	DICT_ATTR const	*key;
	bool		as_wpa;
};

static CONF_PARSER const words[] = {
	{ "server_id", FR_CONF_OFFSET(PW_TYPE_STRING | PW_TYPE_REQUIRED | PW_TYPE_NOT_EMPTY, struct settings, server_id), NULL },
	{ "suites", FR_CONF_OFFSET(PW_TYPE_STRING, struct settings, suites), "both" },
	{ "key_attribute", FR_CONF_OFFSET(PW_TYPE_STRING, struct settings, key_attribute), "Cleartext-Password" },
	{ "virtual_server", FR_CONF_OFFSET(PW_TYPE_STRING, struct settings, virtual_server), NULL },
	{ "session_id", FR_CONF_OFFSET(PW_TYPE_STRING, struct settings, session_id), "rfc" },
	{ "max_discards", FR_CONF_OFFSET(PW_TYPE_INTEGER, struct settings, max_discards), "4" },
	{ "timer_expire", FR_CONF_OFFSET(PW_TYPE_INTEGER, struct settings, timer_expire), "10" },
	{ "inner_identity", FR_CONF_OFFSET(PW_TYPE_BOOLEAN, struct settings, inner_identity), "no" },
	{ "one_per_station", FR_CONF_OFFSET(PW_TYPE_BOOLEAN, struct settings, one_per_station), "yes" },
	CONF_PARSER_TERMINATOR
};

/* What a login comes to: each has a word, by which it is counted, and a text. By the
 * first one both ends have proved the key, which the site may still reject; those
 * from LOST on end without a reply of the module. */
enum reason {
	PROVED, WRONG_KEY, NO_KEY, HEX_KEY, UNFIT_KEY, MANY_KEYS, BARRED, REJECTED, OTHER_NAME, NO_STORE, BAD_PACKET,
	ENDED, NO_METHOD, TOO_MANY, TIMEOUT, GAVE_WAY, STOPPED, REASONS, LOST = TIMEOUT
};

static struct { char const *word, *text; } const reasons[REASONS] = {
	[PROVED] = { "proved", "" },
	[WRONG_KEY] = { "wrong-key", "BadTag (another key, or a packet altered on its way)" },
	[NO_KEY] = { "no-key", "the store has no key of the user" },
	[HEX_KEY] = { "hex-key", "the store's key of the user is hex digits as text: 0x is missing before it" },
	[UNFIT_KEY] = { "unfit-key", "the store's key of the user hasn't " KEY_SIZES },
	[MANY_KEYS] = { "many-keys", "the store has over two keys of the user" },
	[BARRED] = { "barred", "Auth-Type is Reject" },
	[REJECTED] = { "rejected", "a rule or a store of the site rejects the login, or fails" },
	[OTHER_NAME] = { "other-name", "another name than the identity's" },
	[NO_STORE] = { "no-store", "the virtual server or its store fails" },
	[BAD_PACKET] = { "bad-packet", "no message that names the user" },
	[ENDED] = { "ended", "the station has ended the method" },
	[NO_METHOD] = { "no-method", "the station's Nak names no method that the user may have" },
	[TOO_MANY] = { "too-many", "over max_sessions logins are open" },
	[TIMEOUT] = { "timeout", "no Response within timer_expire" },
	[GAVE_WAY] = { "gave-way", "a newer login took its place" },
	[STOPPED] = { "stopped", "the server has ended" }
};

/* (at which rlm_eap forgets a conversation) */
#define OTHER_TYPE "the Response has another Type than the Request, or the User-Name is another one"

/* How many logins came to each, in all instances of the module. */
static uint64_t counts[REASONS];

/* A conversation.  Until its first Response has been taken it has an end only while
 * the module is asked: each time the same one is begun, by what stands behind it. */
struct session {
	struct tuv_end	end;
	uint8_t		nonce[TUV_NONCE_LEN], id;
	char		*server;	/* a child of the handler */
	eap_handler_t	*handler;
	char		*user, *place;	/* as in the log; and */
	char		*port;		/* where at its client: children of the handler */
	char const	*text;		/* of the last BAD_PACKET */
	char const	*why;		/* what the virtual server has against the login: a child of the handler */
	uint32_t	discards, timer_expire;
	int		trips;		/* the handler's, when the module was asked last */
	int		key, keys;	/* the key that serves, of how many */
	bool		goes_on;	/* its first Response has been taken */
	bool		is_told;	/* the log has what it came to */
	bool		has_station, is_listed;
	VALUE_PAIR	*reply;		/* the virtual server's, for an Access-Accept; and */
	char		*name;		/* that of the method, whose key serves: children of the handler */
};

/* A conversation that has begun by this module, whichever method it goes on by: a
 * child of its handler. */
struct place {
	eap_handler_t	*handler;
	struct place	*next, *prev;
	time_t		missed;		/* since when nobody has it; 0 where somebody has */
};

/* The open logins by their stations, for one_per_station. Who takes rlm_eap's
 * session_mutex too takes that first. */
static pthread_mutex_t stations_mutex = PTHREAD_MUTEX_INITIALIZER;
static rbtree_t *stations;
static int instances;

/* All conversations in a ring, which stations_mutex guards too. */
static struct place *ring;

static int leave_ring(struct place *it)
{
	pthread_mutex_lock(&stations_mutex);
	if (ring == it) ring = it->next == it ? NULL : it->next;
	it->prev->next = it->next;
	it->next->prev = it->prev;
	pthread_mutex_unlock(&stations_mutex);
	return 0;
}

static bool join_ring(eap_handler_t *handler)
{
	struct place *it = talloc_zero(handler, struct place);

	if (!it) return false;
	it->handler = handler;
	pthread_mutex_lock(&stations_mutex);
	if (!ring) ring = it->next = it->prev = it;
	it->next = ring;
	it->prev = ring->prev;
	it->prev->next = it->next->prev = it;
	pthread_mutex_unlock(&stations_mutex);
	talloc_set_destructor(it, leave_ring);
	return true;
}

extern rlm_eap_module_t MODULE;

/* What is wrong with the settings; null where nothing is. */
static char const *fault_of(struct settings *it)
{
	if (tuv_version() != TUV_VERSION) return "the library isn't that of tuvaddri.h";
	if (!tuv_cpu_supported()) return "the library isn't for this processor";
	if (strcmp(it->suites, "1") == 0) it->suites_told[0] = TUV_SUITE_CMAC;
	else if (strcmp(it->suites, "2") == 0) it->suites_told[0] = TUV_SUITE_HMAC;
	else if (strcmp(it->suites, "both") != 0) return "suites is 1, 2 or both";
	it->as_wpa = strcmp(it->session_id, "wpa") == 0;
	if (!it->as_wpa && strcmp(it->session_id, "rfc") != 0) return "session_id is rfc or wpa";
	if (it->max_discards > 20) return "max_discards is at most 20";
	it->key = dict_attrbyname(it->key_attribute);
	if (!it->key || (it->key->type != PW_TYPE_OCTETS && it->key->type != PW_TYPE_STRING))
		return "key_attribute is an attribute of octets or a string";
	return NULL;
}

static int compare_places(void const *one, void const *two)
{
	struct session const *first = one, *second = two;
	int order = strcmp(first->place, second->place);

	return order ? order : strcmp(first->port, second->port);
}

/* %{eap_gpsk:WORD}, how many logins came to this since the server has begun. */
static ssize_t count_of(void *instance, REQUEST *request, char const *word, char *out, size_t room)
{
	*out = '\0';
	for (int it = 0; it < REASONS; it++)
		if (strcmp(word, reasons[it].word) == 0)
			return snprintf(out, room, "%" PRIu64, __atomic_load_n(&counts[it], __ATOMIC_RELAXED));
	REDEBUG("%s: there is no count '%s'", NAME, word);
	return -1;
}

static int instantiate(CONF_SECTION *cs, void **instance)
{
	struct settings *it = talloc_zero(cs, struct settings);
	char const *fault;

	/* (rlm_eap has its modules looked at no further; FreeRADIUS's structures differ between its versions) */
	if (fr_check_lib_magic(RADIUSD_MAGIC_NUMBER) < 0) {
		cf_log_err_cs(cs, "%s: built for FreeRADIUS %s: %s", NAME, RADIUSD_VERSION_STRING, fr_strerror());
		return -1;
	}
	*instance = it;
	if (!it || cf_section_parse(cs, it, words) < 0) return -1;
	fault = fault_of(it);
	if (fault) cf_log_err_cs(cs, "%s: %s", NAME, fault);
	if (fault) return -1;
	if (!stations) stations = rbtree_create(NULL, compare_places, NULL, 0);
	if (!stations || xlat_register(MODULE_NAME, count_of, NULL, it) < 0) return -1;
	instances++;
	INFO("%s by %s", NAME, tuv_ident);
	return 0;
}

/* (rlm_eap has ended all logins by now) */
static int detach(void *instance)
{
	xlat_unregister(MODULE_NAME, count_of, instance);
	if (--instances > 0) return 0;
	rbtree_free(stations);
	stations = NULL;
	return 0;
}

/* The line of a login, once; and its count. */
static void tell(struct session *s, enum reason reason, char const *more)
{
	char const *outcome = reason == PROVED ? "proved" : reason >= LOST ? "lost" : "refused";
	REQUEST *request = s->handler->request;

	if (s->is_told) return;
	s->is_told = true;
	__atomic_add_fetch(&counts[reason], 1, __ATOMIC_RELAXED);
	if (request) put_outcome(request, "Tuvaddri-Reason", reasons[reason].word);
	if (reason == PROVED)
		radlog(L_AUTH, "%s %s user=%s %s %s", NAME, outcome, s->user, s->place, more);
	else
		radlog(L_AUTH, "%s %s user=%s %s reason=%s: %s", NAME, outcome, s->user, s->place, reasons[reason].word, more);
}

static size_t identity_len(eap_handler_t const *handler)
{
	return talloc_array_length(handler->identity) - 1;
}

static VALUE_PAIR *attribute_of(REQUEST *request, unsigned attribute)
{
	return fr_pair_find_by_num(request->packet->vps, attribute, 0, TAG_ANY);
}

static bool has_port_type(REQUEST *request, uint32_t type)
{
	VALUE_PAIR const *vp = attribute_of(request, PW_NAS_PORT_TYPE);

	return vp && vp->vp_integer == type;
}

/* Whether Calling-Station-Id is one station's: a MAC address, as 12 hex digits with
 * or without separators. A VPN gateway has an address of IP there, behind which there
 * may be many stations. */
static bool has_own_station(REQUEST *request)
{
	VALUE_PAIR const *vp = attribute_of(request, PW_CALLING_STATION_ID);
	size_t digits = 0;

	if (!vp || has_port_type(request, VIRTUAL_PORT)) return false;
	for (size_t at = 0; at < vp->vp_length; at++) {
		if (isxdigit(vp->vp_octets[at])) digits++;
		else if (!vp->vp_octets[at] || !strchr("-:.", vp->vp_octets[at])) return false;
	}
	return digits == 12;
}

/* Where at its client: the access point or switch, of which a proxy may have many, and
 * the port of a switch. At another port a station may have the address of somebody
 * else. (Wi-Fi has one air, and numbers that differ at each association.) */
static char *port_of(TALLOC_CTX *ctx, REQUEST *request)
{
	static unsigned const named[] = { PW_NAS_IP_ADDRESS, PW_NAS_IPV6_ADDRESS, PW_NAS_IDENTIFIER, PW_NAS_PORT, PW_NAS_PORT_ID };
	int count = has_port_type(request, WIRELESS_PORT) ? 3 : 5;
	char *port = talloc_strdup(ctx, "");

	for (int it = 0; it < count && port; it++) {
		VALUE_PAIR const *vp = attribute_of(request, named[it]);
		char *value = vp ? vp_aprints_value(ctx, vp, '"') : NULL;

		if (value) port = talloc_asprintf_append_buffer(port, "%u=\"%s\" ", named[it], value);
		talloc_free(value);
	}
	return port;
}

/* Who logs in, and from where. */
static bool note(struct session *s, eap_handler_t *handler)
{
	REQUEST *request = handler->request;

	s->handler = handler;
	s->user = quoted(handler, handler->identity, identity_len(handler));
	s->has_station = has_own_station(request);
	s->place = place_of(handler, request);
	s->port = port_of(handler, request);
	return s->user && s->place && s->port;
}

/* Takes a login that waits for its station out of rlm_eap's list, whose mutex is
 * held, as eaplist_delete does there. False where it isn't in the list: another
 * thread serves it, or has ended it. */
static bool take_out(rlm_eap_t *eap, eap_handler_t *handler)
{
	rbnode_t *node = rbtree_find(eap->session_tree, handler);

	if (!node || rbtree_node2data(eap->session_tree, node) != handler) return false;
	rbtree_delete(eap->session_tree, node);
	if (handler->prev) handler->prev->next = handler->next;
	else eap->session_head = handler->next;
	if (handler->next) handler->next->prev = handler->prev;
	else eap->session_tail = handler->prev;
	handler->prev = handler->next = NULL;
	return true;
}

/* The waiting login of the same station, access point, client and port is taken out; the
 * new one gets its place in the table. (With the mutex no login of the table is
 * given back meanwhile.) */
static eap_handler_t *replace(rlm_eap_t *eap, struct session *s)
{
	struct session *other;
	eap_handler_t *taken = NULL;

	pthread_mutex_lock(&stations_mutex);
	other = rbtree_finddata(stations, s);
	if (other) {
		rbtree_deletebydata(stations, other);
		other->is_listed = false;
		if (take_out(eap, other->handler)) taken = other->handler;
	}
	s->is_listed = rbtree_insert(stations, s);
	pthread_mutex_unlock(&stations_mutex);
	return taken;
}

/* The login by one of the two methods that waits longest: the list is in this order. */
static eap_handler_t *oldest(rlm_eap_t *eap)
{
	eap_handler_t *it = eap->session_head;

	for (int looked = 0; it && looked < 1024; looked++, it = it->next)
		if ((int) it->type == TUV_KIND_PSK || (int) it->type == TUV_KIND_GPSK) return it;
	return NULL;
}

/* The login that waits longest is taken out where it has waited for too long, or
 * where only a sixteenth of max_sessions is left. */
static eap_handler_t *take_oldest(struct settings const *it, rlm_eap_t *eap)
{
	bool is_full = rbtree_num_elements(eap->session_tree) >= eap->max_sessions - eap->max_sessions / 16;
	/* (where rlm_eap would soon refuse all, one of another method gives way too) */
	eap_handler_t *first = is_full ? eap->session_head : oldest(eap);

	if (!first || (!is_full && time(NULL) - first->timestamp <= (time_t) it->timer_expire)) return NULL;
	return take_out(eap, first) ? first : NULL;
}

/* Whether nobody has a conversation, neither rlm_eap's list nor a request. (rlm_eap
 * takes it out of the list a few steps before a request has it.) */
static bool is_missed(rlm_eap_t const *eap, eap_handler_t const *it)
{
	return it->inst_holder == eap && !it->request && !it->prev && !it->next && eap->session_head != it;
}

/* FreeRADIUS forgets a conversation whose Response has another Type than the Request,
 * or another User-Name (c/freeradius/UPSTREAM.md). One that has been missed for
 * MISSED_SECONDS is found here. Each new login looks twice, so that more are given
 * back than it can leave. */
static eap_handler_t *find_forgotten(rlm_eap_t const *eap)
{
	eap_handler_t *found = NULL;
	time_t now = time(NULL);

	pthread_mutex_lock(&stations_mutex);
	for (int i = 0; ring && !found && i < LOOKED_AT; i++, ring = ring->next) {
		if (!is_missed(eap, ring->handler)) ring->missed = 0;
		else if (!ring->missed) ring->missed = now;
		else if (now - ring->missed >= MISSED_SECONDS) found = ring->handler;
	}
	pthread_mutex_unlock(&stations_mutex);
	return found;
}

/* Whoever can send identities can leave logins open. So a station's new login ends
 * the one that it has open, and two of those that wait longest end by it. */
static void make_room(struct settings const *it, struct session *s, rlm_eap_t *eap)
{
	eap_handler_t *taken[3] = { NULL };

	/* (another rlm_eap than the one of the headers would have its methods elsewhere) */
	if (!eap->methods[KIND] || eap->methods[KIND]->type != &MODULE) return;
	pthread_mutex_lock(&eap->session_mutex);
	if (it->one_per_station && s->has_station) taken[0] = replace(eap, s);
	for (int i = 1; i < 3; i++) taken[i] = take_oldest(it, eap);
	/* (under the mutex: the other method's module may know this one too) */
	for (int i = 0; i < 2; i++) talloc_free(find_forgotten(eap));
	pthread_mutex_unlock(&eap->session_mutex);
	for (int i = 0; i < 3; i++) talloc_free(taken[i]);
}

/* Whether rlm_eap will begin another method by the Nak that has come. */
static bool goes_on_by_nak(eap_handler_t const *handler)
{
	eap_type_data_t const *nak = &handler->eap_ds->response->type;
	VALUE_PAIR const *only = fr_pair_find_by_num(handler->request->config, PW_EAP_TYPE, 0, TAG_ANY);
	rlm_eap_t const *eap = handler->inst_holder;

	for (size_t i = 0; !handler->started && i < nak->length && nak->data[i] >= PW_EAP_MD5; i++) {
		uint8_t type = nak->data[i];

		if (type < PW_EAP_MAX_TYPES && eap->methods[type] && type != KIND && (!only || only->vp_integer == type))
			return true;
	}
	return false;
}

static bool is_barred(REQUEST *request)
{
	VALUE_PAIR const *type = fr_pair_find_by_num(request->config, PW_AUTH_TYPE, 0, TAG_ANY);

	return type && type->vp_integer == PW_AUTH_TYPE_REJECT;
}

/* What the site has against a login, in the words of the module that rejects it. */
static void tell_reject(struct session *s, REQUEST *request)
{
	enum reason reason = is_barred(request) ? BARRED : REJECTED;
	char const *text = failure_of(s->handler, request);

	tell(s, reason, text ? text : reasons[reason].text);
}

/* What a login came to that rlm_eap ends by itself: by a Nak (it still has its
 * packets then), before the module was asked again (by the site, or by no request at
 * all, where rlm_eap has forgotten it), after the module's last answer (no place in
 * the list), or with no packet at all. */
static enum reason end_of(struct session const *s)
{
	eap_handler_t const *handler = s->handler;
	rlm_eap_t const *eap = handler->inst_holder;
	time_t waited = time(NULL) - handler->timestamp;

	if (handler->eap_ds) return NO_METHOD;
	if (!eap->session_tree) return STOPPED;
	if (handler->trips != s->trips) return handler->request ? REJECTED : BAD_PACKET;
	if (handler->request) return TOO_MANY;
	return waited > eap->timer_limit || waited > s->timer_expire ? TIMEOUT : GAVE_WAY;
}

static void tell_end(struct session *s)
{
	enum reason reason = end_of(s);

	if (reason == NO_METHOD && goes_on_by_nak(s->handler)) return;
	if (reason == REJECTED) tell_reject(s, s->handler->request);
	else tell(s, reason, reason == BAD_PACKET ? OTHER_TYPE : reasons[reason].text);
}

static void give_back(void *opaque)
{
	struct session *s = opaque;

	pthread_mutex_lock(&stations_mutex);
	if (s->is_listed) rbtree_deletebydata(stations, s);
	pthread_mutex_unlock(&stations_mutex);
	if (!s->is_told) tell_end(s);
	tuv_end_free(&s->end);
	free(s);
}

/* The Request that the method has made last. */
static int put_request(eap_handler_t *handler, struct session *s)
{
	eap_packet_t *request = handler->eap_ds->request;
	uint8_t packet[TUV_PACKET_MAX];
	size_t len = tuv_end_last_packet(&s->end, packet, sizeof(packet));

	if (len < 6) return 0;
	request->code = PW_EAP_REQUEST;
	request->id = packet[1];
	handler->eap_ds->set_request_id = 1;
	request->type.num = KIND;
	request->type.length = len - 5;
	request->type.data = talloc_memdup(request, packet + 5, len - 5);
	return request->type.data != NULL;
}

static bool begin(struct settings const *it, struct session *s)
{
	struct tuv_settings const told = {
		.size = sizeof(told),
		.name = { (uint8_t const *) s->server, strlen(s->server) },
		.methods = { KIND },
		.suites = { it->suites_told[0], it->suites_told[1] }
	};

	return tuv_end_new(&s->end.at) && tuv_server_method_begin(&s->end, &told, s->nonce, s->id) == TUV_OK;
}

/* The first Request depends on no user: one is looked up when the first Response
 * has come, by when a site in FreeRADIUS's stock order has asked its stores. */
static int session_init(void *instance, eap_handler_t *handler)
{
	struct settings const *it = instance;
	REQUEST *request = handler->request;
	struct session *s = calloc(1, sizeof(*s));

	if (!s || !note(s, handler) || !join_ring(handler)) {
		free(s);
		return 0;
	}
	handler->opaque = s;
	handler->free_opaque = give_back;
	s->trips = handler->trips;
	s->timer_expire = it->timer_expire;
	s->id = handler->eap_ds->response->id + 1;
	/* (what fails here leaves a line of its own in the place of the login's) */
	s->is_told = true;
	/* (each realm may have a name of its own) */
	if (radius_axlat(&s->server, request, it->server_id, NULL, NULL) < 0) return 0;
	talloc_steal(handler, s->server);
	if (getrandom(s->nonce, sizeof(s->nonce), 0) != sizeof(s->nonce) || !begin(it, s)) {
		RERROR("%s can't begin: server_id is '%s', and has 1 to %i octets", NAME, s->server, TUV_NAME_MAX);
		return 0;
	}
	handler->stage = PROCESS;
	if (!put_request(handler, s)) return 0;
	s->is_told = false;
	tuv_end_free(&s->end);
	make_room(it, s, handler->inst_holder);
	return 1;
}

/* A key of octets is taken as it is; so is a string, but that "0x.." is hex, for
 * stores that have nothing but strings.  No octets where it has too many. */
static size_t key_of(VALUE_PAIR const *vp, uint8_t room[TUV_KEY_MAX])
{
	size_t len = vp->vp_length;

	if (vp->da->type == PW_TYPE_STRING && len > 2 && strncmp(vp->vp_strvalue, "0x", 2) == 0) {
		size_t made = 0;

		/* (to fr_hex2bin an octet of 0 is a digit) */
		if (!memchr(vp->vp_strvalue, 0, len)) made = fr_hex2bin(room, TUV_KEY_MAX, vp->vp_strvalue + 2, len - 2);
		return 2 * made == len - 2 ? made : 0;
	}
	if (len > TUV_KEY_MAX) return 0;
	memcpy(room, vp->vp_octets, len);
	return len;
}

/* Hex digits that nobody has made octets of: as many octets, if they were a key,
 * would be so by a chance of less than 2 to the -112. */
static bool is_hex_text(VALUE_PAIR const *vp)
{
	size_t digits = 0;

	for (size_t at = 0; at < vp->vp_length; at++) digits += isxdigit(vp->vp_octets[at]) != 0;
	return digits == vp->vp_length && digits >= 32;
}

/* What a check item or a rule may ask of beside the name: station, access point, port.
 * Not EAP itself, nor what FreeRADIUS has made of the name outside (over 255). */
static bool is_copied(DICT_ATTR const *it)
{
	if (it->vendor) return true;
	return it->attr <= 255 && it->attr != PW_USER_NAME && it->attr != PW_EAP_MESSAGE && it->attr != PW_STATE &&
		it->attr != PW_MESSAGE_AUTHENTICATOR;
}

static void copy_request(REQUEST *inner, REQUEST *request)
{
	vp_cursor_t cursor;

	for (VALUE_PAIR *vp = fr_cursor_init(&cursor, &request->packet->vps); vp; vp = fr_cursor_next(&cursor))
		if (is_copied(vp->da)) fr_pair_add(&inner->packet->vps, fr_pair_copy(inner->packet, vp));
}

/* Looks a name up by the virtual server's authorize section. */
static enum reason ask_for(REQUEST **asked, struct session *s, struct settings const *it, char const *name, size_t len)
{
	REQUEST *request = s->handler->request, *inner = request_alloc_fake(request);
	rlm_rcode_t code;

	*asked = inner;
	if (inner) inner->username = fr_pair_afrom_num(inner->packet, PW_USER_NAME, 0);
	if (!inner || !inner->username) return NO_STORE;
	copy_request(inner, request);
	fr_pair_value_bstrncpy(inner->username, name, len);
	fr_pair_add(&inner->packet->vps, inner->username);
	if (it->virtual_server) inner->server = it->virtual_server;
	code = process_authorize(0, inner);
	s->why = failure_of(s->handler, inner);
	/* (so answers expiration, which has words of its own, and logintime, which has none) */
	if (!s->why && code == RLM_MODULE_USERLOCK) s->why = "not within the user's Login-Time";
	if (is_barred(inner)) return BARRED;
	if (code == RLM_MODULE_REJECT || code == RLM_MODULE_USERLOCK) return REJECTED;
	return code == RLM_MODULE_FAIL || code == RLM_MODULE_INVALID ? NO_STORE : PROVED;
}

/* Tells the method its user, with a key that the store has. */
static enum reason put_user(struct session *s, VALUE_PAIR const *vp, char const *name, size_t len)
{
	uint8_t key[TUV_KEY_MAX];
	struct tuv_settings told = { .size = sizeof(told), .other = { (uint8_t const *) name, len } };
	struct tuv_octets *octets = KIND == TUV_KIND_PSK ? &told.psk_key : &told.gpsk_key;
	uint8_t answer;

	if (is_hex_text(vp)) return HEX_KEY;
	*octets = (struct tuv_octets) { key, key_of(vp, key) };
	answer = octets->len ? tuv_server_method_user(&s->end, &told) : TUV_BAD_KEY;
	explicit_bzero(key, sizeof(key));
	if (answer == TUV_OK) return PROVED;
	s->text = tuv_refusal_word(answer);
	return answer == TUV_BAD_KEY ? UNFIT_KEY : BAD_PACKET;
}

/* What a Response came to. */
static enum reason hear(eap_handler_t *handler, struct session *s, struct tuv_method_turn *turn)
{
	eap_packet_t const *response = handler->eap_ds->response;

	*turn = tuv_server_method_handle(&s->end, response->packet, response->length, response->id + 1);
	if (!turn->discards) return PROVED;
	s->text = tuv_cause_word(turn->cause);
	return turn->cause == TUV_CAUSE_BAD_TAG ? WRONG_KEY : BAD_PACKET;
}

/* The first Response under each key of the user, until one serves: a discard has
 * changed nothing. A key that is none is told before one that is another. */
static enum reason try_keys(eap_handler_t *handler, struct session *s, struct tuv_method_turn *turn,
			    VALUE_PAIR *const *found, DICT_ATTR const *attribute, char const *name, size_t len)
{
	enum reason first = NO_KEY;
	vp_cursor_t cursor;

	s->keys = 0;
	fr_cursor_init(&cursor, found);
	while (fr_cursor_next_by_da(&cursor, attribute, TAG_ANY)) s->keys++;
	if (s->keys > KEYS) return MANY_KEYS;
	fr_cursor_init(&cursor, found);
	for (s->key = 1; s->key <= s->keys; s->key++) {
		enum reason reason = put_user(s, fr_cursor_next_by_da(&cursor, attribute, TAG_ANY), name, len);

		if (reason == PROVED) reason = hear(handler, s, turn);
		if (reason == PROVED || reason == BAD_PACKET) return reason;
		if (first == NO_KEY || first == WRONG_KEY) first = reason;
	}
	return first;
}

/* What a login that is refused before any key has been tried takes all the same: the
 * work of a wrong key. Else the time until the answer would tell who is a user. */
static void try_none(eap_handler_t *handler, struct session *s, struct tuv_method_turn *turn, char const *name, size_t len)
{
	uint8_t key[KIND == TUV_KIND_PSK ? 16 : 32];
	struct tuv_settings told = { .size = sizeof(told), .other = { (uint8_t const *) name, len } };
	struct tuv_octets *octets = KIND == TUV_KIND_PSK ? &told.psk_key : &told.gpsk_key;

	*octets = (struct tuv_octets) { key, sizeof(key) };
	if (getrandom(key, sizeof(key), 0) == sizeof(key) && tuv_server_method_user(&s->end, &told) == TUV_OK)
		hear(handler, s, turn);
}

/* The first Response names the user.  By a name that isn't the identity's nobody
 * is looked up: the library would answer by a GPSK-Fail, at which stations fall
 * silent, or a Failure; but nothing has been proved of that name by then. */
static enum reason hear_first(eap_handler_t *handler, struct settings const *it, struct session *s,
			      struct tuv_method_turn *turn)
{
	eap_packet_t const *response = handler->eap_ds->response;
	REQUEST *request = handler->request, *inner = NULL;
	char name[TUV_NAME_MAX];
	size_t len = tuv_response_name(response->packet, response->length, (uint8_t *) name);
	enum reason reason = PROVED;

	s->text = reasons[BAD_PACKET].text;
	if (!len) return BAD_PACKET;
	/* (what comes before it is to a store or a rule a name of its own) */
	s->text = "the name has a zero octet";
	if (memchr(name, 0, len)) return BAD_PACKET;
	if (it->inner_identity) {
		char *user = quoted(handler, name, len);

		if (user) s->user = user;
	} else if (len != identity_len(handler) || memcmp(name, handler->identity, len) != 0) {
		return OTHER_NAME;
	}
	if (it->inner_identity || it->virtual_server) reason = ask_for(&inner, s, it, name, len);
	if (reason == PROVED)
		reason = try_keys(handler, s, turn, inner ? &inner->config : &request->config, it->key, name, len);
	if (reason == NO_KEY || reason == BARRED || reason == REJECTED) try_none(handler, s, turn, name, len);
	if (reason == PROVED && inner) s->reply = fr_pair_list_copy(handler, inner->reply->vps);
	if (reason == PROVED) s->name = talloc_strndup(handler, name, len);
	talloc_free(inner);
	return reason;
}

/* RFC 3579 section 2.2: the last Request again, with Error-Cause 202; so many
 * times.  Then FreeRADIUS sends an Access-Reject. */
static int ask_again(eap_handler_t *handler, struct settings const *it, struct session *s, enum reason reason)
{
	REQUEST *request = handler->request;

	if (reason != BAD_PACKET) s->text = reasons[reason].text;
	if ((reason == REJECTED || reason == NO_STORE) && s->why) s->text = s->why;
	if (s->discards++ >= it->max_discards) {
		module_failure_msg(request, "%s: given up: %s", NAME, s->text);
		tell(s, reason, s->text);
		return 0;
	}
	RWDEBUG("%s: discarded: %s", NAME, s->text);
	pair_make_reply("Error-Cause", "Invalid-EAP-Packet", T_OP_SET);
	return put_request(handler, s);
}

/* The suite is 0 for EAP-PSK. */
static void tell_proved(struct session *s, uint8_t suite)
{
	char number[12], how[40];

	snprintf(number, sizeof(number), "%i", s->key);
	put_outcome(s->handler->request, "Tuvaddri-Key-Number", number);
	snprintf(number, sizeof(number), "%i", suite);
	put_outcome(s->handler->request, "Tuvaddri-Suite", number);
	snprintf(how, sizeof(how), "suite=%c key=%i/%i", suite ? '0' + suite : '-', s->key, s->keys);
	tell(s, PROVED, how);
}

/* For rules, queries and the Access-Accept. False where there is no memory. */
static bool put_name(REQUEST *request, char const *name)
{
	VALUE_PAIR *vp = name ? fr_pair_afrom_num(request->state_ctx, PW_USER_NAME, 0) : NULL;

	if (!vp) return false;
	/* (as it is: fr_pair_make would read \x31 as a digit) */
	fr_pair_value_bstrncpy(vp, name, strlen(name));
	fr_pair_replace(&request->state, vp);
	return true;
}

/* RFC 2548 section 2.4 for the link keys, which FreeRADIUS seals; its stock site
 * copies EAP-Session-Id to EAP-Key-Name (RFC 4072) where that was asked for. */
static int give_keys(eap_handler_t *handler, struct settings const *it, struct session *s)
{
	REQUEST *request = handler->request;
	struct tuv_report report = { .size = sizeof(report) };
	uint8_t id[TUV_SESSION_ID_MAX];
	size_t len = it->as_wpa ? tuv_end_session_id_wpa(&s->end, id) : tuv_end_session_id(&s->end, id);

	if (!put_name(request, s->name) || !tuv_end_report(&s->end, &report)) return 0;
	/* (a site that asks its stores itself has put the rights of the name outside there, which nobody has proved) */
	if (it->inner_identity) fr_pair_list_free(&request->reply->vps);
	handler->eap_ds->request->code = PW_EAP_SUCCESS;
	eap_add_reply(request, "MS-MPPE-Recv-Key", report.msk, 32);
	eap_add_reply(request, "MS-MPPE-Send-Key", report.msk + 32, 32);
	eap_add_reply(request, "EAP-MSK", report.msk, sizeof(report.msk));
	eap_add_reply(request, "EAP-EMSK", report.emsk, sizeof(report.emsk));
	eap_add_reply(request, "EAP-Session-Id", id, len);
	/* (as EAP-TTLS and PEAP by use_tunneled_reply; the site hands session-state on) */
	fr_pair_list_mcopy_by_num(request->reply, &request->reply->vps, &s->reply, 0, 0, TAG_ANY);
	tell_proved(s, report.suite);
	explicit_bzero(&report, sizeof(report));
	return 1;
}

static int take(eap_handler_t *handler, struct settings const *it, struct session *s)
{
	REQUEST *request = handler->request;
	struct tuv_method_turn turn;
	enum reason reason = s->goes_on ? hear(handler, s, &turn) : hear_first(handler, it, s, &turn);

	if (reason != PROVED) return ask_again(handler, it, s, reason);
	s->goes_on = true;
	if (turn.sends) return put_request(handler, s);
	if (turn.state == TUV_METHOD_DONE && turn.decision == TUV_DECISION_UNCOND_SUCC) return give_keys(handler, it, s);
	module_failure_msg(request, "%s: the login failed: %s", NAME, tuv_failure_word(tuv_end_failure(&s->end).reason));
	tell(s, ENDED, tuv_failure_word(tuv_end_failure(&s->end).reason));
	return 0;
}

static int process(void *instance, eap_handler_t *handler)
{
	struct session *s = handler->opaque;
	int goes_on;

	s->trips = handler->trips;
	goes_on = (s->end.at || begin(instance, s)) && take(handler, instance, s);
	/* (a thread of the server serves other users next, so either clears the stack) */
	if (s->goes_on) tuv_clear_stack();
	else tuv_end_free(&s->end);
	return goes_on;
}

rlm_eap_module_t MODULE = {
	.name		= MODULE_NAME,
	.instantiate	= instantiate,
	.session_init	= session_init,
	.process	= process,
	.detach		= detach
};
