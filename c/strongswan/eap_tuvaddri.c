/* EAP-PSK (47) and EAP-GPSK (51) of Tuvaddri as a plugin of strongSwan's charon 5.9, for
 * clients and for gateways.  charon keeps the conversation inside IKE_AUTH (RFC 7296
 * section 2.16): EAP Identity, Nak, Success, Failure, and AUTH by the MSK.  The method is
 * the library's.
 *
 * IKEv2 answers each message, and takes none from anybody but the other end of the
 * IKE_SA.  So what the library discards can't be left unanswered, and ends the login;
 * but for a Request that comes again as it was.  By that a RADIUS server behind the
 * gateway says that it discards a Response (RFC 3579 section 2.2). */
#include <daemon.h>
#include <library.h>
#include <ctype.h>
#include <sys/random.h>
#include "tuvaddri.h"

/* What is cleared of the stack: charon's next job in this thread serves others. */
enum { CLEARED = TUV_STACK_MAX + 8192 };

/* The keys that a gateway may have of a user for a method: the old one and the new one. */
enum { KEYS = 2 };

/* How often a client answers the same Request again: as often as FreeRADIUS's
 * max_discards may say. */
enum { MOST_AGAIN = 20 };

/* One end of a login: what charon has of it, and the library's end. */
struct method {
	eap_method_t public;
	identification_t *server, *peer;
	uint8_t kind, identifier;
	struct tuv_end end;
	struct tuv_report report;	/* its size is 0 until both ends have proved the key */
	int key, keys;			/* at a gateway the key that serves, of how many */
	bool is_peer;
	bool goes_on;			/* of a gateway: the first Response has been taken */
	chunk_t answered;		/* of a client: the Request that it has answered last, */
	int again;			/* and how often that came again */
};

/* Keys that were found for an end, and what else was found. */
struct keys {
	shared_key_t *at[KEYS];
	int found, unfit, hex;
};

static char const *name_of(struct method const *m)
{
	return m->kind == TUV_KIND_PSK ? "EAP-PSK" : "EAP-GPSK";
}

/* ---- names and settings ---- */

static struct tuv_octets octets_of(identification_t *id)
{
	chunk_t at = id->get_type(id) == ID_ANY ? chunk_empty : id->get_encoding(id);

	return (struct tuv_octets) { at.ptr, at.len };
}

/* Says a name that the network gave, as %Y has it: so nobody forges a line of the log. */
static void tell_name(struct method *m, char const *what, uint8_t const *name, size_t len)
{
	identification_t *id = identification_create_from_encoding(ID_KEY_ID, chunk_create((u_char *) name, len));

	DBG1(DBG_IKE, "%s: %s '%Y'", name_of(m), what, id);
	id->destroy(id);
}

static enumerator_t *words_of(char const *setting)
{
	char *text = lib->settings->get_str(lib->settings, "%s.plugins.eap-tuvaddri.%s", "", lib->ns, setting);

	return enumerator_create_token(text, ",", " ");
}

/* suites = 1, 2: in this order.  False for anything else than these numbers. */
static bool take_suites(struct tuv_settings *told)
{
	enumerator_t *words = words_of("suites");
	size_t at = 0;
	bool good = TRUE;
	char *word;

	while (good && words->enumerate(words, &word)) {
		good = at < countof(told->suites) && (streq(word, "1") || streq(word, "2"));
		if (good) told->suites[at++] = word[0] - '0';
	}
	words->destroy(words);
	return good;
}

/* barred = alice, bob: known by their keys, and refused. */
static bool is_barred(identification_t *peer)
{
	enumerator_t *words = words_of("barred");
	bool barred = FALSE;
	char *word;

	while (!barred && words->enumerate(words, &word)) {
		identification_t *id = identification_create_from_string(word);

		barred = id->equals(id, peer);
		id->destroy(id);
	}
	words->destroy(words);
	return barred;
}

/* ---- keys ---- */

static bool is_hex(chunk_t text)
{
	size_t at = 0;

	while (at < text.len && isxdigit(text.ptr[at])) at++;
	return at == text.len;
}

/* The octets of a secret.  Text that begins with 0x is hex too, for clients that have
 * nothing but text; these octets are written to `room`. */
static chunk_t key_of(shared_key_t *secret, uint8_t room[TUV_KEY_MAX])
{
	chunk_t key = secret->get_key(secret);

	if (key.len < 4 || key.len > 2 + 2 * TUV_KEY_MAX || key.len % 2 || !memeq(key.ptr, "0x", 2)) return key;
	return is_hex(chunk_skip(key, 2)) ? chunk_from_hex(chunk_skip(key, 2), (char *) room) : key;
}

static bool is_fit(uint8_t kind, chunk_t key)
{
	return kind == TUV_KIND_PSK ? key.len == 16 : key.len >= 32 && key.len <= TUV_KEY_MAX;
}

/* Counts a secret of the user, and keeps it if it is a key of the method.  Hex digits as
 * text have the size of a key, and are none: 0x is missing before them. */
static void take_secret(struct method *m, shared_key_t *secret, struct keys *keys)
{
	uint8_t room[TUV_KEY_MAX];
	chunk_t key = key_of(secret, room);

	if (key.len >= 32 && is_hex(key)) keys->hex++;
	else if (!is_fit(m->kind, key)) keys->unfit++;
	else if (keys->found++ < KEYS) keys->at[keys->found - 1] = secret->get_ref(secret);
	memwipe(room, sizeof(room));
}

/* The secrets whose owners have the user's name; with `of_both` those that name the
 * server too.  A secret of everybody is nobody's key. */
static void find_keys(struct method *m, bool of_both, struct keys *keys)
{
	identification_t *me = m->is_peer ? m->peer : m->server, *other = m->is_peer ? m->server : m->peer;
	enumerator_t *all = lib->credmgr->create_shared_enumerator(lib->credmgr, SHARED_EAP, me, other);
	id_match_t mine, theirs;
	shared_key_t *secret;

	while (all->enumerate(all, &secret, &mine, &theirs)) {
		id_match_t user = m->is_peer ? mine : theirs, server = m->is_peer ? theirs : mine;

		if (user == ID_MATCH_PERFECT && (!of_both || server == ID_MATCH_PERFECT)) take_secret(m, secret, keys);
	}
	all->destroy(all);
}

static void drop_keys(struct keys *keys)
{
	for (int at = 0; at < keys->found && at < KEYS; at++) keys->at[at]->destroy(keys->at[at]);
	keys->found = 0;
}

static void tell_no_key(struct method *m, struct keys const *keys, int most)
{
	char const *why = "";

	if (keys->found > most) why = most == 1 ? ": several" : ": over two";
	else if (keys->hex) why = ": hex digits as text, 0x is missing before them";
	else if (keys->unfit) why = m->kind == TUV_KIND_PSK ? ": none of 16 octets" : ": none of 32 to 64 octets";
	DBG1(DBG_IKE, "%s: no key of '%Y'%s", name_of(m), m->peer, why);
}

/* The keys of the method that this end has with the other one, those that name both
 * before the user's others.  A gateway may have two of a user, a client one. */
static bool look_up(struct method *m, struct keys *keys)
{
	int most = m->is_peer ? 1 : KEYS;

	*keys = (struct keys) { .found = 0 };
	find_keys(m, TRUE, keys);
	if (!keys->found) {
		*keys = (struct keys) { .found = 0 };
		find_keys(m, FALSE, keys);
	}
	if (keys->found && keys->found <= most) return TRUE;
	tell_no_key(m, keys, most);
	drop_keys(keys);
	return FALSE;
}

/* Puts a key into settings; where it was text its octets stand in `room`. */
static void put_key(struct method *m, struct tuv_settings *told, shared_key_t *secret, uint8_t room[TUV_KEY_MAX])
{
	chunk_t key = key_of(secret, room);

	*(m->kind == TUV_KIND_PSK ? &told->psk_key : &told->gpsk_key) = (struct tuv_octets) { key.ptr, key.len };
}

/* ---- what both roles do ---- */

/* The Identifier of a gateway's first Request isn't that of the EAP Identity, 0. */
static uint8_t begin_by(struct method *m, struct tuv_settings *told, uint8_t const nonce[TUV_NONCE_LEN])
{
	if (m->is_peer) return tuv_peer_method_begin(&m->end, told, nonce);
	m->identifier = 1 + random() % 255;
	return tuv_server_method_begin(&m->end, told, nonce, m->identifier);
}

static bool begin(struct method *m, struct tuv_settings *told)
{
	uint8_t nonce[TUV_NONCE_LEN], answer;

	told->size = sizeof(*told);
	told->methods[0] = m->kind;
	if (!take_suites(told)) {
		DBG1(DBG_IKE, "%s: suites is 1, 2 or both", name_of(m));
		return FALSE;
	}
	if (getrandom(nonce, sizeof(nonce), 0) != sizeof(nonce) || !tuv_end_new(&m->end.at)) return FALSE;
	answer = begin_by(m, told, nonce);
	memwipe(nonce, sizeof(nonce));
	if (answer == TUV_OK) return TRUE;
	DBG1(DBG_IKE, "%s: the settings are refused: %s", name_of(m), tuv_refusal_word(answer));
	return FALSE;
}

/* The packet that was sent last, which a turn or a begin has just made, or once more. */
static status_t put_packet(struct method *m, eap_payload_t **out)
{
	uint8_t packet[TUV_PACKET_MAX];
	size_t len = tuv_end_last_packet(&m->end, packet, sizeof(packet));

	if (!len) return FAILED;
	m->identifier = packet[1];
	*out = eap_payload_create_data(chunk_create(packet, len));
	return NEED_MORE;
}

static void tell_failure(struct method *m)
{
	struct tuv_failure why = tuv_end_failure(&m->end);

	if (why.reason)
		DBG1(DBG_IKE, "%s: '%Y' at '%Y' failed: %s, Failure-Code %u", name_of(m), m->peer, m->server,
		     tuv_failure_word(why.reason), why.code);
}

/* Whether a turn has left a packet unanswered; here it ends the login. */
static bool is_bad(struct method *m, struct tuv_method_turn turn)
{
	if (!turn.discards && !turn.misplaced) return FALSE;
	DBG1(DBG_IKE, "%s: bad message from '%Y': %s", name_of(m), m->is_peer ? m->server : m->peer,
	     tuv_cause_word(turn.cause));
	return TRUE;
}

static bool take_report(struct method *m)
{
	struct tuv_report report = { .size = sizeof(report) };

	if (!tuv_end_report(&m->end, &report)) return FALSE;
	m->report = report;
	memwipe(&report, sizeof(report));
	if (m->is_peer)
		DBG1(DBG_IKE, "%s: '%Y' is logged in, suite %u", name_of(m), m->peer, m->report.suite);
	else
		DBG1(DBG_IKE, "%s: '%Y' is logged in, suite %u, key %i/%i", name_of(m), m->peer, m->report.suite,
		     m->key, m->keys);
	if (m->is_peer) tell_name(m, "the server is", m->report.server, m->report.server_length);
	return TRUE;
}

/* ---- a client ---- */

/* A RADIUS server discards our Response where the keys differ, and asks again; it says
 * so in its log where it is answered as often as it asks. */
static status_t answer_again(struct method *m, eap_payload_t **out)
{
	DBG1(DBG_IKE, "%s: '%Y' asks the same again: it hasn't taken our message (another key?)", name_of(m), m->server);
	return m->again++ < MOST_AGAIN ? put_packet(m, out) : FAILED;
}

static status_t answer(struct method *m, chunk_t request, eap_payload_t **out)
{
	struct tuv_method_turn turn = tuv_peer_method_handle(&m->end, request.ptr, request.len);
	uint8_t name[TUV_NAME_MAX];

	if (is_bad(m, turn)) {
		if (turn.cause == TUV_CAUSE_UNKNOWN_SERVER)
			tell_name(m, "the server's name is", name, tuv_request_name(request.ptr, request.len, name));
		return FAILED;
	}
	tell_failure(m);
	if (!turn.sends) return FAILED;
	chunk_free(&m->answered);
	m->answered = chunk_clone(request);
	return put_packet(m, out);
}

static status_t take_request(struct method *m, chunk_t request, eap_payload_t **out)
{
	bool is_again = m->answered.len && chunk_equals(m->answered, request);

	return is_again ? answer_again(m, out) : answer(m, request, out);
}

/* ---- a gateway ---- */

/* The first Response, under one of the user's keys. */
static struct tuv_method_turn try_key(struct method *m, chunk_t response, shared_key_t *secret)
{
	struct tuv_method_turn turn = { .discards = TRUE };
	struct tuv_settings told = { .size = sizeof(told), .other = octets_of(m->peer), .barred = is_barred(m->peer) };
	uint8_t room[TUV_KEY_MAX], refused;

	put_key(m, &told, secret, room);
	refused = tuv_server_method_user(&m->end, &told);
	memwipe(room, sizeof(room));
	if (refused != TUV_OK)
		DBG1(DBG_IKE, "%s: '%Y' is refused: %s", name_of(m), m->peer, tuv_refusal_word(refused));
	else
		turn = tuv_server_method_handle(&m->end, response.ptr, response.len, m->identifier + 1);
	return turn;
}

/* Under each of his keys, until one serves: a discard has changed nothing. */
static struct tuv_method_turn try_keys(struct method *m, chunk_t response)
{
	struct tuv_method_turn turn = { .discards = TRUE, .cause = TUV_CAUSE_BAD_TAG };
	struct keys keys;

	if (!look_up(m, &keys)) return turn;
	m->keys = keys.found;
	for (m->key = 0; turn.discards && m->key < m->keys; m->key++) turn = try_key(m, response, keys.at[m->key]);
	drop_keys(&keys);
	return turn;
}

/* Whether the name inside is the one outside, whose keys are looked up: by his own key
 * nobody logs in as another. */
static bool is_name_outside(struct method *m, chunk_t response)
{
	struct tuv_octets outside = octets_of(m->peer);
	uint8_t name[TUV_NAME_MAX];
	size_t len = tuv_response_name(response.ptr, response.len, name);

	if (len && len == outside.len && memeq(name, outside.at, len)) return TRUE;
	DBG1(DBG_IKE, "%s: not the name inside: '%Y'", name_of(m), m->peer);
	tell_name(m, "the name inside is", name, len);
	return FALSE;
}

static status_t judge(struct method *m, chunk_t response, eap_payload_t **out)
{
	struct tuv_method_turn turn;

	if (!m->goes_on && !is_name_outside(m, response)) return FAILED;
	turn = !m->goes_on ? try_keys(m, response) :
		tuv_server_method_handle(&m->end, response.ptr, response.len, m->identifier + 1);
	if (is_bad(m, turn)) return FAILED;
	m->goes_on = TRUE;
	tell_failure(m);
	if (turn.sends) return put_packet(m, out);
	return turn.state == TUV_METHOD_DONE && turn.decision == TUV_DECISION_UNCOND_SUCC ? SUCCESS : FAILED;
}

static status_t take_response(struct method *m, eap_payload_t *in, eap_payload_t **out)
{
	if (in->get_identifier(in) == m->identifier) return judge(m, in->get_data(in), out);
	DBG1(DBG_IKE, "%s: another Identifier than the Request's", name_of(m));
	return FAILED;
}

/* ---- what charon calls ---- */

/* A gateway's first Request, which depends on no user. */
METHOD(eap_method_t, initiate, status_t, struct method *m, eap_payload_t **out)
{
	struct tuv_settings told = { .name = octets_of(m->server) };
	status_t status = !m->is_peer && begin(m, &told) ? put_packet(m, out) : FAILED;

	tuv_clear_stack_of(CLEARED);
	return status;
}

METHOD(eap_method_t, process, status_t, struct method *m, eap_payload_t *in, eap_payload_t **out)
{
	status_t status = m->is_peer ? take_request(m, in->get_data(in), out) : take_response(m, in, out);

	tuv_clear_stack_of(CLEARED);
	return status;
}

METHOD(eap_method_t, get_type, eap_type_t, struct method *m, pen_t *vendor)
{
	*vendor = 0;
	return m->kind;
}

METHOD(eap_method_t, is_mutual, bool, struct method *m)
{
	return TRUE;
}

/* charon asks at an EAP Success too that comes before the method's end, and frees what
 * `msk` then is: so it stays as it was where there is none. */
METHOD(eap_method_t, get_msk, status_t, struct method *m, chunk_t *msk)
{
	bool is_there = m->report.size || take_report(m);

	tuv_clear_stack_of(CLEARED);
	if (!is_there) return FAILED;
	*msk = chunk_create(m->report.msk, sizeof(m->report.msk));
	return SUCCESS;
}

METHOD(eap_method_t, get_identifier, uint8_t, struct method *m)
{
	return m->identifier;
}

METHOD(eap_method_t, set_identifier, void, struct method *m, uint8_t identifier)
{
	m->identifier = identifier;
}

METHOD(eap_method_t, destroy, void, struct method *m)
{
	tuv_end_free(&m->end);
	tuv_clear_stack_of(CLEARED);
	chunk_free(&m->answered);
	m->server->destroy(m->server);
	m->peer->destroy(m->peer);
	memwipe(m, sizeof(*m));
	free(m);
}

static struct method *create(uint8_t kind, identification_t *server, identification_t *peer, bool is_peer)
{
	struct method *m;

	INIT(m,
		.public = {
			.initiate = _initiate,
			.process = _process,
			.get_type = _get_type,
			.is_mutual = _is_mutual,
			.get_msk = _get_msk,
			.get_identifier = _get_identifier,
			.set_identifier = _set_identifier,
			.destroy = _destroy,
		},
		.kind = kind,
		.is_peer = is_peer,
		.server = server->clone(server),
		.peer = peer->clone(peer),
	);
	return m;
}

/* The one server that a client accepts is the gateway, or aaa_id if there is one; any by
 * aaa_id = %any alone.  To the library a name without octets is any server too, to charon
 * a name. */
static bool begin_peer(struct method *m)
{
	struct tuv_settings told = { .name = octets_of(m->peer), .other = octets_of(m->server) };
	uint8_t room[TUV_KEY_MAX];
	struct keys keys;
	bool begun;

	if (!told.other.len && m->server->get_type(m->server) != ID_ANY) {
		DBG1(DBG_IKE, "%s: the server's identity has no octets", name_of(m));
		return FALSE;
	}
	if (!look_up(m, &keys)) return FALSE;
	put_key(m, &told, keys.at[0], room);
	begun = begin(m, &told);
	memwipe(room, sizeof(room));
	drop_keys(&keys);
	return begun;
}

/* Without an end charon sends a Nak. */
static eap_method_t *create_peer(uint8_t kind, identification_t *server, identification_t *peer)
{
	struct method *m = create(kind, server, peer, TRUE);
	bool begun = begin_peer(m);

	tuv_clear_stack_of(CLEARED);
	if (begun) return &m->public;
	_destroy(m);
	return NULL;
}

static eap_method_t *psk_peer(identification_t *server, identification_t *peer)
{
	return create_peer(TUV_KIND_PSK, server, peer);
}

static eap_method_t *gpsk_peer(identification_t *server, identification_t *peer)
{
	return create_peer(TUV_KIND_GPSK, server, peer);
}

static eap_method_t *psk_server(identification_t *server, identification_t *peer)
{
	return &create(TUV_KIND_PSK, server, peer, FALSE)->public;
}

static eap_method_t *gpsk_server(identification_t *server, identification_t *peer)
{
	return &create(TUV_KIND_GPSK, server, peer, FALSE)->public;
}

METHOD(plugin_t, get_name, char *, plugin_t *it)
{
	return "eap-tuvaddri";
}

/* (strongSwan has no names of these Types) */
METHOD(plugin_t, get_features, int, plugin_t *it, plugin_feature_t *features[])
{
	static plugin_feature_t all[] = {
		PLUGIN_CALLBACK(eap_method_register, gpsk_server),
			PLUGIN_PROVIDE(EAP_SERVER, (eap_type_t) TUV_KIND_GPSK),
		PLUGIN_CALLBACK(eap_method_register, gpsk_peer),
			PLUGIN_PROVIDE(EAP_PEER, (eap_type_t) TUV_KIND_GPSK),
		PLUGIN_CALLBACK(eap_method_register, psk_server),
			PLUGIN_PROVIDE(EAP_SERVER, (eap_type_t) TUV_KIND_PSK),
		PLUGIN_CALLBACK(eap_method_register, psk_peer),
			PLUGIN_PROVIDE(EAP_PEER, (eap_type_t) TUV_KIND_PSK),
	};

	*features = all;
	return countof(all);
}

METHOD(plugin_t, destroy_plugin, void, plugin_t *it)
{
	free(it);
}

plugin_t *eap_tuvaddri_plugin_create(void);

plugin_t *eap_tuvaddri_plugin_create(void)
{
	plugin_t *it;

	if (!tuv_cpu_supported()) {
		DBG1(DBG_LIB, "eap-tuvaddri: the library isn't for this processor");
		return NULL;
	}
	DBG1(DBG_LIB, "eap-tuvaddri: %s", tuv_ident);
	INIT(it,
		.get_name = _get_name,
		.get_features = _get_features,
		.destroy = _destroy_plugin,
	);
	return it;
}
