/* EAP-PSK or EAP-GPSK of the library as a method of hostapd's server.  METHOD is
 * 47 or 51; the function that registers it has the name of theirs, so this file
 * stands in the place of eap_server_psk.c or eap_server_gpsk.c. */
#include "includes.h"
#include "common.h"
#include "wpabuf.h"
#include "crypto/random.h"
#include "eap_server/eap.h"
#include "eap_server/eap_i.h"
#include "eap_server/eap_methods.h"
#include "tuvaddri.h"

#if METHOD == 47
#define NAME "PSK"
#define REGISTER eap_server_psk_register
#else
#define NAME "GPSK"
#define REGISTER eap_server_gpsk_register
#endif

/* The octets of the stack that are cleared at the end: the calls before it were made
 * deeper, and the linker saves registers below them. */
enum { CLEARED = TUV_STACK_MAX + 8192 };

/* The most Responses with a wrong tag that are discarded in a login over EAPOL. */
enum { BAD_TAGS_MAX = 1 };

struct server {
	struct tuv_end end;
	struct tuv_method_turn turn;
	bool has_asked;
	unsigned int bad_tags;
	/* Of a method that has succeeded; it has both keys, which are asked
	 * for one by one. */
	struct tuv_report report;
	bool has_report;
};

static void drop(struct server *s)
{
	tuv_end_free(&s->end);
	bin_clear_free(s, sizeof(*s));
	tuv_clear_stack_of(CLEARED);
}

/* The method begins, with its first Request; the user has been looked up. */
static bool begin(struct eap_sm *sm, struct server *s, u8 id)
{
	struct tuv_settings told;
	struct tuv_octets key;
	u8 nonce[TUV_NONCE_LEN], answer;

	if (!sm->user || !sm->user->password) {
		wpa_printf(MSG_INFO, "EAP-" NAME ": the user has no key");
		return false;
	}
	os_memset(&told, 0, sizeof(told));
	told.size = sizeof(told);
	told.name.at = sm->cfg->server_id;
	told.name.len = sm->cfg->server_id_len;
	told.other.at = sm->identity;
	told.other.len = sm->identity_len;
	key.at = sm->user->password;
	key.len = sm->user->password_len;
	if (METHOD == TUV_KIND_PSK)
		told.psk_key = key;
	else
		told.gpsk_key = key;
	if (random_get_bytes(nonce, sizeof(nonce)))
		return false;
	answer = tuv_server_method_begin(&s->end, &told, nonce, id);
	if (answer != TUV_OK)
		wpa_printf(MSG_INFO, "EAP-" NAME ": the user's settings are refused: %s",
			   tuv_refusal_word(answer));
	return answer == TUV_OK;
}

/* Settings that the method refuses are refused here, where the machine still goes
 * on to the user's next method.  (That first Request isn't sent.) */
static void *init(struct eap_sm *sm)
{
	struct server *s = os_zalloc(sizeof(*s));

	if (!s || !tuv_end_new(&s->end.at)) {
		wpa_printf(MSG_INFO, "EAP-" NAME ": %s", tuv_cpu_supported() ?
			   "no memory" : "the library isn't for this processor");
		os_free(s);
		return NULL;
	}
	if (!begin(sm, s, 0)) {
		drop(s);
		return NULL;
	}
	return s;
}

static void reset(struct eap_sm *sm, void *priv)
{
	drop(priv);
}

static struct wpabuf *build_request(struct eap_sm *sm, void *priv, u8 id)
{
	struct server *s = priv;
	u8 packet[TUV_PACKET_MAX];

	if (!s->has_asked && !begin(sm, s, id))
		return NULL;
	s->has_asked = true;
	return wpabuf_alloc_copy(packet, tuv_end_packet(&s->end, packet,
							sizeof(packet)));
}

static bool is_done(struct eap_sm *sm, void *priv)
{
	return ((struct server *) priv)->turn.state == TUV_METHOD_DONE;
}

static bool is_success(struct eap_sm *sm, void *priv)
{
	struct server *s = priv;

	return is_done(sm, priv) &&
		s->turn.decision == TUV_DECISION_UNCOND_SUCC;
}

/* A discard is logged. Behind RADIUS an Access-Request waits for an answer, so a
 * wrong key ends the login there, as with their own methods. Over EAPOL the Request
 * is sent again, and the wrong tag that answers it ends the login: one forged packet
 * ends none, and who has a wrong key is told. */
static bool discard(struct eap_sm *sm, struct server *s)
{
	wpa_printf(MSG_INFO, "EAP-" NAME ": discarded: %s",
		   tuv_cause_word(s->turn.cause));
	if (s->turn.cause != TUV_CAUSE_BAD_TAG ||
	    (!sm->cfg->backend_auth && s->bad_tags++ < BAD_TAGS_MAX))
		return true;
	s->turn.state = TUV_METHOD_DONE;
	s->turn.decision = TUV_DECISION_FAIL;
	return false;
}

/* m.check and m.process of RFC 4137 are one call of the library: true where the
 * Response is to be discarded. */
static bool check(struct eap_sm *sm, void *priv, struct wpabuf *response)
{
	struct server *s = priv;
	struct tuv_failure why;

	s->turn = tuv_server_method_handle(&s->end, wpabuf_head(response),
					   wpabuf_len(response),
					   sm->currentId + 1);
	s->has_report = false;
	if (s->turn.misplaced)
		return true;
	if (s->turn.discards)
		return discard(sm, s);
	why = tuv_end_failure(&s->end);
	if (why.reason)
		wpa_printf(MSG_INFO, "EAP-" NAME ": failed: %s, Failure-Code %u",
			   tuv_failure_word(why.reason), why.code);
	return false;
}

static void process(struct eap_sm *sm, void *priv, struct wpabuf *response)
{
}

static bool has_key(struct server *s)
{
	s->report.size = sizeof(s->report);
	if (!s->has_report)
		s->has_report = tuv_end_report(&s->end, &s->report);
	return s->has_report;
}

/* A copy of a key, which the caller gives back. */
static u8 *copy_of(const u8 *key, size_t *len)
{
	*len = 64;
	return os_memdup(key, *len);
}

static u8 *msk_of(struct eap_sm *sm, void *priv, size_t *len)
{
	struct server *s = priv;

	return has_key(s) ? copy_of(s->report.msk, len) : NULL;
}

static u8 *emsk_of(struct eap_sm *sm, void *priv, size_t *len)
{
	struct server *s = priv;

	return has_key(s) ? copy_of(s->report.emsk, len) : NULL;
}

/* The Session-Id as their methods derive it. */
static u8 *session_id_of(struct eap_sm *sm, void *priv, size_t *len)
{
	struct server *s = priv;
	u8 id[TUV_SESSION_ID_MAX];

	*len = tuv_end_session_id_wpa(&s->end, id);
	return *len ? os_memdup(id, *len) : NULL;
}

int REGISTER(void)
{
	struct eap_method *m = eap_server_method_alloc(
		EAP_SERVER_METHOD_INTERFACE_VERSION, EAP_VENDOR_IETF, METHOD,
		NAME);

	if (!m)
		return -1;
	m->init = init;
	m->reset = reset;
	m->buildReq = build_request;
	m->check = check;
	m->process = process;
	m->isDone = is_done;
	m->isSuccess = is_success;
	m->getKey = msk_of;
	m->get_emsk = emsk_of;
	m->getSessionId = session_id_of;
	return eap_server_method_register(m);
}
