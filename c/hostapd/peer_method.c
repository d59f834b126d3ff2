/* EAP-PSK or EAP-GPSK of the library as a method of wpa_supplicant's peer.
 * METHOD is 47 or 51; the function that registers it has the name of theirs, so
 * this file stands in the place of eap_psk.c or eap_gpsk.c. */
#include "includes.h"
#include "common.h"
#include "wpabuf.h"
#include "crypto/random.h"
#include "eap_peer/eap.h"
#include "eap_peer/eap_i.h"
#include "eap_peer/eap_config.h"
#include "eap_peer/eap_methods.h"
#include "tuvaddri.h"

#if METHOD == 47
#define NAME "PSK"
#define REGISTER eap_peer_psk_register
#else
#define NAME "GPSK"
#define REGISTER eap_peer_gpsk_register
#endif

/* The octets of the stack that are cleared at the end: the calls before it were made
 * deeper, and the linker saves registers below them. */
enum { CLEARED = TUV_STACK_MAX + 8192 };

struct peer {
	struct tuv_end end;
	/* Of a method that has succeeded; it has both keys, which are asked
	 * for one by one. */
	struct tuv_report report;
	bool has_report;
};

static void drop(struct peer *p)
{
	tuv_end_free(&p->end);
	bin_clear_free(p, sizeof(*p));
	tuv_clear_stack_of(CLEARED);
}

/* A network's phase1="cipher=1" or 2 allows that suite alone; 0, or no word of
 * it, both. */
static bool take_suite(struct eap_sm *sm, struct tuv_settings *told)
{
	const char *phase1 = eap_get_config_phase1(sm);
	const char *cipher = phase1 ? os_strstr(phase1, "cipher=") : NULL;
	unsigned long suite = cipher ? strtoul(cipher + 7, NULL, 10) : 0;

	told->suites[0] = suite;
	return suite <= TUV_SUITE_HMAC;
}

/* The settings of this network; false where it has no identity or no key. A
 * supplicant names no server, so any is accepted. */
static bool settings_of(struct eap_sm *sm, struct tuv_settings *told)
{
	struct tuv_octets key;

	os_memset(told, 0, sizeof(*told));
	told->size = sizeof(*told);
	told->methods[0] = METHOD;
	told->name.at = eap_get_config_identity(sm, &told->name.len);
	key.at = eap_get_config_password(sm, &key.len);
	if (METHOD == TUV_KIND_PSK)
		told->psk_key = key;
	else
		told->gpsk_key = key;
	return told->name.at && key.at &&
		(METHOD == TUV_KIND_PSK || take_suite(sm, told));
}

static void *init(struct eap_sm *sm)
{
	struct tuv_settings told;
	struct peer *p = os_zalloc(sizeof(*p));
	u8 nonce[TUV_NONCE_LEN], answer;

	if (!settings_of(sm, &told)) {
		wpa_printf(MSG_INFO, "EAP-" NAME ": no identity, no key, or no such cipher");
		os_free(p);
		return NULL;
	}
	if (!p || random_get_bytes(nonce, sizeof(nonce)) || !tuv_end_new(&p->end.at)) {
		wpa_printf(MSG_INFO, "EAP-" NAME ": %s", tuv_cpu_supported() ?
			   "no memory, or no random octets" :
			   "the library isn't for this processor");
		os_free(p);
		return NULL;
	}
	answer = tuv_peer_method_begin(&p->end, &told, nonce);
	if (answer != TUV_OK) {
		wpa_printf(MSG_INFO, "EAP-" NAME ": the settings are refused: %s",
			   tuv_refusal_word(answer));
		drop(p);
		return NULL;
	}
	return p;
}

static void deinit(struct eap_sm *sm, void *priv)
{
	drop(priv);
}

/* (As theirs: EAP-PSK allows a Notification in its middle, EAP-GPSK doesn't.) */
static struct wpabuf *process(struct eap_sm *sm, void *priv,
			      struct eap_method_ret *ret,
			      const struct wpabuf *request)
{
	struct peer *p = priv;
	struct tuv_method_turn turn;
	struct tuv_failure why;
	u8 packet[TUV_PACKET_MAX];

	turn = tuv_peer_method_handle(&p->end, wpabuf_head(request),
				      wpabuf_len(request));
	p->has_report = false;
	ret->ignore = turn.discards || turn.misplaced;
	if (ret->ignore) {
		wpa_printf(MSG_INFO, "EAP-" NAME ": discarded: %s",
			   tuv_cause_word(turn.cause));
		return NULL;
	}
	why = tuv_end_failure(&p->end);
	if (why.reason)
		wpa_printf(MSG_INFO, "EAP-" NAME ": failed: %s, Failure-Code %u",
			   tuv_failure_word(why.reason), why.code);
	ret->methodState = turn.state;
	ret->decision = turn.decision;
	ret->allowNotifications = METHOD == TUV_KIND_PSK &&
		turn.state != TUV_METHOD_DONE;
	return wpabuf_alloc_copy(packet, tuv_end_packet(&p->end, packet,
							sizeof(packet)));
}

static bool has_key(struct eap_sm *sm, void *priv)
{
	struct peer *p = priv;

	p->report.size = sizeof(p->report);
	if (!p->has_report)
		p->has_report = tuv_end_report(&p->end, &p->report);
	return p->has_report;
}

/* A copy of a key, which the caller gives back. */
static u8 *copy_of(const u8 *key, size_t *len)
{
	*len = 64;
	return os_memdup(key, *len);
}

static u8 *msk_of(struct eap_sm *sm, void *priv, size_t *len)
{
	struct peer *p = priv;

	return has_key(sm, p) ? copy_of(p->report.msk, len) : NULL;
}

static u8 *emsk_of(struct eap_sm *sm, void *priv, size_t *len)
{
	struct peer *p = priv;

	return has_key(sm, p) ? copy_of(p->report.emsk, len) : NULL;
}

/* The Session-Id as their methods derive it. */
static u8 *session_id_of(struct eap_sm *sm, void *priv, size_t *len)
{
	struct peer *p = priv;
	u8 id[TUV_SESSION_ID_MAX];

	*len = tuv_end_session_id_wpa(&p->end, id);
	return *len ? os_memdup(id, *len) : NULL;
}

int REGISTER(void)
{
	struct eap_method *m = eap_peer_method_alloc(
		EAP_PEER_METHOD_INTERFACE_VERSION, EAP_VENDOR_IETF, METHOD,
		NAME);

	if (!m)
		return -1;
	m->init = init;
	m->deinit = deinit;
	m->process = process;
	m->isKeyAvailable = has_key;
	m->getKey = msk_of;
	m->get_emsk = emsk_of;
	m->getSessionId = session_id_of;
	return eap_peer_method_register(m);
}
