/* The peer's machine of wpa_supplicant, as one side of a login. */
#include "includes.h"
#include "common.h"
#include "wpabuf.h"
#include "eap_peer/eap.h"
#include "eap_peer/eap_i.h"
#include "eap_peer/eap_config.h"
#include "eap_peer/eap_methods.h"
#include "login.h"

int eap_peer_psk_register(void);
int eap_peer_gpsk_register(void);
int our_peer_psk_register(void);
int our_peer_gpsk_register(void);

static struct eap_peer_config config;
static struct eap_method_type allowed[2];
static char phase1[16];
static bool flags[16];
static unsigned int idle_while;
static struct wpabuf *request, *response;
static struct eap_sm *sm;

static struct eap_peer_config *get_config(void *ctx)
{
	return &config;
}

static bool get_bool(void *ctx, enum eapol_bool_var name)
{
	return flags[name];
}

static void set_bool(void *ctx, enum eapol_bool_var name, bool value)
{
	flags[name] = value;
}

static unsigned int get_int(void *ctx, enum eapol_int_var name)
{
	return idle_while;
}

static void set_int(void *ctx, enum eapol_int_var name, unsigned int value)
{
	idle_while = value;
}

static struct wpabuf *get_request(void *ctx)
{
	return request;
}

static void set_blob(void *ctx, struct wpa_config_blob *blob)
{
}

static const struct wpa_config_blob *get_blob(void *ctx, const char *name)
{
	return NULL;
}

static void notify(void *ctx)
{
}

static const struct eapol_callbacks callbacks = {
	.get_config = get_config,
	.get_bool = get_bool,
	.set_bool = set_bool,
	.get_int = get_int,
	.set_int = set_int,
	.get_eapReqData = get_request,
	.set_config_blob = set_blob,
	.get_config_blob = get_blob,
	.notify_pending = notify,
};

bool register_their_peer(int method)
{
	return (method == 47 ? eap_peer_psk_register()
			     : eap_peer_gpsk_register()) == 0;
}

bool register_our_peer(int method)
{
	return (method == 47 ? our_peer_psk_register()
			     : our_peer_gpsk_register()) == 0;
}

static bool open_peer(const struct login *login)
{
	struct eap_config whole;

	memset(&whole, 0, sizeof(whole));
	memset(&config, 0, sizeof(config));
	memset(flags, 0, sizeof(flags));
	allowed[0].method = login->method;
	allowed[1].method = EAP_TYPE_NONE;
	config.identity = (u8 *) login->peer_name;
	config.identity_len = strlen(login->peer_name);
	config.password = (u8 *) login->key;
	config.password_len = login->key_len;
	config.eap_methods = allowed;
	if (login->suite) {
		os_snprintf(phase1, sizeof(phase1), "cipher=%d", login->suite);
		config.phase1 = phase1;
	}
	sm = eap_peer_sm_init(NULL, &callbacks, NULL, &whole);
	if (!sm)
		return false;
	flags[EAPOL_portEnabled] = true;
	flags[EAPOL_eapRestart] = true;
	eap_peer_sm_step(sm);
	return true;
}

static void close_peer(void)
{
	eap_peer_sm_deinit(sm);
	sm = NULL;
	wpabuf_free(request);
	wpabuf_free(response);
	request = response = NULL;
}

static struct sent take(const unsigned char *octets, size_t len)
{
	struct sent none = { NULL, 0 };

	wpabuf_free(request);
	request = wpabuf_alloc_copy(octets, len);
	wpabuf_free(response);
	response = NULL;
	flags[EAPOL_eapReq] = true;
	eap_peer_sm_step(sm);
	if (!flags[EAPOL_eapResp])
		return none;
	flags[EAPOL_eapResp] = false;
	response = eap_get_eapRespData(sm);
	if (!response)
		return none;
	return (struct sent) { wpabuf_head(response), wpabuf_len(response) };
}

static bool succeeded(void)
{
	return flags[EAPOL_eapSuccess];
}

static const unsigned char *msk(void)
{
	size_t len = 0;
	const u8 *key = eap_get_eapKeyData(sm, &len);

	return len == 64 ? key : NULL;
}

static const unsigned char *emsk(void)
{
	static u8 kept[64];
	size_t len = 0;
	u8 *key = sm->m && sm->m->get_emsk ?
		sm->m->get_emsk(sm, sm->eap_method_priv, &len) : NULL;

	if (!key || len != 64) {
		os_free(key);
		return NULL;
	}
	memcpy(kept, key, 64);
	bin_clear_free(key, 64);
	return kept;
}

const struct side supplicant_peer = {
	.open = open_peer,
	.close = close_peer,
	.take = take,
	.succeeded = succeeded,
	.msk = msk,
	.emsk = emsk,
};
