/* The stand-alone server's machine of hostapd, as one side of a login. */
#include "includes.h"
#include "common.h"
#include "wpabuf.h"
#include "eap_server/eap.h"
#include "eap_server/eap_i.h"
#include "eap_server/eap_methods.h"
#include "login.h"

int eap_server_identity_register(void);
int eap_server_psk_register(void);
int eap_server_gpsk_register(void);
int our_server_psk_register(void);
int our_server_gpsk_register(void);

static const struct login *current;
static struct eap_config config;
static struct eap_sm *sm;
static struct eap_eapol_interface *eap_if;

static int get_user(void *ctx, const u8 *identity, size_t len, int phase2,
		    struct eap_user *user)
{
	memset(user, 0, sizeof(*user));
	if (len != strlen(current->peer_name) ||
	    memcmp(identity, current->peer_name, len) != 0)
		return -1;
	user->methods[0].vendor = EAP_VENDOR_IETF;
	user->methods[0].method = current->method;
	user->password = os_memdup(current->key, current->key_len);
	user->password_len = current->key_len;
	return 0;
}

static const char *get_request_text(void *ctx, size_t *len)
{
	*len = 0;
	return NULL;
}

static const struct eapol_callbacks callbacks = {
	.get_eap_user = get_user,
	.get_eap_req_id_text = get_request_text,
};

bool register_their_server(int method)
{
	return (method == 47 ? eap_server_psk_register()
			     : eap_server_gpsk_register()) == 0;
}

bool register_our_server(int method)
{
	return (method == 47 ? our_server_psk_register()
			     : our_server_gpsk_register()) == 0;
}

static bool open_server(const struct login *login)
{
	static bool has_identity;
	struct eap_session_data session;

	if (!has_identity && eap_server_identity_register())
		return false;
	has_identity = true;
	current = login;
	memset(&session, 0, sizeof(session));
	memset(&config, 0, sizeof(config));
	config.eap_server = 1;
	config.server_id = (u8 *) login->server_name;
	config.server_id_len = strlen(login->server_name);
	config.max_auth_rounds = 100;
	config.max_auth_rounds_short = 50;
	sm = eap_server_sm_init(NULL, &callbacks, &config, &session);
	if (!sm)
		return false;
	eap_if = eap_get_interface(sm);
	eap_if->portEnabled = true;
	eap_if->eapRestart = true;
	return true;
}

static void close_server(void)
{
	eap_server_sm_deinit(sm);
	sm = NULL;
}

static struct sent sent(void)
{
	struct sent packet = { NULL, 0 };

	if (!eap_if->eapReq && !eap_if->eapSuccess && !eap_if->eapFail)
		return packet;
	eap_if->eapReq = false;
	if (eap_if->eapReqData) {
		packet.at = wpabuf_head(eap_if->eapReqData);
		packet.len = wpabuf_len(eap_if->eapReqData);
	}
	return packet;
}

static struct sent first(void)
{
	eap_server_sm_step(sm);
	return sent();
}

static struct sent take(const unsigned char *octets, size_t len)
{
	wpabuf_free(eap_if->eapRespData);
	eap_if->eapRespData = wpabuf_alloc_copy(octets, len);
	eap_if->eapResp = true;
	eap_server_sm_step(sm);
	return sent();
}

static bool succeeded(void)
{
	return eap_if->eapSuccess;
}

static const unsigned char *msk(void)
{
	return eap_if->eapKeyDataLen == 64 ? eap_if->eapKeyData : NULL;
}

static const unsigned char *emsk(void)
{
	static u8 kept[64];
	size_t len = 0;
	u8 *key = sm->m && sm->m->get_emsk ?
		sm->m->get_emsk(sm, sm->eap_method_priv, &len) : NULL;

	if (!key || len != 64) {
		os_free(key);
		return NULL;
	}
	memcpy(kept, key, 64);
	bin_clear_free(key, 64);
	return kept;
}

const struct side hostapd_server = {
	.open = open_server,
	.close = close_server,
	.first = first,
	.take = take,
	.succeeded = succeeded,
	.msk = msk,
	.emsk = emsk,
};
