/* What EAP-GPSK and EAP-PSK want of the whole server, as a module of FreeRADIUS 3.2:
 * their attributes, before a store is read that names them; answers for more logins
 * than the stock configuration keeps; no key in what -X prints; and, in
 * Post-Auth-Type REJECT, a line for each reject of which the methods' modules say
 * nothing. The file tuvaddri-server has its words. */
#include <freeradius-devel/radiusd.h>
#include <freeradius-devel/modules.h>
#include "eap_types.h"
#include "lines.h"

#define ALTERED "User-Name isn't the identity: a proxy before this server has altered it (nostrip)"

struct settings {
	char const	*dictionary;
	uint32_t	max_requests;
};

static CONF_PARSER const words[] = {
	{ "dictionary", FR_CONF_OFFSET(PW_TYPE_STRING | PW_TYPE_NOT_EMPTY, struct settings, dictionary), "dictionary.tuvaddri" },
	{ "max_requests", FR_CONF_OFFSET(PW_TYPE_INTEGER, struct settings, max_requests), "65536" },
	CONF_PARSER_TERMINATOR
};

/* (what radiusd.conf says of secrets and answers is read by now, and no store is) */
static int bootstrap(CONF_SECTION *cs, void *instance)
{
	struct settings const *it = instance;

	if (dict_read(get_radius_dir(), it->dictionary) < 0) {
		cf_log_err_cs(cs, "%s: %s", it->dictionary, fr_strerror());
		return -1;
	}
	main_config.suppress_secrets = true;
	if (main_config.max_requests < it->max_requests) main_config.max_requests = it->max_requests;
	return 0;
}

/* What FreeRADIUS refuses without a word: an identity that isn't the User-Name. */
static bool is_altered(REQUEST *request, VALUE_PAIR const *eap)
{
	VALUE_PAIR const *user = fr_pair_find_by_num(request->packet->vps, PW_USER_NAME, 0, TAG_ANY);

	if (!user || eap->vp_length < 5 || eap->vp_octets[0] != PW_EAP_RESPONSE || eap->vp_octets[4] != PW_EAP_IDENTITY)
		return false;
	return eap->vp_length - 5 != user->vp_length || memcmp(eap->vp_octets + 5, user->vp_octets, user->vp_length) != 0;
}

/* A reject of the site, before the method or behind it, in the words of the module
 * that rejects. */
static rlm_rcode_t CC_HINT(nonnull) post_auth(UNUSED void *instance, REQUEST *request)
{
	DICT_ATTR const *reason = dict_attrbyname("Tuvaddri-Reason");
	VALUE_PAIR const *told = reason ? fr_pair_find_by_da(request->state, reason, TAG_ANY) : NULL;
	VALUE_PAIR const *eap = fr_pair_find_by_num(request->packet->vps, PW_EAP_MESSAGE, 0, TAG_ANY);
	bool is_proved = told && strcmp(told->vp_strvalue, "proved") == 0;
	char const *user, *place, *text;

	if (request->reply->code != PW_CODE_ACCESS_REJECT || (told && !is_proved)) return RLM_MODULE_NOOP;
	user = quoted_of(request, request, PW_USER_NAME);
	place = place_of(request, request);
	text = failure_of(request, request);
	if (!user || !place) return RLM_MODULE_FAIL;
	if (!text) text = eap && is_altered(request, eap) ? ALTERED : "a rule of the site";
	/* (by MAC address or password, where a site has that beside EAP) */
	radlog(L_AUTH, "%s rejected user=%s %s reason=%s: %s", eap ? "EAP" : "Not EAP:", user, place,
	       is_proved ? "post-auth" : "site", text);
	put_outcome(request, "Tuvaddri-Reason", is_proved ? "post-auth" : "site");
	return RLM_MODULE_OK;
}

extern module_t rlm_tuvaddri;
module_t rlm_tuvaddri = {
	.magic		= RLM_MODULE_INIT,
	.name		= "tuvaddri",
	.type		= RLM_TYPE_THREAD_SAFE,
	.inst_size	= sizeof(struct settings),
	.config		= words,
	.bootstrap	= bootstrap,
	.methods	= { [MOD_POST_AUTH] = post_auth }
};
