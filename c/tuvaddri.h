/* EAP login by shared keys: the proved ends of Tuvaddri for programs in C.
 *
 * Link libtuvaddri.a (README.md beside this file).  Nothing is checked at the
 * border, so these must hold at every call:
 *
 * - A pointer is not null, also where its length is 0, and is valid for its
 *   length.  What a call writes overlaps nothing else that is handed to it.
 * - A struct tuv_end was filled in by tuv_end_new, its block has not been given
 *   back, and one call at a time uses it.  Ends share nothing: two of them may
 *   be used by two threads.
 * - Octets that are handed in are copied; none is kept by its address.
 *
 * A call that has no place at an end says so (`misplaced`) and changes nothing:
 * that is safe at any time, also on a handle that is closed. */
#ifndef TUVADDRI_H
#define TUVADDRI_H
#include <stdbool.h>
#include <stddef.h>
#include <stdint.h>

#ifdef __cplusplus
extern "C" {
#endif

/* The number of this interface; tuv_version tells that of the library.  README.md
 * beside this file says what may change between versions. */
#define TUV_VERSION 2
uint32_t tuv_version(void);

enum { TUV_KIND_PSK = 47, TUV_KIND_GPSK = 51 };
enum { TUV_SUITE_CMAC = 1, TUV_SUITE_HMAC = 2 };

/* The most octets of a packet, of a name, of a key, of a nonce in a report, of a
 * Session-Id and of an EAPOL frame behind the header of Ethernet. */
enum { TUV_PACKET_MAX = 1500, TUV_NAME_MAX = 253, TUV_KEY_MAX = 64,
       TUV_RAND_MAX = 32, TUV_SESSION_ID_MAX = 33, TUV_FRAME_MAX = 1504 };

/* The octets of a nonce.  Each begin and each restart wants 32 fresh ones, from
 * getrandom(2) or its like, that were never used before, by this end or another,
 * and are never used again; EAP-PSK takes the first 16. */
enum { TUV_NONCE_LEN = 32 };

/* No call goes deeper into the stack, but those that clear it. */
#define TUV_STACK_MAX 13312

/* Octets that belong to the caller. */
struct tuv_octets {
	const uint8_t *at;
	size_t len;
};

/* No octets: in place of a name any name, in place of a key none. */
#ifdef __cplusplus
#define TUV_ANY (tuv_octets { reinterpret_cast<const uint8_t *>(""), 0 })
#else
#define TUV_ANY ((struct tuv_octets) { (const uint8_t *) "", 0 })
#endif

/* What an end is told.  `size` is sizeof(struct tuv_settings), and nothing behind
 * that many octets is read: a program whose struct is an older one goes on working.
 * A field that is 0, or has no octets, has the default that is written beside it
 * (no octets may be a null pointer). */
struct tuv_settings {
	size_t size;
	struct tuv_octets name;		/* its own name: 1 to 253 octets */
	/* At a peer the one server that it accepts, of at most 253 octets; any if
	 * there are none.  At a server its one user; if there are none it knows
	 * none, until tuv_server_set_user or tuv_server_method_user. */
	struct tuv_octets other;
	/* The keys that this end shares with `other`: 16 octets for EAP-PSK, 32 to
	 * 64 for EAP-GPSK.  None: no login by that method. */
	struct tuv_octets psk_key, gpsk_key;
	/* The methods, TUV_KIND_.., each at most once: a peer's that it allows, in
	 * the order of its Nak; a server's in the order in which it proposes them.
	 * Both 0: those for which there is a key, EAP-GPSK first; at a server
	 * without a user both. */
	uint8_t methods[2];
	/* The suites of EAP-GPSK, TUV_SUITE_.., each at most once: a peer's that it
	 * allows, a server's in the order of its list.  Both 0: 1, then 2. */
	uint8_t suites[2];
	/* 1: it reads Expanded Types (RFC 3748 section 5.7), and a server asks in
	 * them; not a method alone. */
	uint8_t expanded;
	/* 1: a server's user is barred: he is known by his key and refused (RFC
	 * 5433's Authorization Failure; R = 3 of RFC 4764). */
	uint8_t barred;
};

/* What a begin answers.  It makes the end anew, whatever it was before, also in
 * the middle of a login; after any other answer than TUV_OK the end stays as
 * it was.  If several reasons apply, the lowest number is the answer. */
enum {
	TUV_OK = 0,
	TUV_BAD_SIZE = 1,	/* `size` is below that of the first struct (80; 44 where
				 * a pointer has 4 octets), or over 4,096; or behind the
				 * struct that the library knows an octet isn't 0 */
	TUV_NO_METHOD = 2,	/* `methods` has another number, one twice, or a 0
				 * before one; or a peer has neither key nor method */
	TUV_NO_SUITE = 3,	/* `suites` has another number, one twice, or a 0
				 * before one */
	TUV_BAD_NAME = 4,	/* `name` has no octet, or over 253 */
	TUV_BAD_OTHER = 5,	/* `other` has over 253 octets */
	TUV_BAD_KEY = 6,	/* a key has another size than its method takes; a
				 * peer has none for one of its `methods`; a user has
				 * none at all, or a server has one without a user */
	TUV_MANY_RETRIES = 7,	/* `max_retrans` is over 10 */
	TUV_NO_MEMORY = 8,
	TUV_WRONG_END = 9	/* a user is given to an end that has none */
};

/* The states of the machines (RFC 4137).  Between two calls an end stands in
 * one of those marked *. */
enum {
	TUV_STATE_INITIALIZE = 0,	/* * of a server or a pass-through */
	TUV_STATE_IDLE = 1,		/* * */
	TUV_STATE_RECEIVED = 2,
	TUV_STATE_GET_METHOD = 3,
	TUV_STATE_METHOD = 4,
	TUV_STATE_IDENTITY = 5,
	TUV_STATE_NOTIFICATION = 6,
	TUV_STATE_RETRANSMIT = 7,
	TUV_STATE_SEND_RESPONSE = 8,
	TUV_STATE_DISCARD = 9,
	TUV_STATE_SUCCESS = 10,		/* * */
	TUV_STATE_FAILURE = 11,		/* * */
	TUV_STATE_SELECT_ACTION = 12,
	TUV_STATE_PROPOSE_METHOD = 13,
	TUV_STATE_METHOD_REQUEST = 14,
	TUV_STATE_SEND_REQUEST = 15,
	TUV_STATE_NAK = 16,
	TUV_STATE_INTEGRITY_CHECK = 17,
	TUV_STATE_METHOD_RESPONSE = 18,
	TUV_STATE_TIMEOUT_FAILURE = 19,	/* * of a server or a pass-through */
	TUV_STATE_PICK_UP_METHOD = 20,
	TUV_STATE_INITIALIZE_PASSTHROUGH = 21,
	TUV_STATE_AAA_REQUEST = 22,
	TUV_STATE_AAA_IDLE = 23,	/* * of a pass-through, as all that follow */
	TUV_STATE_AAA_RESPONSE = 24,
	TUV_STATE_SEND_REQUEST2 = 25,
	TUV_STATE_IDLE2 = 26,		/* * */
	TUV_STATE_RECEIVED2 = 27,
	TUV_STATE_RETRANSMIT2 = 28,
	TUV_STATE_DISCARD2 = 29,
	TUV_STATE_SUCCESS2 = 30,	/* * */
	TUV_STATE_FAILURE2 = 31,	/* * */
	TUV_STATE_TIMEOUT_FAILURE2 = 32	/* * */
};

/* Why a packet is discarded. */
enum {
	TUV_CAUSE_SHORT = 0,		/* fewer than four octets */
	TUV_CAUSE_BAD_CODE = 1,		/* Code is not 1 to 4 */
	TUV_CAUSE_BAD_LENGTH = 2,	/* Length doesn't fit the Code */
	TUV_CAUSE_TRUNCATED = 3,	/* Length is over the octets that came */
	TUV_CAUSE_TOO_LONG = 4,		/* Length is over 1,500 */
	TUV_CAUSE_NAK_REQUEST = 5,	/* a Request of Type 3 */
	TUV_CAUSE_BAD_NAK = 6,		/* a Response of Type 3 with no Type-Data */
	TUV_CAUSE_WRONG_ROLE = 7,	/* the Code is one that this end doesn't take */
	TUV_CAUSE_BAD_EXPANDED = 8,	/* a Type 254 that this end does not take */
	TUV_CAUSE_NOT_ALLOWED = 9,	/* a Notification while a method is selected */
	TUV_CAUSE_METHOD_DONE = 10,	/* a Request of the method after its end */
	TUV_CAUSE_OTHER_METHOD = 11,	/* a Request of another method */
	TUV_CAUSE_ID_MISMATCH = 12,	/* the Identifier is not the awaited one */
	TUV_CAUSE_EARLY_SUCCESS = 13,	/* a Success before the server is known */
	TUV_CAUSE_LATE_FAILURE = 14,	/* a Failure after the method has succeeded */
	TUV_CAUSE_EARLY_FAILURE = 15,	/* a Failure while the method goes on */
	TUV_CAUSE_WRONG_METHOD = 16,	/* a Response of another Type than was asked */
	TUV_CAUSE_NOT_WAITING = 17,	/* nothing is awaited from this side */
	TUV_CAUSE_ENDED = 18,		/* the end has ended (of a Request to a peer: the
					 * server asks anew, tuv_peer_restart) */
	TUV_CAUSE_GPSK_SHAPE = 19,	/* no EAP-GPSK message */
	TUV_CAUSE_LIST_TOO_LONG = 20,	/* an EAP-GPSK list of more than 20 suites */
	TUV_CAUSE_PSK_SHAPE = 21,	/* no EAP-PSK message */
	TUV_CAUSE_WRONG_OP = 22,	/* a message that the method doesn't await */
	TUV_CAUSE_UNKNOWN_SERVER = 23,	/* the peer doesn't accept the server's name */
	TUV_CAUSE_NO_SUITE = 24,	/* no suite of the list is allowed */
	TUV_CAUSE_FIELD_MISMATCH = 25,	/* a field differs from the one sent before */
	TUV_CAUSE_SUITE_NOT_OFFERED = 26, /* the selected suite was not offered */
	TUV_CAUSE_BAD_NONCE = 27,	/* the nonce of PCHANNEL is not the awaited one */
	TUV_CAUSE_BAD_TAG = 28,		/* a MAC or a tag is wrong */
	TUV_CAUSE_BAD_RESULT = 29,	/* R is 0 */
	TUV_CAUSE_EXTENDED = 30,	/* the extended channel of EAP-PSK, or R = 1 */
	/* of a supplicant and of a port alone: */
	TUV_CAUSE_FRAME_SHORT = 64,	/* fewer than four octets of a frame */
	TUV_CAUSE_FRAME_TRUNCATED = 65,	/* its body's length is over what came */
	TUV_CAUSE_FRAME_TYPE = 66,	/* a packet type that this end doesn't take */
	TUV_CAUSE_FRAME_STATE = 67,	/* in this state nothing of its kind is taken */
	TUV_CAUSE_NOT_REQUEST = 68	/* no Request begins the login, or is in a Challenge */
};

/* portControl of a supplicant, AuthControlledPortControl of a port, by the numbers of
 * IEEE8021-PAE-MIB. */
enum { TUV_CONTROL_FORCE_UNAUTHORIZED = 1, TUV_CONTROL_AUTO = 2,
       TUV_CONTROL_FORCE_AUTHORIZED = 3 };

/* The states of the Supplicant PAE (IEEE 802.1X-2004 clause 8.2.11) in which it stands
 * between two calls, by the numbers of dot1xSuppPaeState. */
enum {
	TUV_SUPPLICANT_DISCONNECTED = 1,	/* there is no link */
	TUV_SUPPLICANT_LOGOFF = 2,
	TUV_SUPPLICANT_CONNECTING = 3,
	TUV_SUPPLICANT_AUTHENTICATING = 4,
	TUV_SUPPLICANT_AUTHENTICATED = 5,
	TUV_SUPPLICANT_HELD = 7,
	TUV_SUPPLICANT_S_FORCE_AUTH = 9,
	TUV_SUPPLICANT_S_FORCE_UNAUTH = 10
};

/* The same of the Authenticator PAE (clause 8.2.4), by those of dot1xAuthPaeState. */
enum {
	TUV_PORT_INITIALIZE = 1,	/* there is no link */
	TUV_PORT_AUTHENTICATING = 4,
	TUV_PORT_AUTHENTICATED = 5,
	TUV_PORT_HELD = 7,
	TUV_PORT_FORCE_AUTH = 8,
	TUV_PORT_FORCE_UNAUTH = 9
};

/* The Codes of a server's answer (RFC 2865 section 3). */
enum { TUV_ACCESS_ACCEPT = 2, TUV_ACCESS_REJECT = 3, TUV_ACCESS_CHALLENGE = 11 };

/* methodState and decision of a method alone (RFC 4137 section 4.2). */
enum { TUV_METHOD_NONE = 0, TUV_METHOD_INIT = 1, TUV_METHOD_CONT = 2,
       TUV_METHOD_MAY_CONT = 3, TUV_METHOD_DONE = 4 };
enum { TUV_DECISION_FAIL = 0, TUV_DECISION_COND_SUCC = 1,
       TUV_DECISION_UNCOND_SUCC = 2 };

/* An end, which belongs to the caller.  When it is done with, tuv_end_free. */
struct tuv_end {
	void *at;
};

/* What a call came to. */
struct tuv_turn {
	bool sends;		/* a packet is to be sent: tuv_end_packet */
	bool discards;		/* what came is discarded, for `cause` */
	bool misplaced;		/* the call has no place here, nothing is changed */
	uint8_t cause;		/* TUV_CAUSE_.. of a discard, else 0 */
	uint8_t state;		/* TUV_STATE_.. after it */
};

/* What a call of a method alone came to. */
struct tuv_method_turn {
	bool sends, discards, misplaced;
	uint8_t cause;
	uint8_t state;		/* TUV_METHOD_.. */
	uint8_t decision;	/* TUV_DECISION_.. */
};

/* What a call of a supplicant came to. */
struct tuv_supplicant_turn {
	bool sends;		/* a frame goes to the authenticator: tuv_end_packet */
	bool discards;		/* what came is discarded, for `cause` */
	bool misplaced;		/* it has no place at this end, and changes nothing */
	bool took_nonce;	/* a login began with the nonce: the next call needs another */
	bool authorized;	/* suppPortStatus: the port is open */
	uint8_t cause;		/* TUV_CAUSE_.. of a discard, else 0 */
	uint8_t state;		/* TUV_SUPPLICANT_.. after it; 0 if misplaced */
};

/* What a call of a port came to.  At most one of the first two is true, and what is to
 * be sent is there by tuv_end_packet. */
struct tuv_port_turn {
	bool to_station;	/* a frame goes to the station */
	bool to_server;		/* an EAP packet goes to the server, in an Access-Request */
	bool discards;		/* what came is discarded, for `cause` */
	bool misplaced;		/* it has no place at this end, and changes nothing */
	bool authorized;	/* authPortStatus: the port is open */
	bool awaits_server;	/* if false, an outstanding Access-Request is given up */
	uint8_t cause;		/* TUV_CAUSE_.. of a discard, else 0 */
	uint8_t state;		/* TUV_PORT_.. after it; 0 if misplaced */
};

/* The timers of a supplicant, in seconds, and its count (IEEE 802.1X-2004 clauses
 * 8.2.11.1 and 8.2.12.1); 0 ends with the first second. */
struct tuv_supplicant_limits {
	uint32_t start_period;	/* startPeriod: between two EAPOL-Starts */
	uint32_t max_start;	/* maxStart: the EAPOL-Starts that go unanswered */
	uint32_t auth_period;	/* authPeriod: without a packet amid a login */
	uint32_t held_period;	/* heldPeriod: after a failure */
	/* portValid if no authenticator answers: any number but 0 opens the port without
	 * a login, as the standard has it. */
	uint8_t port_valid;
};

/* The times of a port, in seconds, and its bound (clauses 8.2.4.1, 8.2.8.1 and
 * 8.2.9.1). */
struct tuv_port_limits {
	uint32_t quiet_period;	/* quietPeriod: in HELD */
	uint32_t server_timeout; /* serverTimeout: for an answer of the server */
	uint32_t retrans_period; /* after which a Request is sent again */
	uint32_t re_auth_period; /* reAuthPeriod; 0 is reAuthEnabled false */
	uint8_t re_auth_max;	/* reAuthMax: the rounds that don't shut the port */
};

/* The standard's defaults: { 30, 3, 30, 60, 0 } and { 60, 30, 3, 3600, 2 }. */
#ifdef __cplusplus
#define TUV_SUPPLICANT_LIMITS (tuv_supplicant_limits { 30, 3, 30, 60, 0 })
#define TUV_PORT_LIMITS (tuv_port_limits { 60, 30, 3, 3600, 2 })
#else
#define TUV_SUPPLICANT_LIMITS ((struct tuv_supplicant_limits) { 30, 3, 30, 60, 0 })
#define TUV_PORT_LIMITS ((struct tuv_port_limits) { 60, 30, 3, 3600, 2 })
#endif

/* What an end holds after a method that succeeded.  `size` is sizeof(struct
 * tuv_report), and no more is written: what a larger struct has behind the one that
 * the library knows becomes 0.  0 is the size of the first struct (712; 708 where a
 * pointer has 32 bits).  Clear it after use. */
struct tuv_report {
	size_t size;
	uint8_t method;		/* TUV_KIND_.. */
	uint8_t suite;		/* 1 or 2; 0 for EAP-PSK */
	uint8_t peer_length, server_length;
	uint8_t peer[TUV_NAME_MAX], server[TUV_NAME_MAX];
	uint8_t msk[64], emsk[64];
	/* RAND_P and RAND_S of EAP-PSK, 16 octets; RAND_Peer and RAND_Server of
	 * EAP-GPSK, 32. */
	uint8_t rand_length;
	uint8_t peer_rand[TUV_RAND_MAX], server_rand[TUV_RAND_MAX];
};

/* Why a login has failed, as far as this end can know. */
enum {
	TUV_FAILURE_NONE = 0,		/* it has not failed */
	TUV_FAILURE_UNKNOWN_USER = 1,	/* a server has no such user for the method */
	TUV_FAILURE_BARRED_USER = 2,	/* a server's user is barred, or (EAP-PSK) the
					 * peer has answered that it fails */
	TUV_FAILURE_REFUSED = 3,	/* a peer was refused within the method */
	TUV_FAILURE_NO_METHOD = 4,	/* no method in common, or none begun */
	TUV_FAILURE_TIMEOUT = 5,	/* a Request was never answered */
	TUV_FAILURE_ENDED = 6		/* a Failure came, or the lower layer's word */
};

struct tuv_failure {
	uint8_t reason;		/* TUV_FAILURE_.. */
	/* The Failure-Code (RFC 5433 section 9.3) that EAP-GPSK sent, at a server,
	 * or that came, at a peer: 1 PSK Not Found, 2 Authentication Failure, 3
	 * Authorization Failure.  0 if there is none, or another. */
	uint8_t code;
};

/* --- every end --- */

/* Makes a closed end, by one allocation: tuv_end_new(&end.at).  False for want
 * of memory, and where tuv_cpu_supported is false (heap.c then gives none);
 * `at` then stays. */
bool tuv_end_new(void **at);

/* The octets of the block behind a handle. */
size_t tuv_end_size(void);

/* Closes an end: it has no packet and no report, and takes no call but a begin.
 * A handle that is closed stays so.  Octets of keys still stand in its block. */
void tuv_end_close(struct tuv_end *end);

/* Ends a handle: closes it, clears its block and gives it back, makes `at` null,
 * and clears the stack (tuv_clear_stack).  Of a handle whose `at` is null it clears
 * the stack alone, so a second time does no harm. */
void tuv_end_free(struct tuv_end *end);

/* The length of the packet of the end's last turn (or of tuv_server_method_begin),
 * 0 if that turn didn't say `sends`: after a discard, a misplaced call, a begin.
 * The packet is copied to `room` if it fits, as it always does into TUV_PACKET_MAX
 * octets, or a supplicant's or a port's frame into TUV_FRAME_MAX.  If it doesn't,
 * nothing is copied, and it can be asked for again. */
size_t tuv_end_packet(struct tuv_end *end, uint8_t *room, size_t room_len);

/* The same of the packet that the end has sent last, whatever came since; 0 if
 * there was none since its begin or restart.  A program that has to answer after a
 * discard too (RFC 3579 section 2.2) sends it again. */
size_t tuv_end_last_packet(struct tuv_end *end, uint8_t *room, size_t room_len);

/* Writes the report of a method that has succeeded, and answers true; false, with
 * nothing written, before that, at any other end, and if `size` is below that of
 * the first struct (but not 0) or over 4,096.  A
 * peer has it before the Success comes: the login has succeeded if the state is
 * SUCCESS too.  Behind a name and behind 16 octets of a nonce the octets stay that
 * were there. */
bool tuv_end_report(struct tuv_end *end, struct tuv_report *report);

/* The same of a peer, a peer's method or a supplicant alone, and of any other end
 * alone. */
bool tuv_peer_report(struct tuv_end *end, struct tuv_report *report);
bool tuv_server_report(struct tuv_end *end, struct tuv_report *report);

/* The Session-Id (RFC 5247) of a method that has succeeded, and its length; 0,
 * with nothing written, before that and at any other end.  EAP-PSK's is 2f,
 * RAND_P, RAND_S: 33 octets.  EAP-GPSK's is 33 and the 16 octets of Method-ID of
 * RFC 5433 section 4: 17 octets. */
size_t tuv_end_session_id(struct tuv_end *end, uint8_t room[TUV_SESSION_ID_MAX]);

/* The same as wpa_supplicant and hostapd 2.10 derive it, which take for EAP-GPSK's
 * Method-ID the front of the PSK for its key, not octets of zero.  A server takes
 * the key that its user of this name has now: if tuv_server_set_user has replaced him
 * since the login it is another Session-Id, or none.  Ask before that. */
size_t tuv_end_session_id_wpa(struct tuv_end *end,
			      uint8_t room[TUV_SESSION_ID_MAX]);

/* Why the login has failed. */
struct tuv_failure tuv_end_failure(struct tuv_end *end);

/* Delivers a received packet to a peer, to a stand-alone server that has started,
 * or to a backend. */
struct tuv_turn tuv_end_deliver(struct tuv_end *end, const uint8_t *octets,
				size_t len);

/* As tuv_end_deliver, for a peer alone, and for a stand-alone server or a backend
 * alone; at any other end they are misplaced.  A program that calls of tuv_.._deliver,
 * tuv_.._restart and tuv_.._report those of one role, and is linked by
 * -Wl,--gc-sections, has no code of the other. */
struct tuv_turn tuv_peer_deliver(struct tuv_end *end, const uint8_t *octets,
				 size_t len);
struct tuv_turn tuv_server_deliver(struct tuv_end *end, const uint8_t *octets,
				   size_t len);

/* A new conversation begins, with the settings that the end has and this nonce,
 * which is fresh as at a begin: of a peer, a stand-alone server or a backend,
 * wherever it stands, also in the middle of a login, after its end, and before a
 * server's start.  Of what the end held (its report too) the settings alone are
 * kept.  Of a stand-alone server the Identity Request, of the same first
 * Identifier, is to be sent, as after tuv_server_start; a peer and a backend send
 * nothing.  It takes no memory.
 *
 * The nonce is what keeps conversations apart: two ends that both succeed, all of
 * whose nonces were fresh, hold each other's.  With one that was used before,
 * packets of an old conversation may be taken for the new login. */
struct tuv_turn tuv_end_restart(struct tuv_end *end,
				const uint8_t nonce[TUV_NONCE_LEN]);

/* As tuv_end_restart, for a peer alone, and for a stand-alone server or a backend
 * alone. */
struct tuv_turn tuv_peer_restart(struct tuv_end *end,
				 const uint8_t nonce[TUV_NONCE_LEN]);
struct tuv_turn tuv_server_restart(struct tuv_end *end,
				   const uint8_t nonce[TUV_NONCE_LEN]);

/* --- the peer (RFC 4137 section 4) --- */

uint8_t tuv_peer_begin(struct tuv_end *end, const struct tuv_settings *settings,
		       const uint8_t nonce[TUV_NONCE_LEN]);

/* The lower layer is idle, reports success, or reports failure: to a peer that
 * has not ended. */
struct tuv_turn tuv_peer_idle(struct tuv_end *end);
struct tuv_turn tuv_peer_alt_accept(struct tuv_end *end);
struct tuv_turn tuv_peer_alt_reject(struct tuv_end *end);

/* --- the stand-alone server (section 5) and the backend (section 6) --- */

/* `first_id` is the Identifier of the first Request; a Request is sent again at
 * most `max_retrans` times, 0 to 10. */
uint8_t tuv_server_begin(struct tuv_end *end,
			 const struct tuv_settings *settings,
			 const uint8_t nonce[TUV_NONCE_LEN], uint8_t first_id,
			 uint8_t max_retrans);

/* The first Request is made: of a server that has not started. */
struct tuv_turn tuv_server_start(struct tuv_end *end);

/* The retransmission timer ends: of a server that has started and not ended. */
struct tuv_turn tuv_server_timeout(struct tuv_end *end);

/* A backend behind a pass-through.  The caller looks its one user up by the
 * Identity Response, begins, and then delivers that Response. */
uint8_t tuv_backend_begin(struct tuv_end *end,
			  const struct tuv_settings *settings,
			  const uint8_t nonce[TUV_NONCE_LEN]);

/* Gives a stand-alone server or a backend its one user: `other`, the keys and
 * `barred` of the settings, in place of the user that it had; of the others `size`
 * alone counts.  It may be called at any time, and takes effect with the next
 * Response.  It answers as a begin, and 0 if it has taken the user. */
uint8_t tuv_server_set_user(struct tuv_end *end, const struct tuv_settings *settings);

/* --- the pass-through (section 7) --- */

uint8_t tuv_pass_begin(struct tuv_end *end, uint8_t first_id,
		       uint8_t max_retrans);

/* What these send goes to the peer, but after tuv_pass_from_peer to the
 * backend.  Start: before any other.  Restart: at any time, also in place of the
 * start; the Identity Request, of the same first Identifier, is to be sent.
 * Timeout: in IDLE and IDLE2.  The two of AAA (aaaTimeout and aaaEapNoReq of
 * section 7.1): in AAA_IDLE. */
struct tuv_turn tuv_pass_start(struct tuv_end *end);
struct tuv_turn tuv_pass_restart(struct tuv_end *end);
struct tuv_turn tuv_pass_from_peer(struct tuv_end *end, const uint8_t *octets,
				   size_t len);
struct tuv_turn tuv_pass_from_backend(struct tuv_end *end,
				      const uint8_t *octets, size_t len);
struct tuv_turn tuv_pass_timeout(struct tuv_end *end);
struct tuv_turn tuv_pass_aaa_timeout(struct tuv_end *end);
struct tuv_turn tuv_pass_aaa_noreq(struct tuv_end *end);

/* --- the supplicant of IEEE 802.1X-2004 (clauses 8.2.11 and 8.2.12), over a peer --- */

/* A supplicant without a link, under TUV_CONTROL_AUTO, over a peer with these settings.
 * tuv_end_report, tuv_end_session_id and tuv_end_failure speak of its last login; a login
 * has succeeded if the state is AUTHENTICATED and there is a report. */
uint8_t tuv_supplicant_begin(struct tuv_end *end, const struct tuv_settings *settings,
			     const struct tuv_supplicant_limits *limits);

/* portEnabled: the link comes up, or is lost (0), which shuts the port. */
struct tuv_supplicant_turn tuv_supplicant_link(struct tuv_end *end, uint8_t port_enabled);

/* The octets of a frame came, behind the header of Ethernet, with padding or not.  The
 * nonce is fresh as at a begin: a Request that begins a login takes it. */
struct tuv_supplicant_turn tuv_supplicant_frame(struct tuv_end *end, const uint8_t *octets,
						size_t len,
						const uint8_t nonce[TUV_NONCE_LEN]);

/* A second has gone by: call it each second. */
struct tuv_supplicant_turn tuv_supplicant_second(struct tuv_end *end);

/* userLogoff: the user logs off, or on again (0). */
struct tuv_supplicant_turn tuv_supplicant_logoff(struct tuv_end *end, uint8_t user_logoff);

/* portControl, TUV_CONTROL_..; another number is misplaced. */
struct tuv_supplicant_turn tuv_supplicant_control(struct tuv_end *end, uint8_t port_control);

/* --- the port of an authenticator (clauses 8.2.4, 8.2.8, 8.2.9), over a pass-through --- */

/* A port without a link, which is shut, under TUV_CONTROL_AUTO, for one station.  The
 * numbers are those of tuv_pass_begin: its Identity Requests have the Identifier
 * `first_id`.  It answers TUV_OK, TUV_MANY_RETRIES or TUV_NO_MEMORY. */
uint8_t tuv_port_begin(struct tuv_end *end, uint8_t first_id, uint8_t max_retrans,
		       const struct tuv_port_limits *limits);

/* portEnabled: the link comes up, or goes down (0), which shuts the port. */
struct tuv_port_turn tuv_port_link(struct tuv_end *end, uint8_t port_enabled);

/* The octets of a frame of the station came, behind the header of Ethernet. */
struct tuv_port_turn tuv_port_frame(struct tuv_end *end, const uint8_t *octets, size_t len);

/* A second has gone by: call it each second. */
struct tuv_port_turn tuv_port_second(struct tuv_end *end);

/* The answer to the outstanding Access-Request came: its Code, TUV_ACCESS_.. (another
 * number is misplaced), and the EAP packet that it carries, no octets if it has none.
 * Its authenticators are good: who calls has checked them (RFC 2865 section 3, RFC 3579
 * section 3.2).  The Code decides (RFC 3579 section 2.6.3). */
struct tuv_port_turn tuv_port_answer(struct tuv_end *end, uint8_t code, const uint8_t *octets,
				     size_t len);

/* aaaTimeout (RFC 4137 section 7.1): no answer comes any more. */
struct tuv_port_turn tuv_port_aaa_timeout(struct tuv_end *end);

/* AuthControlledPortControl, TUV_CONTROL_..; another number is misplaced. */
struct tuv_port_turn tuv_port_control(struct tuv_end *end, uint8_t port_control);

/* reAuthenticate (clause 8.2.8): a station that is in logs in again. */
struct tuv_port_turn tuv_port_reauthenticate(struct tuv_end *end);

/* --- a method alone, for a program with machines of its own --- */

/* These machines do what RFC 4137's do.  A peer's answers a Request that comes again
 * as it was by the Response that it sent last (tuv_end_last_packet), and doesn't hand it on:
 * the method would discard it.  What is discarded is left unanswered, and the login
 * waits on; where the carrier repeats nothing, as in IKEv2, it ends the login.
 * `expanded` has no effect: a method asks and reads in the plain form. */
uint8_t tuv_peer_method_begin(struct tuv_end *end,
			      const struct tuv_settings *settings,
			      const uint8_t nonce[TUV_NONCE_LEN]);

/* A whole Request of the method's Type comes; a Response is to be sent. */
struct tuv_method_turn tuv_peer_method_handle(struct tuv_end *end,
					      const uint8_t *octets,
					      size_t len);

/* The name of the server, ID_S of PSK-1 or ID_Server of GPSK-1, in a whole Request
 * that came from it, also of Type 254, and its length; 0, with nothing written, in
 * any other octets.  No tag stands for it, so anyone may have sent it: for a log
 * that says which name came (TUV_CAUSE_UNKNOWN_SERVER). */
size_t tuv_request_name(const uint8_t *octets, size_t len,
			uint8_t room[TUV_NAME_MAX]);

/* The first Request, with the Identifier `id`, is there at once:
 * tuv_end_packet. */
uint8_t tuv_server_method_begin(struct tuv_end *end,
				const struct tuv_settings *settings,
				const uint8_t nonce[TUV_NONCE_LEN], uint8_t id);

/* The same of a server's method, as tuv_server_set_user: neither the begin nor the
 * first Request wants a user. */
uint8_t tuv_server_method_user(struct tuv_end *end,
			       const struct tuv_settings *settings);

/* The name of the peer, ID_P of PSK-2 or ID_Peer of GPSK-2, in a whole Response
 * that came from it, also of Type 254, and its length; 0, with nothing written, in
 * any other octets.  Its tag isn't checked yet, so anyone may have sent it. */
size_t tuv_response_name(const uint8_t *octets, size_t len,
			 uint8_t room[TUV_NAME_MAX]);

/* A whole Response of the method's Type comes; a Request that follows has the
 * Identifier `next_id`.  A server that is done (TUV_METHOD_DONE) has succeeded
 * where the decision is TUV_DECISION_UNCOND_SUCC. */
struct tuv_method_turn tuv_server_method_handle(struct tuv_end *end,
						const uint8_t *octets,
						size_t len, uint8_t next_id);

/* --- written in C --- */

/* Clears that many octets of the stack below the caller, and the vector registers that
 * a call needn't keep: in both the calls above have left octets of keys.  After the
 * last call of a login, in the thread that made it, from no deeper than the calls were
 * made; of at least TUV_STACK_MAX octets, and as many more as the calls were made
 * deeper than this one is.  A signal leaves what a call had in registers on the stack
 * of its handler: on one of its own (sigaltstack) this clears nothing.  Block signals
 * from the first call to the clear, or clear that stack too. */
void tuv_clear_stack_of(size_t octets);

/* Clears TUV_STACK_MAX octets, on Linux 20,480 since signals lie below the calls, as
 * above: for the function that made the calls, or one above it, if the frames of both
 * and of all between have at most 2,000 octets. */
void tuv_clear_stack(void);

/* Whether the processor has what the library was built for (README.md). */
bool tuv_cpu_supported(void);

/* For a log: the name of a cause, of a state, also of a supplicant and of a port, of
 * what a begin answers and of a reason; "?" for a number that has none. */
const char *tuv_cause_word(uint8_t cause);
const char *tuv_state_word(uint8_t state);
const char *tuv_supplicant_word(uint8_t state);
const char *tuv_port_word(uint8_t state);
const char *tuv_refusal_word(uint8_t answer);
const char *tuv_failure_word(uint8_t reason);

/* For a log: what a turn came to, as in "discards what came, BadTag; state IDLE",
 * with a 0 behind it. */
enum { TUV_TEXT_MAX = 80 };
void tuv_turn_text(struct tuv_turn turn, char room[TUV_TEXT_MAX]);

/* The version of the interface and the commit, as in "tuvaddri 2 252dec7", and
 * behind them " unchecked" if no proof of the library was checked, " dist" if it
 * was assembled of dist/, and proved where that was made. */
extern const char tuv_ident[];

#ifdef __cplusplus
}
#endif
#endif
