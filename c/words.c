/* The words for the numbers of tuvaddri.h and for a turn, and what the proofs assume of its
 * structs. */
#include "tuvaddri.h"

#if UINTPTR_MAX == UINT64_MAX	/* (else border.c and narrow.c) */
_Static_assert(sizeof(struct tuv_settings) == 80, "size of the settings");
_Static_assert(offsetof(struct tuv_settings, methods) == 72, "their octets");
_Static_assert(sizeof(struct tuv_report) == 712, "size of the report");
_Static_assert(offsetof(struct tuv_report, server_rand) == 679, "its octets");
#elif UINTPTR_MAX != UINT32_MAX
#error "The library is built for 64 and 32 bits alone."
#endif
_Static_assert(sizeof(struct tuv_turn) == 5, "size of a turn");
_Static_assert(sizeof(struct tuv_method_turn) == 6, "size of a method's turn");
_Static_assert(sizeof(struct tuv_failure) == 2, "size of a failure");
_Static_assert(sizeof(struct tuv_supplicant_turn) == 7, "size of a supplicant's turn");
_Static_assert(sizeof(struct tuv_port_turn) == 8, "size of a port's turn");
_Static_assert(sizeof(struct tuv_supplicant_limits) == 20, "size of a supplicant's limits");
_Static_assert(sizeof(struct tuv_port_limits) == 20, "size of a port's limits");

static const char *const causes[] = {
	[TUV_CAUSE_SHORT] = "Short",
	[TUV_CAUSE_BAD_CODE] = "BadCode",
	[TUV_CAUSE_BAD_LENGTH] = "BadLength",
	[TUV_CAUSE_TRUNCATED] = "Truncated",
	[TUV_CAUSE_TOO_LONG] = "TooLong",
	[TUV_CAUSE_NAK_REQUEST] = "NakRequest",
	[TUV_CAUSE_BAD_NAK] = "BadNak",
	[TUV_CAUSE_WRONG_ROLE] = "WrongRole",
	[TUV_CAUSE_BAD_EXPANDED] = "BadExpanded",
	[TUV_CAUSE_NOT_ALLOWED] = "NotAllowed",
	[TUV_CAUSE_METHOD_DONE] = "MethodDone",
	[TUV_CAUSE_OTHER_METHOD] = "OtherMethod",
	[TUV_CAUSE_ID_MISMATCH] = "IdMismatch",
	[TUV_CAUSE_EARLY_SUCCESS] = "EarlySuccess",
	[TUV_CAUSE_LATE_FAILURE] = "LateFailure",
	[TUV_CAUSE_EARLY_FAILURE] = "EarlyFailure",
	[TUV_CAUSE_WRONG_METHOD] = "WrongMethod",
	[TUV_CAUSE_NOT_WAITING] = "NotWaiting",
	[TUV_CAUSE_ENDED] = "Ended",
	[TUV_CAUSE_GPSK_SHAPE] = "GpskShape",
	[TUV_CAUSE_LIST_TOO_LONG] = "ListTooLong",
	[TUV_CAUSE_PSK_SHAPE] = "PskShape",
	[TUV_CAUSE_WRONG_OP] = "WrongOp",
	[TUV_CAUSE_UNKNOWN_SERVER] = "UnknownServer",
	[TUV_CAUSE_NO_SUITE] = "NoSuite",
	[TUV_CAUSE_FIELD_MISMATCH] = "FieldMismatch",
	[TUV_CAUSE_SUITE_NOT_OFFERED] = "SuiteNotOffered",
	[TUV_CAUSE_BAD_NONCE] = "BadNonce",
	[TUV_CAUSE_BAD_TAG] = "BadTag",
	[TUV_CAUSE_BAD_RESULT] = "BadResult",
	[TUV_CAUSE_EXTENDED] = "Extended",
	[TUV_CAUSE_FRAME_SHORT] = "FrameShort",
	[TUV_CAUSE_FRAME_TRUNCATED] = "FrameTruncated",
	[TUV_CAUSE_FRAME_TYPE] = "FrameType",
	[TUV_CAUSE_FRAME_STATE] = "FrameState",
	[TUV_CAUSE_NOT_REQUEST] = "NotRequest",
};

static const char *const states[] = {
	[TUV_STATE_INITIALIZE] = "INITIALIZE",
	[TUV_STATE_IDLE] = "IDLE",
	[TUV_STATE_RECEIVED] = "RECEIVED",
	[TUV_STATE_GET_METHOD] = "GET_METHOD",
	[TUV_STATE_METHOD] = "METHOD",
	[TUV_STATE_IDENTITY] = "IDENTITY",
	[TUV_STATE_NOTIFICATION] = "NOTIFICATION",
	[TUV_STATE_RETRANSMIT] = "RETRANSMIT",
	[TUV_STATE_SEND_RESPONSE] = "SEND_RESPONSE",
	[TUV_STATE_DISCARD] = "DISCARD",
	[TUV_STATE_SUCCESS] = "SUCCESS",
	[TUV_STATE_FAILURE] = "FAILURE",
	[TUV_STATE_SELECT_ACTION] = "SELECT_ACTION",
	[TUV_STATE_PROPOSE_METHOD] = "PROPOSE_METHOD",
	[TUV_STATE_METHOD_REQUEST] = "METHOD_REQUEST",
	[TUV_STATE_SEND_REQUEST] = "SEND_REQUEST",
	[TUV_STATE_NAK] = "NAK",
	[TUV_STATE_INTEGRITY_CHECK] = "INTEGRITY_CHECK",
	[TUV_STATE_METHOD_RESPONSE] = "METHOD_RESPONSE",
	[TUV_STATE_TIMEOUT_FAILURE] = "TIMEOUT_FAILURE",
	[TUV_STATE_PICK_UP_METHOD] = "PICK_UP_METHOD",
	[TUV_STATE_INITIALIZE_PASSTHROUGH] = "INITIALIZE_PASSTHROUGH",
	[TUV_STATE_AAA_REQUEST] = "AAA_REQUEST",
	[TUV_STATE_AAA_IDLE] = "AAA_IDLE",
	[TUV_STATE_AAA_RESPONSE] = "AAA_RESPONSE",
	[TUV_STATE_SEND_REQUEST2] = "SEND_REQUEST2",
	[TUV_STATE_IDLE2] = "IDLE2",
	[TUV_STATE_RECEIVED2] = "RECEIVED2",
	[TUV_STATE_RETRANSMIT2] = "RETRANSMIT2",
	[TUV_STATE_DISCARD2] = "DISCARD2",
	[TUV_STATE_SUCCESS2] = "SUCCESS2",
	[TUV_STATE_FAILURE2] = "FAILURE2",
	[TUV_STATE_TIMEOUT_FAILURE2] = "TIMEOUT_FAILURE2",
};

static const char *const supplicant_states[] = {
	[TUV_SUPPLICANT_DISCONNECTED] = "DISCONNECTED",
	[TUV_SUPPLICANT_LOGOFF] = "LOGOFF",
	[TUV_SUPPLICANT_CONNECTING] = "CONNECTING",
	[TUV_SUPPLICANT_AUTHENTICATING] = "AUTHENTICATING",
	[TUV_SUPPLICANT_AUTHENTICATED] = "AUTHENTICATED",
	[TUV_SUPPLICANT_HELD] = "HELD",
	[TUV_SUPPLICANT_S_FORCE_AUTH] = "S_FORCE_AUTH",
	[TUV_SUPPLICANT_S_FORCE_UNAUTH] = "S_FORCE_UNAUTH",
};

static const char *const port_states[] = {
	[TUV_PORT_INITIALIZE] = "INITIALIZE",
	[TUV_PORT_AUTHENTICATING] = "AUTHENTICATING",
	[TUV_PORT_AUTHENTICATED] = "AUTHENTICATED",
	[TUV_PORT_HELD] = "HELD",
	[TUV_PORT_FORCE_AUTH] = "FORCE_AUTH",
	[TUV_PORT_FORCE_UNAUTH] = "FORCE_UNAUTH",
};

static const char *const answers[] = {
	[TUV_OK] = "Ok",
	[TUV_BAD_SIZE] = "BadSize",
	[TUV_NO_METHOD] = "NoMethod",
	[TUV_NO_SUITE] = "NoSuite",
	[TUV_BAD_NAME] = "BadName",
	[TUV_BAD_OTHER] = "BadOther",
	[TUV_BAD_KEY] = "BadKey",
	[TUV_MANY_RETRIES] = "ManyRetries",
	[TUV_NO_MEMORY] = "NoMemory",
	[TUV_WRONG_END] = "WrongEnd",
};

static const char *const reasons[] = {
	[TUV_FAILURE_NONE] = "None",
	[TUV_FAILURE_UNKNOWN_USER] = "UnknownUser",
	[TUV_FAILURE_BARRED_USER] = "BarredUser",
	[TUV_FAILURE_REFUSED] = "Refused",
	[TUV_FAILURE_NO_METHOD] = "NoMethod",
	[TUV_FAILURE_TIMEOUT] = "Timeout",
	[TUV_FAILURE_ENDED] = "Ended",
};

#define WORD(words, number) \
	((number) < sizeof(words) / sizeof((words)[0]) && (words)[number] ? (words)[number] : "?")

const char *tuv_cause_word(uint8_t cause)
{
	return WORD(causes, cause);
}

const char *tuv_state_word(uint8_t state)
{
	return WORD(states, state);
}

const char *tuv_supplicant_word(uint8_t state)
{
	return WORD(supplicant_states, state);
}

const char *tuv_port_word(uint8_t state)
{
	return WORD(port_states, state);
}

const char *tuv_refusal_word(uint8_t answer)
{
	return WORD(answers, answer);
}

const char *tuv_failure_word(uint8_t reason)
{
	return WORD(reasons, reason);
}

static char *append(char *at, const char *text)
{
	while (*text)
		*at++ = *text++;
	*at = 0;
	return at;
}

void tuv_turn_text(struct tuv_turn turn, char room[TUV_TEXT_MAX])
{
	char *at = room;

	if (turn.misplaced) {
		append(at, "has no place for this call");
		return;
	}
	if (turn.discards) {
		at = append(at, "discards what came, ");
		at = append(at, tuv_cause_word(turn.cause));
	} else
		at = append(at, turn.sends ? "sends a packet" : "sends nothing");
	at = append(at, "; state ");
	append(at, tuv_state_word(turn.state));
}

#ifndef TUV_COMMIT
#define TUV_COMMIT "unknown"
#endif
#define TEXT_OF(number) #number
#define TEXT(number) TEXT_OF(number)

const char tuv_ident[] = "tuvaddri " TEXT(TUV_VERSION) " " TUV_COMMIT;
