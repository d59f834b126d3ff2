/* border.c's eight calls with settings, each with a struct of each size. */
#include "frama_c.h"
#include "__fc_builtin.h"
#include "../border.c"

enum { FIRST_ID = 77, MAX_RETRANS = 9, ANSWERS = 9 };

/* A struct ends where this array ends: what lies behind it is no memory at all. */
static uint8_t arena[4352];
static uint8_t name[253], other[253], psk_key[64], gpsk_key[64], drawn[TUV_NONCE_LEN];
static struct tuv_end handle;
static const struct tuv_supplicant_limits limits_given;
static const void *given;
static int calls, is_empty;

static void has_places(const struct tuv_settings *settings)
{
	/*@ check name: settings->name.at == &name[0] && settings->name.len == 253; */
	/*@ check other: settings->other.at == &other[0] && settings->other.len == 7; */
	/*@ check psk_key: settings->psk_key.at == &psk_key[0] && settings->psk_key.len == 16; */
	/*@ check gpsk_key: settings->gpsk_key.at == &gpsk_key[0]; */
	/*@ check gpsk_len: settings->gpsk_key.len == 64; */
}

/* The caller's are null, with no octets. */
static void has_no_octets(const struct tuv_settings *settings)
{
	/*@ check no_name: settings->name.at != \null && settings->name.len == 0; */
	/*@ check no_other: settings->other.at != \null && settings->other.len == 0; */
	/*@ check no_psk_key: settings->psk_key.at != \null && settings->psk_key.len == 0; */
	/*@ check no_gpsk_key: settings->gpsk_key.at != \null && settings->gpsk_key.len == 0; */
}

/* Each proved call: it gets a whole struct of its own, and the caller's other words as they are. */
static uint8_t begun(const struct tuv_end *end, const struct tuv_settings *settings,
		     const uint8_t *nonce, uint8_t id, uint8_t most)
{
	calls++;
	/*@ check handle: end == &handle; */
	/*@ check nonce: nonce == &drawn[0]; */
	/*@ check numbers: id == FIRST_ID && most == MAX_RETRANS; */
	/*@ check whole: \valid_read(settings) && settings->size == 80; */
	/*@ check copy: settings != given; */
	/*@ check methods: settings->methods[0] == 51 && settings->methods[1] == 47; */
	/*@ check suites: settings->suites[0] == 2 && settings->suites[1] == 1; */
	/*@ check octets: settings->expanded == 3 && settings->barred == 4; */
	if (is_empty)
		has_no_octets(settings);
	else
		has_places(settings);
	return Frama_C_interval(0, ANSWERS);
}

#define PROVED(call, words, nonce, id, most)					\
	uint8_t proved_##call words						\
	{									\
		return begun(end, settings, nonce, id, most);			\
	}

PROVED(tuv_peer_begin, (END, NONCE), nonce, FIRST_ID, MAX_RETRANS)
PROVED(tuv_server_begin, (END, NONCE, uint8_t first_id, uint8_t max_retrans),
       nonce, first_id, max_retrans)
PROVED(tuv_backend_begin, (END, NONCE), nonce, FIRST_ID, MAX_RETRANS)
PROVED(tuv_supplicant_begin, (END, const struct tuv_supplicant_limits *limits),
       limits == &limits_given ? drawn : NULL, FIRST_ID, MAX_RETRANS)
PROVED(tuv_server_set_user, (END), drawn, FIRST_ID, MAX_RETRANS)
PROVED(tuv_peer_method_begin, (END, NONCE), nonce, FIRST_ID, MAX_RETRANS)
PROVED(tuv_server_method_begin, (END, NONCE, uint8_t id), nonce, id, MAX_RETRANS)
PROVED(tuv_server_method_user, (END), drawn, FIRST_ID, MAX_RETRANS)

static uint8_t call(int which, const void *at)
{
	switch (which) {
	case 0: return tuv_peer_begin(&handle, at, drawn);
	case 1: return tuv_server_begin(&handle, at, drawn, FIRST_ID, MAX_RETRANS);
	case 2: return tuv_backend_begin(&handle, at, drawn);
	case 3: return tuv_server_set_user(&handle, at);
	case 4: return tuv_peer_method_begin(&handle, at, drawn);
	case 5: return tuv_server_method_begin(&handle, at, drawn, FIRST_ID);
	case 6: return tuv_supplicant_begin(&handle, at, &limits_given);
	default: return tuv_server_method_user(&handle, at);
	}
}

static void fill(struct tuv_settings *told, size_t size)
{
	memset(told, 0, sizeof(*told));
	told->size = size;
	if (!is_empty) {
		told->name.at = name;
		told->name.len = 253;
		told->other.at = other;
		told->other.len = 7;
		told->psk_key.at = psk_key;
		told->psk_key.len = 16;
		told->gpsk_key.at = gpsk_key;
		told->gpsk_key.len = 64;
	}
	told->methods[0] = 51;
	told->methods[1] = 47;
	told->suites[0] = 2;
	told->suites[1] = 1;
	told->expanded = 3;
	told->barred = 4;
}

/* So many octets are there, at least those of `size` itself; each behind the 80 is `rest`. */
static void settings_of(size_t size, uint8_t rest)
{
	struct tuv_settings told;
	size_t held = size < 8 || size > 4096 ? 8 : size;
	uint8_t *at = arena + sizeof(arena) - held;
	uint8_t answer;

	fill(&told, size);
	memcpy(at, &told, held < sizeof(told) ? held : sizeof(told));
	if (held > sizeof(told))
		memset(at + sizeof(told), rest, held - sizeof(told));
	given = at;
	calls = 0;
	answer = call(Frama_C_interval(0, 7), at);
	if (size < 80 || size > 4096 || (size > 80 && rest)) {
		/*@ check refused: answer == TUV_BAD_SIZE; */
		/*@ check not_called: calls == 0; */
	} else {
		/*@ check served: answer <= ANSWERS; */
		/*@ check called: calls == 1; */
	}
}

#ifdef ALL_SIZES
enum { SHORT = 300, LONG = 4084 };
#else
enum { SHORT = 101, LONG = 4090 };
#endif

int main(void)
{
	/*@ loop unroll 300; */
	for (size_t size = 0; size < SHORT; size++) {
		settings_of(size, 0);
		settings_of(size, 1);
	}
	/*@ loop unroll 20; */
	for (size_t size = LONG; size <= 4100; size++) {
		settings_of(size, 0);
		settings_of(size, 1);
	}
	/*@ loop unroll 60; */
	for (int bit = 7; bit < 64; bit++)
		settings_of((size_t) 1 << bit, 0);
	settings_of(SIZE_MAX, 0);
	settings_of(SIZE_MAX - 79, 0);
	is_empty = 1;
	settings_of(80, 0);
	settings_of(96, 0);
	return 0;
}
