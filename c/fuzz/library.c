/* Random calls of the library by libFuzzer: what ../fuzz.c draws comes from the input, as
 * long as it has octets, and each input is a login more. */
#define main fuzz_main
#include "../fuzz.c"

int LLVMFuzzerTestOneInput(const uint8_t *data, size_t len);

int LLVMFuzzerTestOneInput(const uint8_t *data, size_t len)
{
	static bool is_ready;

	if (!is_ready) {
		make_ends();
		try_limits();
	}
	is_ready = true;
	state = 1;
	input = data;
	input_len = len;
	login(any(2) ? 0 : 1 + any(60));
	if (any(16) == 0)
		starve();
	if (any(16) == 0)
		be_silent();
	input_len = 0;
	return 0;
}
