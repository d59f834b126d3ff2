/* supplicant INTERFACE NAME: a wired supplicant of IEEE 802.1X.
 *
 * It logs NAME in at the authenticator behind an interface, and again whenever it asks, until SIGTERM.
 * Standard input has the key in hexadecimal digits: 16 octets for EAP-PSK, 32 to 64 for EAP-GPSK.  Each
 * state is a line of output.  It needs CAP_NET_RAW. */
#define _DEFAULT_SOURCE
#include <arpa/inet.h>
#include <linux/if_packet.h>
#include <net/ethernet.h>
#include <net/if.h>
#include <poll.h>
#include <signal.h>
#include <stdio.h>
#include <stdlib.h>
#include <string.h>
#include <sys/ioctl.h>
#include <sys/random.h>
#include <time.h>
#include "tuvaddri.h"

static struct sockaddr_ll group = { .sll_family = AF_PACKET, .sll_halen = ETH_ALEN,
				    .sll_addr = { 0x01, 0x80, 0xc2, 0x00, 0x00, 0x03 } };
static int port, up;
static struct ifreq interface;
static struct tuv_end end;
static volatile sig_atomic_t is_over;
static void stop(int number) { is_over = number; }

static bool open_port(const char *name)
{
	struct packet_mreq member = { (int) if_nametoindex(name), PACKET_MR_MULTICAST, ETH_ALEN,
				      { 0x01, 0x80, 0xc2, 0x00, 0x00, 0x03 } };

	memcpy(interface.ifr_name, name, strnlen(name, IFNAMSIZ - 1));
	group.sll_ifindex = member.mr_ifindex;
	port = socket(AF_PACKET, SOCK_DGRAM, group.sll_protocol = htons(ETH_P_PAE));
	return bind(port, (struct sockaddr *) &group, sizeof(group)) == 0 &&
		setsockopt(port, SOL_PACKET, PACKET_ADD_MEMBERSHIP, &member, sizeof(member)) == 0;
}

/* Sends what a turn sends, and tells a new state.  (The report's MSK would key the link.) */
static void serve(struct tuv_supplicant_turn turn)
{
	struct tuv_report report = { .size = sizeof(report) };
	uint8_t frame[TUV_FRAME_MAX];
	size_t len = tuv_end_packet(&end, frame, sizeof(frame));
	static uint8_t state;

	if (turn.sends && sendto(port, frame, len, 0, (struct sockaddr *) &group, sizeof(group)) < 0)
		perror("supplicant");
	if (turn.state == state)
		return;
	puts(tuv_supplicant_word(state = turn.state));
	if (turn.authorized && tuv_end_report(&end, &report))
		printf("logged in at %.*s\n", report.server_length, (const char *) report.server);
	explicit_bzero(&report, sizeof(report));
	fflush(stdout);
}

int main(int argc, char *argv[])
{
	struct tuv_settings settings = { .size = sizeof(settings) };
	struct tuv_supplicant_limits limits = { 2, 3, 30, 60, 0 };	/* an EAPOL-Start each two seconds */
	uint8_t key[TUV_KEY_MAX + 1], nonce[TUV_NONCE_LEN], frame[TUV_FRAME_MAX], answer = TUV_NO_MEMORY;
	struct tuv_octets octets = { key, 0 };
	struct sockaddr_ll from = { 0 };
	char digits[3] = "";

	if (argc != 3 || !open_port(argv[1]))
		return 2;
	setvbuf(stdin, NULL, _IONBF, 0);
	while (octets.len < sizeof(key) && fgets(digits, 3, stdin) && strspn(digits, "0123456789abcdefABCDEF") == 2)
		key[octets.len++] = (uint8_t) strtoul(digits, NULL, 16);
	if (digits[0] != '\n' && !feof(stdin))
		octets.len = 0;
	settings.name = (struct tuv_octets) { (const uint8_t *) argv[2], strlen(argv[2]) };
	*(octets.len == 16 ? &settings.psk_key : &settings.gpsk_key) = octets;
	signal(SIGTERM, stop);
	if (tuv_end_new(&end.at) && (answer = tuv_supplicant_begin(&end, &settings, &limits)) != TUV_OK)
		fprintf(stderr, "supplicant: %s\n", tuv_refusal_word(answer));
	explicit_bzero(key, sizeof(key));
	for (time_t now = time(NULL); answer == TUV_OK && !is_over;) {
		if (ioctl(port, SIOCGIFFLAGS, &interface) == 0 && (interface.ifr_flags & IFF_RUNNING) != up)
			serve(tuv_supplicant_link(&end, (up ^= IFF_RUNNING) != 0));
		poll(&(struct pollfd) { port, POLLIN, 0 }, 1, 100);
		ssize_t len = recvfrom(port, frame, sizeof(frame), MSG_DONTWAIT, (void *) &from, &(socklen_t) { sizeof(from) });
		if (len > 0 && from.sll_pkttype != PACKET_OUTGOING && getrandom(nonce, sizeof(nonce), 0) == sizeof(nonce))
			serve(tuv_supplicant_frame(&end, frame, (size_t) len, nonce));
		for (; now < time(NULL); now++)
			serve(tuv_supplicant_second(&end));
	}
	tuv_end_free(&end);
	return answer == TUV_OK ? 0 : 1;
}
