/* What an end of each machine holds between two calls, by malloc's own count, and how deep a call goes into the stack: the
 * most of logins by each method and suite.  For library_size.sh, over the sides of ../c/hostapd/login.h. */
#define _DEFAULT_SOURCE
#include <malloc.h>
#include <stdint.h>
#include <stdio.h>
#include <stdlib.h>
#include "login.h"
#include "stack_paint.h"

struct end {
	const char *name;
	const struct side *side;
	size_t held, most, depth;
};

/* Opens an end by these settings, or hands it a packet; without either it is asked for its first. */
static struct sent call(struct end *end, const struct login *login, struct sent packet)
{
	struct sent made = { NULL, 0 };
	size_t before = mallinfo2().uordblks, depth;

	paint();
	if (login) {
		if (!end->side->open(login))
			exit(1);
	} else {
		made = packet.at ? end->side->take(packet.at, packet.len) : end->side->first();
	}
	depth = deepest();
	end->held += mallinfo2().uordblks - before;
	if (end->most < end->held)
		end->most = end->held;
	if (end->depth < depth)
		end->depth = depth;
	return made;
}

static void log_in(struct end *peer, struct end *server, const struct login *login)
{
	struct end *ends[] = { peer, server };
	struct sent packet = { NULL, 0 };
	unsigned int turn = 0;

	peer->held = server->held = 0;
	call(peer, login, packet);
	call(server, login, packet);
	packet = call(server, NULL, packet);
	while (packet.at)
		packet = call(ends[turn++ % 2], NULL, packet);
	if (!peer->side->succeeded() || !server->side->succeeded())
		exit(1);
	peer->side->close();
	server->side->close();
}

int main(void)
{
	static struct end ends[] = {
		{ "a peer", &library_peer, 0, 0, 0 }, { "a server", &library_server, 0, 0, 0 },
		{ "hostapd's peer", &supplicant_peer, 0, 0, 0 }, { "hostapd's server", &hostapd_server, 0, 0, 0 },
	};
	struct login ways[] = {
		{ 47, 0, { 1 }, 16, "alice", "srv" }, { 51, 1, { 1 }, 32, "alice", "srv" }, { 51, 2, { 1 }, 32, "alice", "srv" },
	};
	/* (malloc's own first block is no end's) */
	void *volatile first = malloc(1);
	unsigned int i, way;

	free(first);
	for (i = 47; i <= 51; i += 4)
		if (!register_their_peer(i) || !register_their_server(i))
			return 1;
	for (i = 0; i < 4; i += 2)
		for (way = 0; way < 3; way++)
			log_in(&ends[i], &ends[i + 1], &ways[way]);
	for (i = 0; i < 4; i++)
		printf("%-16s holds %5zu octets, and takes %5zu of stack\n", ends[i].name, ends[i].most, ends[i].depth);
	return 0;
}
