#!/usr/bin/env python3
"""login.py METHOD SUITE KEY PEER-NONCE SERVER-NONCE [PEER-NONCE SERVER-NONCE]..

Logs the peer alice in at the server srv by the package ../python, and again by a restart where more nonces are given;
prints what both.c prints. The status is 0 where both ends report the same each time.
"""
import sys

from tuvaddri import Peer, Server


def show(who, end, report):
    print(who)
    print("method", report.method, "suite", report.suite)
    print("peer-name", report.peer.hex())
    print("server-name", report.server.hex())
    print("msk", report.msk.hex())
    print("emsk", report.emsk.hex())
    print("session-id", end.session_id().hex())


def log_in(peer, server, turn):
    """Carries what the two ends send until one sends nothing, the server first; whether both report the same."""
    ends = [peer, server]
    while turn.packet:
        print("octets", turn.packet.hex())
        turn = ends[0].deliver(turn.packet)
        ends.reverse()
    ours, theirs = peer.report(), server.report()
    if not ours or not theirs:
        return False
    with ours, theirs:
        show("peer", peer, ours)
        show("server", server, theirs)
        return vars(ours) == vars(theirs)


def main(method, suite, key, *nonces):
    told = {{"47": "psk_key", "51": "gpsk_key"}[method]: bytearray.fromhex(key), "suites": [int(suite)] if suite != "0" else []}
    octets = [bytes.fromhex(nonce) for nonce in nonces]
    first, *others = zip(octets[::2], octets[1::2])
    with Peer("alice", "srv", nonce=first[0], **told) as peer, Server("srv", "alice", nonce=first[1], **told) as server:
        good = log_in(peer, server, server.start())
        for of_peer, of_server in others:
            peer.restart(of_peer)
            good = log_in(peer, server, server.restart(of_server)) and good
    return 0 if good else 1


if __name__ == "__main__":
    if len(sys.argv) < 6 or len(sys.argv) % 2:
        sys.exit(__doc__)
    sys.exit(main(*sys.argv[1:]))
