#!/usr/bin/env python3
"""supplicant.py INTERFACE NAME: supplicant.c by the package for Python.

A wired supplicant of IEEE 802.1X, which logs NAME in, and again whenever the authenticator asks, until it is ended by a
signal. Standard input has the key in hexadecimal digits.
"""

import signal
import socket
import struct
import sys
import time
from pathlib import Path

import tuvaddri

EAPOL, GROUP = 0x888E, bytes.fromhex("0180c2000003")


def main(interface, name):
    key, link = bytearray.fromhex(sys.stdin.readline().strip()), Path("/sys/class/net", interface, "operstate")
    up, state, now = False, "", time.time()
    signal.signal(signal.SIGTERM, lambda number, frame: sys.exit())
    port = socket.socket(socket.AF_PACKET, socket.SOCK_DGRAM, socket.htons(EAPOL))
    port.bind((interface, EAPOL))
    port.setsockopt(263, 1, struct.pack("iHH8s", socket.if_nametoindex(interface), 0, len(GROUP), GROUP))
    port.settimeout(0.1)
    with tuvaddri.Supplicant(name, start_period=2, **{"psk_key" if len(key) == 16 else "gpsk_key": key}) as supplicant:
        key[:] = bytes(len(key))
        while True:
            turns = [supplicant.second() for _ in range(int(time.time() - now))]
            now += len(turns)
            was, up = up, link.read_text() == "up\n"
            turns += [supplicant.link(up)] if up != was else []
            try:
                frame, source = port.recvfrom(1504)
                turns += [supplicant.frame(frame)] if source[2] != socket.PACKET_OUTGOING else []
            except OSError:  # (nothing comes, or there is no link)
                pass
            for turn in turns:
                if turn.frame:
                    port.sendto(turn.frame, (interface, EAPOL, 0, 0, GROUP))
                if turn.state != state:
                    print(turn.state, flush=True)
                if turn.authorized and turn.state != state == "AUTHENTICATING":
                    print("logged in at", supplicant.report().server.decode(), flush=True)
                state = turn.state


main(*sys.argv[1:])
