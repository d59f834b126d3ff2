#!/usr/bin/env python3
"""Joins a peer and a server by pipes: each packet that one sends is the next line of the other.

    examples/joined.py [NAME]

The settings are those of NAME.peer and NAME.server beside it, `gpsk-login` without a name. What both programs write is
written with `peer` or `server` before each line. EAP_LOGIN names another program than ./eap_login.
"""
import os
import pathlib
import subprocess
import sys

HERE = pathlib.Path(__file__).resolve().parent
PROGRAM = os.environ.get("EAP_LOGIN") or str(HERE.parent / "eap_login")
ROUNDS = 40


class End:
    """One end, started with its settings."""

    def __init__(self, word, name):
        self.word = word
        self.run = subprocess.Popen([PROGRAM, word], stdin=subprocess.PIPE, stdout=subprocess.PIPE, text=True)
        settings = (HERE / f"{name}.{word}").read_text().partition("\nevents\n")[0]
        self.tell(settings + "\nevents")

    def tell(self, line):
        self.run.stdin.write(line + "\n")
        self.run.stdin.flush()

    def line(self):
        line = self.run.stdout.readline().rstrip("\n")
        print(self.word, line)
        return line

    def sent(self):
        """The packet that the end sends at its start, or at the line told last; None for none."""
        states = self.line().split(" ")[1:]
        sends = {"SEND_RESPONSE", "SEND_REQUEST", "RETRANSMIT"} & set(states) and states[-1] == "IDLE"
        ends = self.word == "server" and states[-1] in ("SUCCESS", "FAILURE")
        return self.line().split(" ")[2] if sends or ends else None

    def finish(self):
        self.tell("end")
        self.run.stdin.close()
        for line in self.run.stdout:
            print(self.word, line.rstrip("\n"))
        return self.run.wait()


def main():
    if sys.argv[1:] in (["--help"], ["-h"]):
        sys.exit(print(__doc__.strip()))
    name = sys.argv[1] if len(sys.argv) > 1 else "gpsk-login"
    server, peer = End("server", name), End("peer", name)
    here, there = peer, server
    packet = server.sent()
    for _ in range(ROUNDS):
        if packet is None:
            break
        here.tell(f"packet {packet}")
        packet = here.sent()
        here, there = there, here
    return max(peer.finish(), server.finish())


if __name__ == "__main__":
    sys.exit(main())
