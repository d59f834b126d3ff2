"""What the scripts beside this file share: the program's words `peer`, `server` and `radius` as processes that are asked
line by line, and the words of the scripts.

Each octet of EAP that a script sends was written by `peer` or `server` (but for the Failure that `failure` makes), and
each octet of RADIUS by `radius` or by attributes.py; the scripts add sockets, timers and nonces. EAP_LOGIN names another
program than ./eap_login.
"""

from __future__ import annotations

import argparse
import dataclasses
import ipaddress
import logging
import os
import re
import secrets
import select
import signal
import socket
import subprocess
import sys
import time
from typing import Callable, List, NoReturn, Optional, Tuple

ROOT = os.path.dirname(os.path.dirname(os.path.realpath(__file__)))
sys.path.append(f"{ROOT}/tools")
from lib import common  # noqa: E402

# Why a script can't go on, in a line.
Failed = common.Refused

# How long the program may think about a line, in seconds; what is slower has stopped.
ANSWER_SECONDS = 60
# The most lines that an end is told in a login. The program takes 10,000.
MOST_INPUTS = 200
# The most octets of a packet that the program reads.
MOST_OCTETS = 2000
# The states in which a login is over (RFC 4137).
OVER = ("SUCCESS", "FAILURE", "TIMEOUT_FAILURE")
# The first octet of an EAP packet (RFC 3748 section 4).
REQUEST, RESPONSE, SUCCESS, FAILURE = 1, 2, 3, 4

# What is told where --trace asks for it.
trace = logging.debug
# The names of an MSK and an EMSK.
Names = Tuple[str, str]


def program() -> str:
    return os.environ.get("EAP_LOGIN") or f"{ROOT}/eap_login"


def try_program() -> None:
    """Runs the program once on nothing, so that it is built, and its complaints are read, before a login begins.
    Who is started by a script that has tried it doesn't."""
    common.told.append(True)
    if os.environ.get("LIVE_TRIED") == program():
        return
    try:
        done = subprocess.run([program(), "peer"], stdin=subprocess.DEVNULL, stdout=subprocess.DEVNULL)
    except OSError as fault:
        raise Failed(f"{program()} can't be run: {fault.strerror}; EAP_LOGIN names the program")
    # (nothing is refused where a header was to come, with status 2)
    if done.returncode == 1:
        raise Failed(f"{program()} doesn't have the words peer and server")
    if done.returncode != 2:
        raise Failed(f"{program()} peer ends with status {done.returncode}")
    os.environ["LIVE_TRIED"] = program()


def shown(line: str) -> str:
    """A line without the octets of a key."""
    return " ".join(it if len(it) <= 16 else it[:8] + ".." for it in line[:400].split(" "))


class Words:
    """The program with some words, told and read by lines."""

    def __init__(self, *words: str) -> None:
        self.name = " ".join(("eap_login", *words))
        self.process = subprocess.Popen(
            [program(), *words], stdin=subprocess.PIPE, stdout=subprocess.PIPE, stderr=subprocess.DEVNULL, bufsize=0
        )
        assert self.process.stdin and self.process.stdout
        self.into, self.out = self.process.stdin, self.process.stdout
        self.told: List[str] = []

    def put(self, *lines: str) -> None:
        self.told += lines
        try:
            self.into.write("\n".join([*lines, ""]).encode("latin-1"))
        except BrokenPipeError:
            pass  # what it wrote before it ended is read by `get`

    def get(self) -> Optional[List[str]]:
        """The next line, or None at the end of what it writes."""
        if not select.select([self.out], [], [], ANSWER_SECONDS)[0]:
            raise Failed(f"{self.name} gives no answer to the line: {self.line_of(len(self.told))}")
        # (which has no buffer, so a next line stays there for `select`)
        line = self.out.readline().decode()
        words = line.rstrip("\n").split(" ")
        if words[0] == "refused":
            raise Failed(f"{self.name} refuses line {words[2]} ({words[3]}): {self.line_of(int(words[2]))}")
        return words if line else None

    def line_of(self, number: int) -> str:
        return shown(self.told[number - 1]) if 0 < number <= len(self.told) else "(none)"

    def close(self) -> List[List[str]]:
        """Tells it that no more comes, and reads the rest."""
        self.into.close()
        rest = list(iter(self.get, None))
        self.out.close()
        self.process.wait(ANSWER_SECONDS)
        return rest

    def stop(self) -> None:
        """Ends it, wherever it is."""
        with self.process:
            self.process.kill()


@dataclasses.dataclass
class Turn:
    """What an end made of a line: why it discarded what came, and what it sends."""

    cause: Optional[str] = None
    sends: Optional[bytes] = None


def says_cause(word: str, line: str, path: List[str]) -> bool:
    """Whether a line `cause` follows a path: at a discard, and where a packet comes to an end that is over."""
    return "DISCARD" in path or (path == ["-"] and line.startswith("packet "))


def says_send(word: str, line: str, path: List[str]) -> bool:
    """Whether a line `send` follows a path (RFC 4137 sections 4 and 5)."""
    if "SEND_RESPONSE" in path or "SEND_REQUEST" in path:
        return True
    return word == "server" and path[-1] in ("SUCCESS", "FAILURE") or path == ["RETRANSMIT", "IDLE"]


class End(Words):
    """One end of one login: `eap_login peer` or `eap_login server`, with a nonce of its own from the system's source."""

    def __init__(self, word: str, settings: List[str]) -> None:
        super().__init__(word)
        self.word = word
        self.count = 0
        self.state = "IDLE"
        self.keys: Optional[Names] = None
        # (why it discarded last)
        self.cause = ""
        self.put("eap-end 1", *settings, f"{word}-nonce {secrets.token_hex(32)}", "events")

    def start(self) -> Turn:
        """The first Request of a server, which it makes by itself."""
        return self.turn("(start)")

    def tell(self, line: str) -> Turn:
        """Tells it an input line, `packet HEX` or another."""
        if self.count >= MOST_INPUTS:
            raise Failed(f"a login that takes over {MOST_INPUTS} packets and timers is given up")
        self.count += 1
        self.put(line)
        return self.turn(line)

    def packet(self, octets: bytes) -> Turn:
        return self.tell(f"packet {hex_of(octets)}")

    def is_over(self) -> bool:
        return self.state in OVER

    def turn(self, line: str) -> Turn:
        path, turn = self.next(), Turn()
        if path[0] == "skip":
            return turn
        if says_cause(self.word, line, path):
            turn.cause = self.cause = self.next("cause")[0]
        if says_send(self.word, line, path):
            turn.sends = bytes.fromhex(self.next("send")[0])
        if path != ["-"]:
            self.state = path[-1]
        # (in SUCCESS an end has its keys, whose line stands behind its last packet at the latest)
        if self.state == "SUCCESS" and not self.keys:
            self.next("keys")
        trace(f"{self.word} < {line}")
        trace(f"{self.word} {' '.join(path)}{' cause ' + turn.cause if turn.cause else ''}")
        if turn.sends:
            trace(f"{self.word} > packet {turn.sends.hex()}")
        return turn

    def next(self, wanted: str = "") -> List[str]:
        """The words of the next line behind its number, and behind the word that is wanted. An end can hold its keys before
        SUCCESS, so their line is read before another one."""
        words = self.get()
        if words is None:
            raise Failed(f"{self.name} ended before its answer")
        if words[1:2] == ["keys"]:
            self.keys = (words[3], words[5])
            return [] if wanted == "keys" else self.next(wanted)
        if words[0] != str(self.count) or (wanted and words[1] != wanted):
            raise Failed(f"{self.name} says {' '.join(words)} where {self.count} {wanted or 'PATH'} was to come")
        return words[2:] if wanted else words[1:]

    def last_cause(self) -> str:
        """Why it discarded what came last, in words."""
        if self.cause == "BadTag":
            return "the last cause is BadTag (another key, or a packet altered on its way)"
        return f"the last cause is {self.cause}" if self.cause else "nothing was discarded"

    def end(self) -> str:
        """Ends it, and answers the state in which it stood, with the names of the keys where it holds some."""
        self.put("end")
        for words in self.close():
            if words[0] == "state":
                self.state = words[1]
            elif words[1:2] == ["keys"]:
                self.keys = (words[3], words[5])
        return f"state {self.state}" + (f" msk {self.keys[0]} emsk {self.keys[1]}" if self.keys else "")


def failure(identifier: int) -> bytes:
    """A Failure, which a server that has given its peer up doesn't send (RFC 3748 section 4.2)."""
    return bytes([FAILURE, identifier, 0, 4])


def hex_of(octets: bytes) -> str:
    return octets.hex() or "-"


class Faults:
    """What is done to the packets that a script sends, counted from 1: one is lost, one is sent twice, one is altered."""

    def __init__(self, words: argparse.Namespace) -> None:
        self.words, self.count, self.written = words, 0, 0

    def altered(self, packet: bytes) -> bytes:
        """The EAP packet as it goes out, the next of those that the end has made."""
        self.written += 1
        number, at = self.words.alter or (0, 0)
        if self.written != number or at >= len(packet):
            return packet
        trace(f"packet {number} is altered at {at}")
        return packet[:at] + bytes([packet[at] ^ 1]) + packet[at + 1 :]

    def times(self) -> int:
        """How often the next packet goes out."""
        self.count += 1
        if self.count == self.words.lose:
            trace(f"packet {self.count} is lost")
            return 0
        if self.count == self.words.repeat:
            trace(f"packet {self.count} is sent twice")
            return 2
        return 1


# The words of a script.


class Parser(argparse.ArgumentParser):
    """The words of a script, whose faults end it with status 1, as those of the other scripts do."""

    def error(self, message: str) -> NoReturn:
        self.print_usage(sys.stderr)
        self.exit(1, f"{self.prog}: {message}\n")


def number(least: float, most: float, unit: str = "") -> Callable[[str], float]:
    """A number in decimal digits, or of a unit with parts, as 2 or 0.25; with its bounds."""
    form = r"[0-9]{1,9}(\.[0-9]{1,9})?" if unit else "[0-9]{1,9}"
    value: Callable[[str], float] = float if unit else int

    def read(word: str) -> float:
        if not re.fullmatch(form, word) or not least <= value(word) <= most:
            raise argparse.ArgumentTypeError(f"{word[:40]!a} is no number of {least} to {most}{unit}")
        return value(word)

    return read


def address(word: str) -> str:
    try:
        return str(ipaddress.ip_address(word))
    except ValueError:
        raise argparse.ArgumentTypeError(f"{word[:60]!a} is no address, as 127.0.0.1 or ::1")


def hexes(word: str) -> bytes:
    if not re.fullmatch("([0-9a-fA-F]{2}){1,253}", word):
        raise argparse.ArgumentTypeError(f"{word[:40]!a} isn't 1 to 253 octets in hex")
    return bytes.fromhex(word)


def parser(name: str, text: Optional[str]) -> Parser:
    made = Parser(prog=f"live/{name}", description=text, formatter_class=argparse.RawDescriptionHelpFormatter)
    made.add_argument("settings", metavar="SETTINGS", help="a file of settings, as live/alice.settings")
    return made


def asked(made: Parser, is_peer: bool) -> argparse.Namespace:
    """The words of a script, those of faults among them, once the program is there."""
    count = number(0, 1000000)
    made.add_argument("--lose", type=count, default=0, metavar="N", help="the N-th packet isn't sent")
    made.add_argument("--repeat", type=count, default=0, metavar="N", help="the N-th packet is sent twice")
    if is_peer:
        help_text = "the N-th packet of the peer has its octet at PLACE altered"
        made.add_argument("--alter", type=count, nargs=2, metavar=("N", "PLACE"), help=help_text)
    made.add_argument("--trace", action="store_true", help="write what each end is told and says to standard error")
    words = made.parse_args()
    logging.basicConfig(format="%(message)s", level="DEBUG" if words.trace else "INFO")
    try_program()
    return words


def comes(to: socket.socket, until: float) -> bool:
    """Whether something comes to a socket before then."""
    left = until - time.monotonic()
    return left > 0 and bool(select.select([to], [], [], left)[0])


def say(line: str) -> None:
    print(line, file=sys.stderr, flush=True)


def run(name: str, main: Callable[[], Optional[int]]) -> NoReturn:
    """Runs a script's main, and says why it couldn't go on. A signal ends it as a fault does, so that it stops what it has
    started."""
    signal.signal(signal.SIGTERM, lambda *_: sys.exit(143))
    try:
        sys.exit(main())
    except Failed as fault:
        sys.exit(f"live/{name}: {fault}")
    except KeyboardInterrupt:
        sys.exit(130)
