"""What a tool is given: a file by name, `-` or standard input, of whatever form, and the users whose keys judge it."""

from __future__ import annotations

import contextlib
import re
import sys
from argparse import ArgumentTypeError, Namespace
from ipaddress import ip_address
from pathlib import Path
from typing import Optional

from lib import captures, frames, ladder, packets, refusals, replays, words
from lib.captures import Capture, User
from lib.common import Parser, Refused, octets_of
from lib.texts import lines_of

HEADERS = {b"eap-scenario": "replay", b"eap-capture": "check", b"eap-radius": "radius", b"eap-end": "end",
           b"eap-trace": "trace", b"bulk ": "bulk"}
KEY = re.compile("([0-9a-fA-F]{2}){16}|([0-9a-fA-F]{2}){32,64}")
FINDINGS = re.compile(rb"(packets|records) \d+ .*findings \d+\n?\Z")


def form_of(octets: bytes) -> str:
    """The word of the program that reads an input, or `pcap`, `odd`, `end`, `trace`, `findings`; nothing where it is of
    no form that is known."""
    if frames.is_file(octets):
        return "pcap"
    if refusals.odd(octets):
        return "odd"
    front = octets.removeprefix(b"\xef\xbb\xbf").lstrip()[:16].lower()
    for header, form in HEADERS.items():
        if front.startswith(header):
            return form
    if FINDINGS.search(octets[-200:]):
        return "findings"
    first = next((line for _, line in lines_of(octets)), [""])
    if first[0] in {it.keyword for it in words.KEY_REQUESTS}:
        return "keys"
    return "decode" if re.fullmatch("-|([0-9a-fA-F]{2})+", first[0]) else ""


# ---- Words.


def port(text: str) -> int:
    if not text.isdecimal() or not 0 < int(text) < 65536:
        raise ArgumentTypeError(f"{text} is no port: 1 to 65535")
    return int(text)


def secret(text: str) -> tuple[bytes, str]:
    """A secret, and the address of the RADIUS client that has it; no octets for any."""
    address, _, rest = text.partition("=")
    found, its = b"", text
    with contextlib.suppress(ValueError):
        found, its = ip_address(address).packed, rest
    if not its:
        raise ArgumentTypeError(f"no secret stands behind the address: {address}=TEXT" if found else "the secret is empty")
    return found, its


def parser_of(text: Optional[str]) -> Parser:
    """The words of a tool that reads a login, with its help."""
    parser = Parser(text)
    parser.add_argument("words", metavar="WORD", nargs="*", help="[FILE] [NAME KIND HEX ..]: a file, - or nothing for "
                        "standard input; of what has no keys itself, its users as for `pcap`, or one key in hex alone")
    parser.add_argument("--users", metavar="FILE", help="takes the users from the lines `user` of a text")
    parser.add_argument("--secret", metavar="[ADDRESS=]TEXT", type=secret, action="append", help="the secret of RADIUS, which judges its "
                        "authenticators: of the client at this address, as of a proxy, or of each other one")
    parser.add_argument("--port", metavar="N", type=port, action="append", help="a port of RADIUS besides 1812 and 1645")
    parser.add_argument("--station", metavar="NAME", help="of several stations in a file, this one")
    return parser


def is_key(given: list[str]) -> bool:
    """Whether the words are one key alone."""
    return len(given) == 1 and KEY.fullmatch(given[0]) is not None


def take_file(given: list[str], parser: Parser) -> tuple[str, list[str]]:
    """The name of the file, `-` where none is given, and the other words."""
    if given and (given[0] == "-" or Path(given[0]).exists()):
        if len(given) % 3 == 2 and Path(given[1]).is_file():
            parser.error(f"{given[1]} is a second file, and one is read")
        return given[0], given[1:]
    if len(given) == 1 and not is_key(given):
        if re.fullmatch("([0-9a-fA-F]{2}){4,}", given[0]):
            parser.error(f"{given[0]} is no file, and packets in hex come from standard input: `echo HEX | ..`")
        return given[0], []
    if late := next((it for it in given if Path(it).is_file()), ""):
        parser.error(f"{late} is a file, and stands first: FILE NAME KIND HEX")
    if len(given) % 3 == 1 and len(given) > 1 and not given[1:2] == ["51"]:
        parser.error(f"{given[0]} is no file, and of {len(given)} words each user takes three: NAME KIND HEX")
    return "-", given


def users_of(given: list[str], users_file: Optional[str]) -> tuple[list[User], str]:
    """The users that the words name, or the one key that stands alone."""
    users: list[User] = []
    if users_file:
        lines = [(number, line[1:4]) for number, line in lines_of(octets_of(users_file)) if line[0] == "user"]
        if not lines:
            raise Refused(f"{users_file} has no line `user NAME K HEX`")
        wrong = [f"line {number}: {it}" for number, line in lines for it in refusals.of_users(line)]
        if wrong := wrong or refusals.of_users([word for _, line in lines for word in line]):
            raise Refused(f"{users_file}: {'; '.join(wrong)}")
        users = [(line[0], line[1], line[2]) for _, line in lines]
    if is_key(given):
        return users, given[0]
    wrong = refusals.of_users(given)
    if wrong:
        raise Refused(f"the users aren't whole: {'; '.join(wrong)}")
    return users + [(given[at], given[at + 1], given[at + 2]) for at in range(0, len(given), 3)], ""


def give_users(capture: Capture, users: list[User], key: str) -> None:
    """Adds users to a capture; a key that stands alone is that of each user whom the packets name, as its size fits."""
    capture.users += users
    read = [packets.read(it) for it in capture.packets.octets] if key else []
    for name, kind in dict.fromkeys((it.user, it.kind) for it in read if it.message in packets.SECOND and it.number["Code"] == 2):
        is_plain = name and all("!" <= it <= "~" for it in name)
        if words.is_key_size(kind, len(key) // 2) and is_plain and len(capture.users) < words.MOST_USERS:
            capture.users.append((name, kind, key))
    if key and not capture.users:
        capture.notes.append(f"no packet names a user whose method takes a key of {len(key) // 2} octets")


# ---- Ladders.


def named(capture: Capture, station: str) -> bool:
    return not station or capture.station.lower().replace(":", "-") == station.lower().replace(":", "-")


def captures_of(octets: bytes, given: Namespace, rest: list[str]) -> list[Capture]:
    """The captures of an input that has packets and no replay, one for each station."""
    form = form_of(octets)
    if form == "pcap":
        found = captures.of_pcap(octets, given.port or ())
    elif form == "check":
        found = [captures.of_capture(octets)]
    else:
        found = [captures.of_packets(octets)]
    stations = ", ".join(it.station or "one without a name" for it in found)
    found = [it for it in found if named(it, given.station or "")]
    if not found:
        raise Refused(f"there is no station {given.station}; there are {stations}")
    return with_users(found, given, rest)


def with_users(found: list[Capture], given: Namespace, rest: list[str]) -> list[Capture]:
    """Captures with the users whom the words name, and judged under the secret of RADIUS."""
    users, key = users_of(rest, given.users)
    for it in found:
        give_users(it, users, key)
    if given.secret:
        captures.judge_radius(found, dict(given.secret))
    return found


def ladders_of(octets: bytes, given: Namespace, rest: list[str]) -> list[ladder.Ladder]:
    """The ladders of an input of any form that has packets."""
    form = form_of(octets)
    readers = {"replay": replays.of_scenario, "end": replays.of_end, "trace": replays.of_trace}
    if form in readers:
        if rest:
            raise Refused(f"{' '.join(rest)[:60]!a}: it has its users itself")
        return [ladder.of_a_replay(readers[form](octets))]
    if form in ("pcap", "check", "decode"):
        return [ladder.of_a_capture(it) for it in captures_of(octets, given, rest)]
    raise Refused(refusals.odd(octets) or "it is no pcap file, capture, scenario, trace or text of `peer` or `server`"
                  + (f": it is {refusals.named(form)}" if form else ": its first line is none's"))


def read(given: Namespace, parser: Parser) -> tuple[str, list[ladder.Ladder]]:
    """The name of the file and the ladders that the words ask for; what is left out of a file is said."""
    path, rest = take_file(given.words, parser)
    octets = octets_of(path)
    try:
        found = ladders_of(octets, given, rest)
    except Refused as fault:
        raise Refused(f"{path}: {fault}")
    for it in found:
        for note in it.capture.notes:
            print(f"{Path(sys.argv[0]).name}: {note}", file=sys.stderr)
    return path, found


def one_of(found: list[ladder.Ladder]) -> ladder.Ladder:
    """The one ladder of an input; where there are several stations, one has to be asked for."""
    if len(found) > 1:
        stations = ", ".join(it.capture.station for it in found)
        raise Refused(f"there are {len(found)} stations, and --station NAME asks for one: {stations}")
    return found[0]
