"""The settings of a login: a file in the words of a scenario (docs/TEXTS.md), judged by the program before anything is
sent. Faults are told with the numbers of the file's own lines, and in the words of tools/why.
"""

from __future__ import annotations

import re
from typing import Dict, List, Optional, Tuple

import ends
from lib.common import octets_of, run
from lib.refusals import Refusal

# The most octets of a file; the program's own limit is higher.
MOST_OCTETS = 1000000
HEADERS = {"peer": "eap-end 1", "server": "eap-end 1", "radius": "eap-radius 1"}
# How the lines of each text of the program begin; those of none are comments, or blank.
FORMS = {"peer": "peer-", "server": "server-|(user|max-retrans)( |$)", "radius": "secret( |$)", "": "#|$"}


class Settings:
    """Lines of a scenario that begin with `peer-` or `server-`, `user` and `max-retrans`, and `secret HEX` for RADIUS. There
    is no nonce: each login draws its own."""

    def __init__(self, path: str, *wanted: str) -> None:
        """Fails where the program refuses a line, or where one is missing of the texts that are wanted."""
        self.path = path
        # (in each text of the program the lines of the others are empty, so that its lines have the numbers of the file's)
        self.texts: Dict[str, List[str]] = {text: [] for text in HEADERS}
        octets = octets_of(path)
        if len(octets) > MOST_OCTETS:
            raise ends.Failed(f"{path} has over {MOST_OCTETS} octets")
        for number, line in enumerate(octets.decode("latin-1").split("\n"), 1):
            line = line.rstrip("\r")
            own = self.text_of(number, line)
            for text, lines in self.texts.items():
                lines.append(line if text == own else "")
        for text in HEADERS:
            if text in wanted or self.lines(text):
                self.judge(text, text in wanted)

    def text_of(self, number: int, line: str) -> str:
        """The text of the program in which a line stands."""
        if re.match("(peer|server)-nonce( |$)", line):
            raise self.fault(number, "a nonce is no setting of a live login, each draws its own")
        for text, form in FORMS.items():
            if re.match(form, line):
                return text
        raise self.fault(number, f"{ends.shown(line.partition(' ')[0])!a} is no setting of a live login; live/README.md has them")

    def fault(self, number: int, text: str) -> ends.Failed:
        return ends.Failed(f"{self.path} line {number}: {text}")

    def lines(self, text: str) -> List[str]:
        return list(filter(None, self.texts[text]))

    def value(self, keyword: str) -> bytes:
        """What stands behind a keyword that the settings have."""
        words = [line.partition(" ") for lines in self.texts.values() for line in lines]
        return next(rest.encode("latin-1") for first, _, rest in words if first == keyword)

    def key_of(self, name: str, kind: str) -> Optional[Tuple[str, bool]]:
        """The key that the server's users have for a name and a method, and whether that user is allowed."""
        for line in self.lines("server"):
            words = line.split(" ")
            if words[:3] == ["user", name, kind]:
                return words[3], words[4] == "allowed"
        return None

    def judge(self, text: str, is_wanted: bool) -> None:
        if text == "radius" and not self.lines(text):
            raise ends.Failed(f"{self.path} has no line `secret HEX`")
        rest = ["end"] if text == "radius" else [f"{text}-nonce {'00' * 32}", "events", "end"]
        told = "\n".join([HEADERS[text], *self.texts[text], *rest, ""]).encode("latin-1")
        found = re.search("^refused line ([0-9]+) ([A-Za-z]+)$", run([text], told)[1].decode("latin-1"), re.M)
        if not found:
            return
        # (the header stands before the file's first line)
        number, fault = int(found[1]) - 1, found[2]
        refusal = Refusal(text, told, number + 1, fault)
        if number <= len(self.texts[text]):
            line = ends.shown(self.texts[text][number - 1])
            reasons = map(in_file, filter(None, (refusal.specific(), refusal.allowed())))
            raise self.fault(number, "; ".join([f"{line!a} is refused ({fault})", *reasons]))
        if is_wanted:
            raise ends.Failed(f"{self.path}: {refusal.missing() if fault == 'Missing' else fault}")


def in_file(reason: str) -> str:
    """A reason in the numbers of the file's lines, without what may be a key."""
    reason = re.sub("([0-9A-Fa-f]{8})[0-9A-Fa-f]{9,}", r"\1..", reason)
    return re.sub("line ([0-9]+)", lambda it: f"line {int(it[1]) - 1}", reason)
