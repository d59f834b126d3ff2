"""What the texts of the program consist of, and what its answers mean, as words.txt says it: the one place that knows it.

tools/why says it, dev/make-docs makes the tables of docs/TEXTS.md, the man page and the completions from it, and
tools/check holds each row against the program by running it. In a sentence, `{N}` is the range of the field N."""

from __future__ import annotations

import re
from dataclasses import dataclass
from pathlib import Path
from typing import NamedTuple, Sequence

MOST_NAME, MOST_OCTETS, MOST_LINE, MOST_INPUT, MOST_EVENTS, MOST_USERS = 253, 2000, 4096, 16777216, 10000, 16
METHODS = {"47": "EAP-PSK", "51": "EAP-GPSK"}
# The octets of a key by its method.
KEY_SIZES = {"47": (16, 16), "51": (32, 64)}
SUITES = ("1", "2")


def is_key_size(kind: str, size: int) -> bool:
    least, most = KEY_SIZES[kind]
    return least <= size <= most


def key_size(kind: str) -> str:
    """The octets of a key in words."""
    least, most = KEY_SIZES[kind]
    return f"{least}" if least == most else f"{least} to {most}"


def tables_of(name: str) -> dict[str, dict[str, list[str]]]:
    """The tables of a text beside this: the cells of each row, by the row's head."""
    texts: dict[str, dict[str, str]] = {}
    head = ""
    for line in Path(__file__).with_name(name).read_text().splitlines():
        if line.startswith("["):
            rows = texts.setdefault(line.strip("[]"), {})
        elif line.startswith(" "):
            rows[head] += f" {line.strip()}"
        elif line and not line.startswith("#"):
            head, rows[line] = line, ""
    return {table: {head: text.strip().split(" | ") for head, text in its.items()} for table, its in texts.items()}


@dataclass(frozen=True)
class Field:
    """A word behind a keyword. `spelling` is number, name, hex, key (hex, of the size of the method before it), method,
    methods, suites, suite or choice; `least` and `most` are those of a number, or of the octets of a name or of hex."""

    name: str
    spelling: str
    least: int = 0
    most: int = 0
    choices: tuple[str, ...] = ()

    @property
    def range(self) -> str:
        if self.spelling == "key":
            return "16 octets for 47, 32 to 64 for 51"
        if self.spelling == "number":
            return f"{self.least} to {self.most}"
        same = f"{self.most:,}" if self.least == self.most else f"{self.least} to {self.most:,}"
        return f"{same} octets"

    @property
    def octets(self) -> str:
        """The octets as a short cell: `any` for all that the program reads."""
        if self.spelling == "number":
            return f"{self.name.lower()} {self.least} or {self.most}"
        return "any" if (self.least, self.most) == (0, MOST_OCTETS) else self.range.replace(" octets", "")


def field_of(word: str) -> Field:
    """A field as words.txt writes it."""
    name, sign, said = re.split("([=:])", word.replace("_", " "))
    if size := re.fullmatch(r"(\d+)(?:-(\d+))?", said):
        return Field(name, "number" if sign == "=" else "hex", int(size[1]), int(size[2] or size[1]))
    if "|" in said:
        return Field(name, "choice", choices=tuple(said.split("|")))
    return Field(name, "name", 1, MOST_NAME) if said == "name" else Field(name, said)


class Line(NamedTuple):
    """A line of a text: its keyword, the words behind it, a sentence, and whether it is needed, or its default."""

    keyword: str
    fields: tuple[Field, ...]
    says: str
    needed: str = ""

    @property
    def form(self) -> str:
        return " ".join((self.keyword, *(it.name for it in self.fields)))

    @property
    def is_list(self) -> bool:
        """Whether its one field may be two words, those of methods or of suites."""
        return self.fields[:1] != () and self.fields[0].spelling in ("methods", "suites")

    @property
    def said(self) -> str:
        """The sentence with its ranges."""
        ranges = {it.name: it.range for it in self.fields}
        return re.sub(r"\{(\w+)\}", lambda found: ranges[found[1]], self.says)


TABLES = tables_of("words.txt")


def lines_in(table: str) -> tuple[Line, ...]:
    rows = [(head.split(" "), cells) for head, cells in TABLES[table].items()]
    return tuple(Line(keyword, tuple(map(field_of, fields)), *cells) for (keyword, *fields), cells in rows)


def texts_in(table: str) -> dict[str, str]:
    """What a table of one cell a row says."""
    return {head: cells[0] for head, cells in TABLES[table].items()}


SETTINGS, EVENTS, LATER_SETTINGS, LATER_EVENTS = map(lines_in, ("settings", "events", "later settings", "later events"))
CAPTURE_LINES, END_INPUTS, KEY_REQUESTS, RADIUS_LINES = map(lines_in, ("capture", "inputs", "requests", "radius"))
BULK_WORDS = lines_in("bulk")[0].fields


@dataclass(frozen=True)
class Text:
    """A text: its headers, its lines, and those that part it."""

    headers: tuple[str, ...]
    lines: tuple[Line, ...]
    parts: tuple[str, ...] = ()
    later: tuple[Line, ...] = ()
    settings: tuple[Line, ...] = ()
    named: str = ""


def of_end(name: str, others: Sequence[str], inputs: Sequence[str]) -> Text:
    """One end's text: its own settings, of both versions, and what comes to it."""
    first = {it.keyword for it in SETTINGS}
    both = SETTINGS + tuple(it for it in LATER_SETTINGS if it.keyword not in first)
    settings = tuple(it for it in both if it.keyword.startswith(f"{name}-") or it.keyword in others)
    lines = settings + tuple(it for it in END_INPUTS if it.keyword in inputs)
    return Text(("eap-end 1",), lines, ("events", "end"), settings=settings, named=f"a text of `{name}`")


# The settings of a server whose names don't say so.
OF_SERVER = ("user", "first-id", "max-retrans")
TEXTS = {
    "replay": Text(("eap-scenario 1", "eap-scenario 2"), SETTINGS + EVENTS, ("events", "end"),
                   LATER_SETTINGS + LATER_EVENTS, SETTINGS, "a scenario"),
    "check": Text(("eap-capture 1",), CAPTURE_LINES, ("packets", "end"), named="a capture"),
    "radius": Text(("eap-radius 1",), RADIUS_LINES, ("secret", "end"), named="a text of `radius`"),
    "peer": of_end("peer", (), ("packet", "idle", "alt-accept", "alt-reject")),
    "server": of_end("server", OF_SERVER, ("packet", "timeout")),
    "keys": Text((), KEY_REQUESTS, named="requests of `keys`"),
    "decode": Text((), (), named="packets in hex"),
}
# What each text takes that has over 16 lines of it at the most.
MANY = ("user", "peer-nonce", "server-nonce")


# ---- The words of the program, and how it ends.


class Form(NamedTuple):
    """Words of the program: their input, and what they do."""

    words: str
    input: str
    does: str
    more: str = ""


FORMS = tuple(Form(*f"{head} < ".split(" < ")[:2], *cells) for head, cells in TABLES["forms"].items())
STATUSES, FAULTS, SKIPS, RADIUS_CAUSES = map(texts_in, ("statuses", "faults", "skips", "radius causes"))
# What the tools say besides.
OTHER_INPUTS, RADIUS_VERDICTS, MARKS = map(texts_in, ("other inputs", "radius verdicts", "marks"))
TOO_MUCH = texts_in("too much")["TooMuch"]
PCAP_FAULTS = TABLES["pcap faults"]


class Cause(NamedTuple):
    """Why a packet is discarded: when exactly, and what that is to somebody whose login failed; {user}, {server} and
    {party} are names in it."""

    word: str
    where: str
    why: str = ""


class Finding(NamedTuple):
    """What `check` finds of a packet: its line, when exactly, and what it means."""

    line: str
    where: str
    means: str
    kind: str = ""

    @property
    def word(self) -> str:
        return self.line.split(" ")[1]


CAUSES = tuple(Cause(word, *cells) for word, cells in TABLES["causes"].items())
FINDINGS = tuple(Finding(line, *cells) for line, cells in TABLES["findings"].items())
FINDING_OF = {it.word: it for it in FINDINGS}
CAUSE_OF = {it.word: it for it in CAUSES}


def cause_said(word: str, **names: str) -> str:
    """A cause as a sentence for somebody whose login failed."""
    cause = CAUSE_OF.get(word)
    if cause is None:
        return RADIUS_CAUSES.get(word, word)
    return cause.why.format(**names) if cause.why else cause.where
