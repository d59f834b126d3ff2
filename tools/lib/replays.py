"""What the program makes of a scenario, or of the text of one end: what each event brings, and what follows; and the
same as far as a trace tells it."""

from __future__ import annotations

from dataclasses import dataclass, field
from typing import Optional

from lib.common import Refused, ask
from lib.texts import comments_of, lines_of, packet_of
from lib.words import OF_SERVER


PARTIES = {"peer", "pass", "server"}
PORTS = {"peer", "server", "pass-peer", "pass-server"}


@dataclass
class Sent:
    """A packet that a party sent: its number, the party, the port to which it goes, its octets, or what is told of it
    where these aren't."""

    number: int
    sender: str
    port: str
    octets: Optional[bytes] = None
    told: str = ""


@dataclass
class Event:
    """An event: its number and words; where it brings octets, their port and they, and the packet of which they are;
    then why it did nothing, or the states that parties entered, the cause of a discard, the packets sent, the names of
    keys. Event 0 is the start."""

    number: int
    words: list[str]
    port: str = ""
    octets: bytes = b""
    of: Optional[Sent] = None
    skip: str = ""
    acts: list[tuple[str, list[str]]] = field(default_factory=list)
    cause: str = ""
    sent: list[Sent] = field(default_factory=list)
    keys: list[tuple[str, str, str]] = field(default_factory=list)


@dataclass
class Replay:
    """What was replayed; `end` has the last lines, as in end["result"], and `settings` the words of the settings."""

    parties: list[str]
    events: list[Event]
    end: dict[str, str]
    settings: list[list[str]] = field(default_factory=list)
    comments: list[str] = field(default_factory=list)
    has_losses: bool = True

    def given(self, *front: str) -> list[list[str]]:
        """The words behind these in each setting that begins with them."""
        return [it[len(front) :] for it in self.settings if it[: len(front)] == list(front)]

    def setting(self, *front: str) -> str:
        """The first word that a setting has behind these."""
        return next((it[0] for it in self.given(*front) if it), "")

    def states(self) -> dict[str, str]:
        """The state in which each party stands at the end."""
        return {key[6:]: value for key, value in self.end.items() if key.startswith("state ")}


def tell(event: Event, words: list[str]) -> None:
    """Takes a line of the trace, behind its number, into its event."""
    if words[0] == "skip":
        event.skip = words[1]
    elif words[0] == "cause":
        event.cause = words[1]
    elif words[0] == "sent":
        event.sent.append(Sent(int(words[1]), event.acts[-1][0], words[3], told=" ".join(words[4:])))
    elif words[0] == "octets":
        event.sent[-1].octets = bytes.fromhex(words[1])
    elif words[0] == "keys":
        event.keys.append((words[1], words[3], words[5]))
    else:
        event.acts.append((words[0], words[1:]))


def ended(lines: list[list[str]]) -> dict[str, str]:
    """The last lines of a trace, or of one end."""
    found = {" ".join(words[:-1]): words[-1] for words in lines if not words[0].isdecimal() and len(words) > 1}
    if "tags broken" in found:
        found["tags"] = "broken"
    return found


def parts_of(octets: bytes) -> tuple[list[list[str]], list[Event]]:
    """The settings of a text, and the events of its lines between `events` and `end`, behind the start."""
    lines = [words for _, words in lines_of(octets)][1:]
    begin = lines.index(["events"])
    return lines[:begin], [Event(at, it) for at, it in enumerate([["start"], *lines[begin + 1 : lines.index(["end"])]])]


# ---- Scenarios.


def bring(event: Event, sent: dict[int, Sent]) -> None:
    """Finds what octets an event brings to a port, by the packets sent before it."""
    kind, *words = event.words
    if kind == "inject":
        event.port, event.octets = words[0], packet_of(words[1], f"event {event.number}")
    elif kind in ("deliver", "alter", "cut"):
        event.of = sent[int(words[0])]
        event.port, octets = event.of.port, bytearray(event.of.octets or b"")
        if kind == "alter":
            octets[int(words[1])] ^= int(words[2])
        event.octets = bytes(octets[: int(words[1])] if kind == "cut" else octets)


def of_scenario(octets: bytes) -> Replay:
    """Replays a scenario, which the program has to take."""
    trace = [line.split(" ") for line in ask(["replay", "names"], octets)]
    settings, events = parts_of(octets)
    for words in trace:
        if words[0].isdecimal():
            tell(events[int(words[0])], words[1:])
    sent: dict[int, Sent] = {}
    for event in events:
        if not event.skip:
            bring(event, sent)
        sent.update((it.number, it) for it in event.sent)
    parties = ["peer", "server"] if ["mode", "alone"] in settings else ["peer", "pass", "server"]
    return Replay(parties, events, ended(trace), settings, comments_of(octets))


# ---- One end alone, and traces.


def end_of(settings: list[list[str]]) -> str:
    """Whose text it is, by its settings."""
    return "server" if any(it[0].startswith("server-") or it[0] in OF_SERVER for it in settings) else "peer"


def of_end(octets: bytes) -> Replay:
    """Runs one end over its text, which the program has to take. All packets are numbered as they pass."""
    keywords = [words for _, words in lines_of(octets)]
    end = end_of(keywords)
    other = "server" if end == "peer" else "peer"
    answers = [line.split(" ") for line in ask([end], octets)]
    settings, events = parts_of(octets)
    count = 0
    for event in events:
        if event.words[0] == "packet":
            count += 1
            event.port, event.octets = end, packet_of(event.words[1], f"event {event.number}")
            event.of = Sent(count, other, end, event.octets)
        for number, word, *words in (it for it in answers if it[0] == str(event.number)):
            if word == "send":
                count += 1
                event.sent.append(Sent(count, end, other, bytes.fromhex(words[0])))
            elif word == "keys":
                event.keys.append((end, words[1], words[3]))
            elif word in ("skip", "cause"):
                setattr(event, word, words[0])
            else:
                event.acts.append((end, [word, *words]))
    last = {f"state {end}" if key == "state" else key: value for key, value in ended(answers).items()}
    return Replay(["peer", "server"], events, last, settings, comments_of(octets), has_losses=False)


def of_trace(octets: bytes) -> Replay:
    """What a trace tells: the packets in the order of sending, and what each party made of an event."""
    lines = [words for _, words in lines_of(octets)][1:]
    events: dict[int, Event] = {}
    for words in lines:
        if words[0].isdecimal() and len(words) > 1:
            number = int(words[0])
            try:
                tell(events.setdefault(number, Event(number, ["start" if number == 0 else "event"])), words[1:])
            except (IndexError, ValueError):
                raise Refused(f"a line of the trace isn't whole: {' '.join(words)[:60]!a}")
    acting = {party for event in events.values() for party, states in event.acts if states}
    ports = {it.port for event in events.values() for it in event.sent}
    parties = ["peer", "pass", "server"] if "pass" in acting else ["peer", "server"]
    found = Replay(parties, [events[at] for at in sorted(events)], ended(lines), has_losses=False)
    others = (acting - PARTIES) | (ports - PORTS) | (found.states().keys() - {*parties})
    if not acting or others or any(not it for event in events.values() for _, it in event.acts):
        raise Refused("the trace has no event, or one of no party")
    return found
