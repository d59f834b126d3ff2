"""The rows of a ladder: what passes between the parties of a login, in order, out of a replay or a capture."""

from __future__ import annotations

from dataclasses import dataclass, field
from functools import cached_property
from typing import Optional

from lib import observed, packets
from lib.captures import NONE, Capture, Packet, Packets
from lib.replays import Event, Replay
from lib.words import MARKS


@dataclass
class Row:
    """A row: `kind` is arrow, injected, lost, mark or skip; `number` is the packet's, `event` that of the event, where
    there is one. What happened on the way is in `changes`, and `was` has the octets as they were sent, where these are
    others. `finding` is the program's line of it, without the number; `at` the time in a file."""

    kind: str
    number: str = ""
    event: str = ""
    sender: str = ""
    receiver: str = ""
    title: str = ""
    changes: list[str] = field(default_factory=list)
    octets: Optional[bytes] = None
    was: Optional[bytes] = None
    acts: list[tuple[str, list[str]]] = field(default_factory=list)
    cause: str = ""
    keys: list[tuple[str, str, str]] = field(default_factory=list)
    finding: str = ""
    at: Optional[float] = None
    carrier: str = ""

    @cached_property
    def reading(self) -> packets.Reading:
        return packets.read(self.octets or b"")

    @cached_property
    def word(self) -> str:
        """The word of the finding, which is there before it is asked."""
        return self.finding.split(" ")[0]

    @property
    def called(self) -> str:
        """How the row is called in a sentence: `packet 5, GPSK-2 of alice`."""
        front = f"packet {self.number}" if self.number else f"event {self.event}"
        if self.kind == "injected":
            front = f"event {self.event}, injected"
        return f"{front}, {self.reading.called}" if self.octets is not None else front

    @property
    def altered(self) -> list[int]:
        """The places whose octets are others than those that were sent."""
        if self.was is None or self.octets is None:
            return []
        return [at for at, (one, other) in enumerate(zip(self.was, self.octets)) if one != other]


@dataclass
class Ladder:
    """A ladder, with what it was made of."""

    parties: list[str]
    rows: list[Row]
    capture: Capture
    replay: Optional[Replay] = None

    @property
    def comments(self) -> list[str]:
        return (self.replay or self.capture).comments

    @property
    def finals(self) -> dict[str, str]:
        """The state in which each party stands at the end."""
        return self.replay.states() if self.replay else {}


def title_of(octets: Optional[bytes], told: str = "") -> str:
    return told if octets is None else packets.read(octets).label if octets else "no octets"


def party_of(port: str) -> str:
    return "pass" if port.startswith("pass") else port


# ---- Replays.


def arrow_of(event: Event, came: set[int], parties: list[str]) -> Row:
    """The row of an event that brings octets."""
    row = Row("arrow", receiver=party_of(event.port), title=title_of(event.octets), octets=event.octets)
    if event.of is None:
        # (it comes in from the side of the next party)
        sides = {"peer": parties[1], "pass-peer": "peer", "pass-server": parties[-1], "server": parties[-2]}
        row.kind, row.sender, row.changes = "injected", sides[event.port], ["injected"]
        return row
    kind, *words = event.words
    row.number, row.sender = str(event.of.number), event.of.sender
    if kind == "alter":
        row.was, row.title = event.of.octets, title_of(event.of.octets)
        row.changes = [f"octet {words[1]} altered"]
    elif kind == "cut":
        row.title, row.changes = title_of(event.of.octets), [f"cut to {words[1]} octets"]
    elif event.of.number in came:
        row.changes = ["again"]
    if kind in ("deliver", "packet"):
        came.add(event.of.number)
    return row


def row_of(event: Event, came: set[int], parties: list[str]) -> Row:
    if event.skip:
        return Row("skip", event=str(event.number), title=" ".join(event.words), cause=event.skip)
    if event.port:
        row = arrow_of(event, came, parties)
    else:
        row = Row("mark", receiver=event.acts[0][0], title=MARKS.get(event.words[0], event.words[0]))
    row.event, row.acts, row.cause, row.keys = str(event.number), event.acts, event.cause, event.keys
    return row


def of_a_replay(replay: Replay) -> Ladder:
    """A packet that no event brings is lost; where only one end's text, or a trace, tells of it, it is on its way."""
    arriving = {event.of.number for event in replay.events if event.of}
    rows, came = [], set[int]()
    for event in replay.events:
        # (one end alone may do nothing at the start)
        if event.acts or event.skip or event.port:
            rows.append(row_of(event, came, replay.parties))
        for it in [it for it in event.sent if it.number not in arriving]:
            rows.append(Row("lost" if replay.has_losses else "arrow", str(it.number), "", it.sender, party_of(it.port),
                            title_of(it.octets, it.told), ["lost"] * replay.has_losses, it.octets))
    passed = [it for it in rows if it.octets is not None and {it.sender, it.receiver} == set(replay.parties[:2])
              and it.kind in ("arrow", "injected")]
    capture = captured(replay, passed)
    for row, finding in zip(passed, observed.findings_of(capture.packets, capture.users)):
        row.finding = finding
    return Ladder(replay.parties, rows, capture, replay)


def captured(replay: Replay, passed: list[Row]) -> Capture:
    """What passes at the peer's link, as it comes: altered, cut, again, injected; without what is lost. The keys are
    those of the server's users, and of a text of the peer its own."""
    packets = Packets()
    for number, it in enumerate(passed, 1):
        packets.append(number, it.receiver == "peer", it.octets or b"", NONE)
    name = replay.setting("peer-name")
    users = [(it[0], it[1], it[2]) for it in replay.given("user")]
    own = [(name, it[0], it[1]) for it in replay.given("peer-psk") if name]
    return Capture(packets, users or (own if not replay.has_losses else []), replay.comments)


# ---- Captures.

def row_of_packet(it: Packet, finding: str) -> Row:
    sender, receiver = ("server", "peer") if it.is_to_peer else ("peer", "server")
    row = Row("arrow", str(it.number), "", sender, receiver, title_of(it.octets), octets=it.octets, finding=finding, at=it.at)
    if it.radius:
        row.carrier = f"{it.radius.name}, {it.radius.verdict}" if it.radius.verdict else it.radius.name
    return row


def of_a_capture(capture: Capture) -> Ladder:
    """The parties are the peer and whatever it talks to."""
    found: dict[int, str] = {}
    for _, _, its in observed.conversations([capture]):
        found.update((it.number, it.finding) for it in its)
    rows = [row_of_packet(it, found.get(it.number, "good")) for it in capture.packets]
    return Ladder(["peer", "server"], rows, capture)
