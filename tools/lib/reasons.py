"""The sentences that are said of logins, and why the one of a replay failed, where both ends are known."""

from __future__ import annotations

import re
from dataclasses import dataclass, field
from typing import Iterator, Optional, Sequence

from lib import words
from lib.ladder import Row
from lib.packets import SECOND, Reading
from lib.replays import Replay

TABLES = words.tables_of("reasons.txt")
# Each sentence by its name, and what may help behind it.
SENTENCES = {head: cells for rows in TABLES.values() for head, cells in rows.items()}


def said(sentence: str, **names: object) -> str:
    return SENTENCES[sentence][0].format(**names)


@dataclass
class Reason:
    """A sentence on a packet, which has a row where one is drawn, or on the whole; and the numbers of those of which it is said
    besides."""

    row: Optional[Row]
    text: str
    packet: str = ""
    others: list[int] = field(default_factory=list)

    @property
    def called(self) -> str:
        return self.packet or (self.row.called if self.row else "")

    @property
    def numbers(self) -> list[int]:
        """The numbers of the packets of which it is said."""
        return [*map(int, re.findall(r"^packet (\d+)", self.packet)), *self.others]

    @property
    def said(self) -> str:
        return f"{self.called}: {self.text}" if self.called else self.text


@dataclass
class Story:
    """What came of a login: good, bad or open, in a line; why; what may help; what was counted; and of a capture the verdict, the
    user, when it began and ended, the number of its last packet, and whether the reasons are left out."""

    kind: str
    head: str
    reasons: list[Reason] = field(default_factory=list)
    tries: list[str] = field(default_factory=list)
    facts: list[str] = field(default_factory=list)
    verdict: str = ""
    user: str = ""
    at: float = 0.0
    until: float = 0.0
    last: int = 0
    is_brief: bool = False


def named(user: str) -> str:
    return user or "a user without a name"


def code_said(code: int, user: str) -> str:
    """What the server says by a Failure-Code."""
    return said(f"code {code}" if f"code {code}" in SENTENCES else "code", code=code, user=named(user))


# ---- A replay.


def party_name(party: str) -> str:
    return "pass-through" if party == "pass" else party


def keys_differ(replay: Replay, reading: Reading) -> str:
    """Whether the two ends of a scenario have different keys for the user of a message."""
    kind, user = reading.kind, replay.setting("peer-name")
    one, other = replay.setting("peer-psk", kind), replay.setting("user", user, kind)
    return said("different keys", kind=kind, user=user) if one and other and one.lower() != other.lower() else ""


def discard(replay: Replay, row: Row) -> str:
    """Why a party discards what comes."""
    party = party_name(row.receiver or (row.acts[0][0] if row.acts else ""))
    server = row.reading.identity if row.octets is not None else replay.setting("server-name")
    why = words.cause_said(row.cause, party=party, server=server, user=replay.setting("peer-name"))
    if row.was and row.octets:
        at = row.altered[0] if row.altered else 0
        why = said("altered on its way", at=at, came=row.octets[at], was=row.was[at])
    elif row.cause == "BadTag":
        why = said("wrong tag", party=party) + (keys_differ(replay, row.reading) or said("another key"))
    return said("discarded", party=party, cause=row.cause, said=why)


def of_discards(replay: Replay, rows: Sequence[Row]) -> Iterator[Reason]:
    for row in rows:
        code = row.reading.number.get("Failure-Code")
        if row.cause and row.kind != "skip":
            yield Reason(row, discard(replay, row))
        elif row.octets is None or row.kind not in ("arrow", "injected") or row.receiver != "peer":
            continue
        elif code is not None:
            is_forged = row.kind == "injected" or row.was is not None
            yield Reason(row, said("forged end") if is_forged else code_said(code, replay.setting("peer-name")))
        elif row.kind == "injected":
            yield Reason(row, said("injected"))


def of_repetitions(replay: Replay, rows: Sequence[Row]) -> Iterator[Reason]:
    """Requests that the peer answers by RETRANSMIT, and that aren't the one that it answered under their Identifier."""
    answered: dict[int, Row] = {}
    for row in rows:
        states = [it for party, its in row.acts for it in its if party == "peer"]
        if row.receiver != "peer" or row.octets is None or len(row.octets) < 5:
            continue
        before = answered.get(row.octets[1])
        if "RETRANSMIT" in states and before is not None and before.octets != row.octets:
            yield Reason(row, said("repeated", before=f"event {before.event}, {before.reading.called}", packet=""))
        elif "SEND_RESPONSE" in states and "RETRANSMIT" not in states:
            answered[row.octets[1]] = row


def of_timeouts(replay: Replay, rows: Sequence[Row]) -> Iterator[Reason]:
    """The parties that gave up."""
    for party in [it for it, state in replay.states().items() if state.startswith("TIMEOUT_FAILURE")]:
        row = next((it for it in reversed(rows) if it.kind == "mark" and it.receiver == party), None)
        asked = next((it.octets for it in reversed(rows) if it.sender == party and it.kind != "injected"), None)
        since = next((at for at, it in enumerate(rows) if it.octets == asked), 0)
        came = "was taken" if any(it.cause and it.receiver == party for it in rows[since:]) else "came"
        kind = "gives up" if row is not None and row.title == words.MARKS["aaa-timeout"] else "gives up asking"
        times = replay.setting("max-retrans") or "4"
        yield Reason(row, said(kind, party=party_name(party), times=times, s="s" * (times != "1"), came=came))


def of_ends(replay: Replay, rows: Sequence[Row]) -> Iterator[Reason]:
    """What the states at the end say."""
    if replay.end.get("result") == "agree":
        return
    yield from of_timeouts(replay, rows)
    lost = [it for it in rows if it.kind == "lost"]
    waits = [party_name(party) for party, state in replay.states().items() if state.startswith("IDLE") or state == "AAA_IDLE"]
    if lost and waits and replay.has_losses:
        yield Reason(lost[-1], said("lost, one waits", party=waits[0]) if len(waits) == 1 else said("lost, both wait"))
    # (only where the server came to propose a method, or to look for a user)
    if not any(it.reading.message in ("Nak", "Failure") or "Failure-Code" in it.reading.number for it in rows):
        return
    methods = {end: replay.given(f"{end}-methods") for end in ("peer", "server")}
    if all(methods.values()) and not set(methods["peer"][0]) & set(methods["server"][0]) - {"-"}:
        yield Reason(None, said("no common method"))
    name = replay.setting("peer-name")
    if name and replay.setting("server-name") and not replay.given("user", name):
        yield Reason(None, said("no user", name=name))


def of_broken(replay: Replay, rows: Sequence[Row]) -> Iterator[Reason]:
    """The MAC that nobody made in this run."""
    if "tags broken" in replay.end:
        row = next((it for it in rows if it.event == replay.end["tags broken"]), None)
        user = row.reading.user if row and row.reading.message in SECOND else ""
        is_other = user != replay.setting("peer-name") and replay.setting("user", user, row.reading.kind if row else "")
        party = party_name(row.receiver) if row else "an end"
        yield Reason(row, said("of another user" if is_other else "broken", party=party, user=user))


def of_nonces(replay: Replay, rows: Sequence[Row]) -> Iterator[Reason]:
    """Which conversations began with a nonce whose front was there before, in a nonce or in a delivery."""
    if replay.end.get("fresh") != "no":
        return
    nonces = {end: [it[0].lower() for it in replay.given(f"{end}-nonce")] for end in ("peer", "server")}
    begun = {"peer": 0, "server": 0}
    used: dict[str, str] = {}
    heard = ""
    for event in replay.events:
        for end in [it for it in begun if event.words[0] == "start" or event.words == ["restart", it]]:
            if event.skip or begun[end] >= len(nonces[end]):
                continue
            begun[end] += 1
            front, nonce = nonces[end][begun[end] - 1][:32], f"`{end}-nonce` number {begun[end]}"
            row = next((it for it in rows if it.event == str(event.number)), None)
            if front in used:
                yield Reason(row, said("begins as", nonce=nonce, same=used[front]))
            elif front in heard:
                yield Reason(row, said("stood before", nonce=nonce))
            used.setdefault(front, nonce)
        heard += f"|{event.octets.hex()}" if event.octets else ""


def in_order(reasons: list[Reason], rows: Sequence[Row]) -> list[Reason]:
    """Reasons in the order of their rows, and behind them those of the whole."""
    order = {id(row): at for at, row in enumerate(rows)}
    return sorted(reasons, key=lambda it: order.get(id(it.row), len(order)))


def of_replay(replay: Replay, rows: Sequence[Row]) -> Story:
    reasons = [it for rule in (of_discards, of_repetitions, of_ends, of_broken, of_nonces) for it in rule(replay, rows)]
    states = ", ".join(f"the {party_name(party)} is in {state}" for party, state in replay.states().items())
    result, is_honest = replay.end.get("result", ""), replay.end.get("tags") == "honest"
    kind, head = TABLES["results"].get(result, ["open", states or "it has no end here"])
    if result == "agree" and (replay.end.get("tags") == "broken" or replay.end.get("fresh") == "no"):
        kind = "open"
    facts = [states] * (result not in ("", "agree"))
    facts += [said("honest")] * is_honest + [said("fresh")] * (replay.end.get("fresh") == "yes")
    return Story(kind, head, in_order(reasons, rows), facts=facts)
