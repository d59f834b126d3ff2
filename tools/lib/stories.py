"""What came of each login of a capture, and why: first a verdict in a few words; then what holds in all of the cheapest worlds that
explain it, and of what differs among them the alternatives; and what the program judges of each packet."""

from __future__ import annotations

import re
from collections import Counter
from functools import cached_property
from typing import Callable, Container, Iterable, Iterator, Optional, Sequence

from lib import frames, handshake, macs, observed, packets, paths, tls, words, worlds
from lib.captures import Capture
from lib.common import grouped
from lib.ladder import Ladder, Row
from lib.machines import CHOICES, ORDERED, Token, token
from lib.observed import ENDS, Frame
from lib.packets import FIRST, SECOND, Reading
from lib.reasons import SENTENCES, Reason, Story, code_said, named, of_replay, said

# The cut packets that are listed, those of one reason, and the seconds after which no answer comes any more.
MOST_CUT, MOST_LISTED, LONG_SECONDS = 4, 12, 5
# The octets of an EAP packet that each path carries (RFC 3748 section 3.1).
MOST_PASSED = 1020
# Behind which nothing is said of an answer; what says nothing of an end, and what is told together whatever the message.
STOPPED = ("not-passed", "unreached", "unreached-client", "accepted", "conflicting", "other-address")
NOT_SENT, OF_ANY = ("forged", "twice", "copy", "stray"), ("twice", "copy", "order", "uncaptured")
OF_MAC = ("wrong-key", "given-key", "other-key", "altered")
NONCES = {"GPSK-1": "RAND_Server", "PSK-1": "RAND_S", "GPSK-2": "RAND_Peer", "PSK-2": "RAND_P"}
Nonces = dict[bytes, Frame]


class Login:
    """A login of a capture, with what can be said of it."""

    def __init__(self, capture: Capture, found: worlds.Found) -> None:
        self.capture, self.found, self.frames = capture, found, found.frames
        self.places = {**found.places, **{it.place: it for it in self.frames}}
        places = {it.number: it.place for it in self.frames}
        told = {it[:3] for it in found.sure}
        facts = [token(name, places[number], *words) for number, name, words in capture.facts if number in places]
        found.sure += [it for it in facts if it[:3] not in told]
        # (where it is told where a packet stopped, nothing more is known of its answer)
        stopped = {self.places[it.place].octets for it in found.sure if it.name in STOPPED}
        found.sure = [it for it in found.sure if it.name != "no-answer" or self.places[it.place].octets not in stopped]
        out = {it.place for it in (*found.sure, *(it for group in found.groups for it in group[0])) if it.name in NOT_SENT}
        self.own = [it for it in self.frames if it.octets and it.place not in out]
        # (what isn't sent by its end in one of the alternatives that are said)
        self.unsure = {it.place for group in found.groups for its in group[:2] for it in its if it.name in NOT_SENT} | out
        self.cut = [it for it in capture.cut if found.first <= it[0] and (found.next is None or it[0] < found.next)]
        self.tries: list[str] = []
        self.end, self.is_end_sure = self.ending()

    def say(self, sentence: str, **names: object) -> str:
        """A sentence, whose remedies are taken up."""
        self.tries += [it.format(**names) for it in SENTENCES[sentence][1:]]
        return said(sentence, **names)

    @property
    def user(self) -> str:
        """Who logs in, by the method's message, else by the Identity Response."""
        naming = [it.read.identity for it in self.own if it.message in SECOND]
        return (naming or [it.read.identity for it in self.own if it.message == "Identity" and not it.is_down] or [""])[0]

    @property
    def kind(self) -> str:
        """The method that went on last."""
        return next((it.kind for it in reversed(self.own) if it.stage), "")

    def ending(self) -> tuple[Optional[Frame], bool]:
        """The Success, the Failure or the Access-Reject behind which the server doesn't go on, and whether it surely is that."""
        its = [it for it in self.frames if it.is_down and it in self.own or it.message == "Reject"]
        ends = [it for it in its if it.message in ENDS]
        # (what is behind it at the same time may have overtaken it, and what is there again may be a copy)
        behind = [it for it in its[its.index(ends[-1]) :] if it.at - ends[-1].at > ORDERED] if ends else []
        if ends and all(it.place in self.unsure for it in behind):
            moved = {it.place for it in shown_tokens(self.found) if it.name == "order"}
            return ends[-1], not behind and ends[-1].place not in self.unsure | moved
        doubtful = (it for it in reversed(self.frames) if it.message in ENDS and it.place in self.unsure)
        last = next((it for it in doubtful if self.may_be_sent(it) or its and it.place > its[-1].place), None)
        if last:
            return last, False
        return ends[-1] if ends and not self.found.is_firm else None, False

    def may_be_sent(self, frame: Frame) -> bool:
        """Whether a frame that an alternative has from elsewhere is sent by its end in another that is said."""
        of_groups = [[any(it.place == frame.place and it.name in NOT_SENT for it in its) for its in group[:2]] for group in self.found.groups]
        return any(any(it) and (len(it) == 1 or not all(it)) for it in of_groups)

    @cached_property
    def pmk(self) -> Optional[handshake.Judged]:
        """What the 4-way handshake behind a Success says of the PMK, where the user's key is known."""
        second = next((it.read for it in reversed(self.own) if it.message in SECOND), None)
        if not second or not self.end or self.end.message != "Success":
            return None
        key = next((key for user, kind, key in self.capture.users if (user, kind) == (second.user, second.kind)), "")
        behind = (it for it in self.capture.keys if it[0] > self.end.number and (not self.found.next or it[0] < self.found.next))
        keys, ends = [handshake.Key(*it) for it in behind], (self.capture.station, self.capture.other)
        return handshake.judged(keys, handshake.msk_of(second, key), [bytes.fromhex(it.replace("-", "")) for it in ends]) if key and keys else None

    def is_whole(self) -> bool:
        """Whether what isn't among the frames isn't in the capture either."""
        return not self.cut and not self.capture.unsure

    def front(self) -> str:
        user, kind, first, last = self.user, self.kind, self.frames[0].number, self.frames[-1].number
        front = (f"the login of {quoted(user)}" if user else "a login") + (f" by {words.METHODS[kind]}" if kind else "")
        path = next((it.radius.path for it in self.frames if it.radius), "")
        return front + (f", packet {first}" if first == last else f", packets {first} to {last}") + path


def quoted(name: str) -> str:
    """A name as it can be read, also where spaces are at its ends."""
    return f"`{name}`" if name != name.strip() else name


# ---- Choices in words.


def sentence_of(login: Login, it: Token) -> str:
    frame = login.places[it.place]
    names: dict[str, object] = {"m": frame.read.message, "user": named(frame.read.identity)}
    if it.name == "ends-method":
        names["code"] = code_told(login, frame)
    elif it.name == "forged":
        later = next((x for x in login.own if x.place > it.place and x.is_down and x.place not in login.unsure), None)
        names["forged"] = said("forged in the middle", next=later.called) if later and frame.is_down and frame.message in ENDS else said("forged")
    elif it.name == "no-answer":
        names["silence"] = silence(login, frame)
    text = CHOICES[it.name].sentence.format(*it.words, **names)
    if it.name == "unjudged" and frame.kind not in ("47", "51", "254", ""):
        # (an alert is told of its packet, whether the server refuses or not)
        text = said("other method refused") if not tls.alert_of(frame.octets) else said("alert answered")
    if it.name in ("no-answer", "unanswered") and len(frame.octets) > MOST_PASSED:
        text += said("long", size=len(frame.octets))
    if it.name in ("some-key", "policy", "unjudged") and frame.radius:
        text += said("or forgotten")
    if it.name == "no-user":
        text += users_given(login, frame.read.identity, False)
    return text


def code_told(login: Login, frame: Frame) -> str:
    """What the server says by a message that ends the method."""
    text = code_said(frame.read.number.get("Failure-Code", 0), login.user)
    if frame.message == "GPSK-Fail":
        return text + said("without a MAC")
    return text if frame.word == "tag-good" else said("without a right MAC", said=text)


def mac_of(login: Login, frame: Frame) -> str:
    """The MACs received and computed, where the key is known."""
    at = next((at for at, it in enumerate(login.frames) if it.place == frame.place), 0)
    before = [it.read for it in login.frames[:at] if it.octets and it.is_nearly_of_run(frame)]
    second = [frame.read] if frame.message in SECOND else [it for it in reversed(before) if it.message in SECOND]
    name = second[0].identity if second else ""
    key = next((key for user, kind, key in login.capture.users if (user, kind) == (name, frame.kind)), "")
    return macs.told(frame.octets, frame.read, before, key) if key else ""


def silence(login: Login, last: Frame) -> str:
    """Why no answer to the last packet is here."""
    until = login.capture.until
    is_over = until is not None and until - last.at > LONG_SECONDS or any(
        it.place > last.place and it.octets and it.place not in login.unsure for it in login.own)
    lost = f"or {said('lost')}" if is_over else said("lost") + said("or ended")
    if last.radius and not last.is_down:
        again = sum(it.octets == last.octets for it in login.frames)
        text = said("no reply", again=again, s="s" * (again > 1))
        is_known = any(it.radius and it.radius.verdict == "tag-bad" for it in login.frames)
        more = said("no reply, login") if last.radius.get(frames.STATE) else ""
        more += said("no Message-Authenticator", packet=last.number) if not last.radius.is_authenticated else ""
        return text + (said("no reply, why", more=more) + (said("or ended") if again == 1 and not is_over else "")) * (not is_known)
    if last.radius and not last.radius.is_authenticated:
        return said("not taken")
    return no_answer(login, last, said("lost by client", lost=lost) if last.radius else lost)


def no_answer(login: Login, last: Frame, lost: str) -> str:
    """Why the other end doesn't answer a packet outside of RADIUS, or a RADIUS client the server."""
    if last.message in FIRST:
        suites = f"{said('no suites')} " * (last.message == "GPSK-1")
        return said("no second", suites=suites, server=last.read.identity, lost=lost)
    by_peer = any(not it.is_down for it in login.own)
    if last.message == "Identity" and last.is_down and (by_peer or login.capture.starts):
        return said("no name", lost=lost)
    return said("no server" if not last.is_down else "no peer" if by_peer else "no supplicant", lost=lost)


def head_of(login: Login, tokens: Sequence[Token]) -> tuple[int, str]:
    """The cost of the dearest of choices, and its first words."""
    shown = [it for it in tokens if CHOICES[it.name].verdict]
    best = max(shown, key=lambda it: (CHOICES[it.name].cost, -it.place), default=None)
    if best is None:
        return -1, ""
    return CHOICES[best.name].cost, CHOICES[best.name].verdict.format(*best.words, m=login.places[best.place].read.message)


def verdict_of(login: Login) -> str:
    """What came of a login in a few words: of what is dearest, and of alternatives both."""
    if has_other_secret(login):
        return said("verdict secret")
    heads = [head_of(login, login.found.sure)]
    for first, *others in login.found.groups:
        both = [head_of(login, it) for it in [first, *others[:1]]]
        names = dict.fromkeys(it or said("verdict unseen") for _, it in both)
        heads += [(both[0][0], " or ".join(names))] if first and both[0][1] else []
    most = max(cost for cost, _ in heads)
    end = login.end.message.replace("Reject", "Failure") if login.end else ""
    return "; ".join(dict.fromkeys(it for cost, it in heads if cost == most and it)) or said(f"verdict {end}".strip())


def with_mac(login: Login, frame: Frame, tokens: Sequence[Token]) -> str:
    """What is said of a wrong MAC behind its reason."""
    is_told = frame.word == "tag-bad" and any(it.name in OF_MAC and it.place == frame.place for it in tokens)
    computed = mac_of(login, frame) if is_told else ""
    return f" ({computed})" if computed else ""


def alternatives_of(login: Login, group: list[list[Token]]) -> Reason:
    """One of several is so: the cheapest, or another; where that is nothing, perhaps the other."""
    first = group[0] or group[1]
    frame = login.places[first[0].place]

    def phrase(tokens: list[Token]) -> str:
        others = [it for it in tokens if it.place != frame.place]
        its = [sentence_of(login, it) for it in tokens if it.place == frame.place]
        its += [f"{(x := login.places[it.place]).called}: {sentence_of(login, it)}{with_mac(login, x, [it])}" for it in others]
        return "; ".join(its)

    texts = [phrase(it) for it in group[:2] if it]
    text = (", or " if len(texts) > 1 else "").join(texts)
    more = len(group) - 2
    if not group[0]:
        text = said("perhaps", text=text)
    rarer = said("rarer", count=more) if more > 0 else said("not closed") if not login.found.is_closed else ""
    return Reason(None, text + rarer + with_mac(login, frame, [it for its in group[:2] for it in its]), frame.called)


def shown_tokens(found: worlds.Found) -> list[Token]:
    return [*found.sure, *(it for group in found.groups for its in group[:2] for it in its)]


def of_worlds(login: Login) -> Iterator[tuple[int, Reason]]:
    """What the worlds say, each with the place of its frame."""
    for it in login.found.sure:
        frame = login.places[it.place]
        yield it.place, Reason(None, sentence_of(login, it) + with_mac(login, frame, [it]), frame.called)
    for group in login.found.groups:
        if group[0] or any(CHOICES[it.name].verdict for it in group[1]):
            yield (group[0] or group[1])[0].place, alternatives_of(login, group)
    shown = shown_tokens(login.found)
    login.tries += [it for it in dict.fromkeys(CHOICES[it.name].advice.format(*it.words) for it in shown) if it]


# ---- What the program judges.


def of_missing(login: Login) -> Iterator[Reason]:
    """What the capture has a part of alone, so that nothing can be said of what isn't there."""
    what = said("not judged" if login.end and login.end.message == "Success" else "not known")
    for number, kept, wire in login.cut[:MOST_CUT]:
        yield Reason(None, login.say("cut" if kept < wire else "fragment", number=number, kept=kept, wire=wire, what=what))
    for kind, count in (("more cut", len(login.cut) - MOST_CUT), ("unsure", login.capture.unsure)):
        if count > 0:
            yield Reason(None, said(kind, count=count))


def of_tags(login: Login, named_places: set[int]) -> Iterator[tuple[int, str]]:
    """What is certain of a packet by itself."""
    told: set[str] = set()
    for it in login.frames:
        if it.word == "tag-bad" and it.place not in named_places:
            computed = mac_of(login, it) if it.message not in told else ""
            told.add(it.message)
            yield it.place, said("wrong MAC") + (f" ({computed})" if computed else "")
        elif it.word == "no-key":
            yield it.place, without_key(login, it.read)
        elif it.word == "malformed":
            cause = it.finding.split(" ")[1]
            why = said("other side") if cause == "Code" else words.cause_said(cause, party="other end", server="", user="")
            yield it.place, said("malformed", cause=cause, why=why)
        elif it.word == "no-context" and login.is_whole() and not any(x.stage == 2 for x in login.frames):
            yield it.place, said("no context")
        if it.radius and it.radius.get(frames.ERROR_CAUSE) == frames.IGNORED:
            yield it.place, said("ignored")
        if alert := tls.alert_of(it.octets):
            yield it.place, said("alert", by="server" if it.is_down else "peer", alert=alert)


def plain(name: str) -> str:
    """A name without what is often put around it: quotes, a realm, a domain, its case."""
    return name.strip("\"' ").split("@")[0].split("\\")[-1].lower()


def without_key(login: Login, reading: Reading) -> str:
    """Why no key is there for a message, by the users that are given."""
    kind, name = reading.kind, reading.identity
    other = "47" if kind == "51" else "51"
    given = [(user, its) for user, its, _ in login.capture.users]
    if (name, other) in given:
        return login.say("other method", name=name, kind=kind, given=other, other=joined(other), method=joined(kind))
    if not any(it.message == "GPSK-Fail" for it in login.frames):
        login.tries.append(said("give a key", name=name, kind=kind))
    no_key = said("no key", user=f"`{name}`" if given else named(name), method=joined(kind))
    return no_key + (users_given(login, name, True) if given else "")


def joined(kind: str) -> str:
    return f"{words.METHODS[kind]} ({kind})"


def users_given(login: Login, name: str, always: bool) -> str:
    """The users that are given, with the rule where one has nearly the name."""
    given = login.capture.users
    if not given or not always and any(user == name for user, _, _ in given):
        return ""
    users = ", ".join(dict.fromkeys(f"`{user}` ({kind})" for user, kind, _ in given[:4]))
    is_near = any(plain(user) == plain(name) for user, _, _ in given)
    return said("given", users=users) + (said("near") if is_near else "")


def of_repeats(login: Login) -> Iterator[tuple[int, str]]:
    """A Request that the peer takes for one that it answered before, for its Identifier (RFC 4137 section 4.1)."""
    answered: dict[int, tuple[Frame, bytes]] = {}
    request: Optional[Frame] = None
    for it in login.frames:
        if it.octets[:1] == b"\1":
            request = it
        elif it.octets[:1] == b"\2" and request and request.id == it.id:
            before, octets = answered.setdefault(it.id, (request, it.octets))
            if octets == it.octets and before.octets != request.octets:
                repeated = said("repeated", before=before.called, packet=f", packet {it.number}")
                yield request.place, repeated + said("one is forged")


def of_nonces(login: Login, nonces: Nonces) -> Iterator[tuple[int, str]]:
    """Nonces that stood in an earlier login of the same end, in another message than this one."""
    own: Nonces = {}
    for it in login.own:
        name = NONCES.get(it.message, "")
        nonce = name.encode() + (it.read.get(name) or b"")
        before = nonces.get(nonce)
        if name and before and before.octets != it.octets:
            yield it.place, said("nonce", name=name, before=before.number)
        elif name:
            own.setdefault(nonce, it)
    nonces.update({key: it for key, it in own.items() if key not in nonces})


def of_keys(login: Login) -> Iterator[Reason]:
    """The EAPOL-Keys behind a Success that the station doesn't answer."""
    end, following = login.end, login.found.next
    if end is None or end.message != "Success":
        return
    numbers = [it for it in login.capture.unanswered if it > end.number and (following is None or it < following)]
    if len(numbers) > 1:
        yield Reason(None, said("keys", count=len(numbers), first=numbers[0], last=numbers[-1]))
    if login.pmk:
        yield Reason(None, login.say(login.pmk.name, akm=login.pmk.akm), f"packet {login.pmk.number}, message 2 of the 4-way handshake")


def of_others(login: Login) -> Iterator[Reason]:
    """Methods that aren't judged here, and RADIUS packets whose authenticators are wrong."""
    types = {it.read.number.get("Type", 0) for it in login.own if not it.is_down} - {0, 1, 2, 3, 47, 51}
    if types and not login.kind:
        yield Reason(None, said("method", names=", ".join(packets.TYPES.get(it, f"Type {it}") for it in sorted(types))))
    if any(it.read.name.startswith("Expanded ") and it.stage for it in login.own):
        yield Reason(None, said("expanded"))
    for it, number, radius in ((it, *its) for it in login.frames for its in hops_of(it)):
        name, (client, server, _) = radius.name, radius.exchange
        if it.radius and it.radius.hops:
            name += f" {said('between', client=paths.address(client[0]), server=paths.address(server[0]))}"
        called = it._replace(number=number).called
        if it.octets and not radius.is_authenticated and radius.verdict != "NoAuthenticator":
            yield Reason(None, said("not authenticated", name=name), called)
        if radius.verdict == "tag-bad":
            yield Reason(None, said("authenticator", name=name), called)
        elif radius.verdict not in ("", "good", "no-request"):
            yield Reason(None, said("odd radius", cause=radius.verdict, why=words.cause_said(radius.verdict)), called)


def hops_of(it: Frame) -> list[tuple[int, frames.Radius]]:
    """The RADIUS packets around a packet at each hop, with their numbers."""
    return [(it.number, it.radius), *it.radius.hops] if it.radius else []


def has_other_secret(login: Login) -> bool:
    """Whether at some hop all requests are wrong under the secret given, and have no reply, or all replies to right ones are."""
    hops = grouped((radius.exchange[:2], radius) for it in login.frames for _, radius in hops_of(it))
    verdicts = ([{it.verdict for it in its if it.is_request == is_request} for is_request in (True, False)] for its in hops.values())
    return any((requests, replies) in (({"tag-bad"}, set()), ({"good"}, {"tag-bad"})) for requests, replies in verdicts)


# ---- A story.


def folded(reasons: list[Reason]) -> list[Reason]:
    """Reasons of the same words on messages of the same name, as one: the first, which names the others."""
    numbered = re.compile(r"packet \d+|[\d.]+ m?s\b| \([^()]*computed[^()]*\)")
    alike = [CHOICES[it].sentence.partition("{")[0] for it in OF_ANY if not CHOICES[it].sentence.startswith("{")]
    groups = grouped((("" if it.text.startswith(tuple(alike)) else it.packet.partition(", ")[2] or it.text, numbered.sub("#", it.text)), it)
                     for it in reasons)
    found = []
    for first, *others in groups.values():
        numbers = [number for it in others for number in it.numbers]
        listed = ", ".join(map(str, numbers[:MOST_LISTED])) + f" and {len(numbers) - MOST_LISTED} more" * (len(numbers) > MOST_LISTED)
        more = f"; the same of packet{'s' * (len(others) > 1)} {listed}" if others else ""
        found.append(Reason(None, first.text + more, first.packet, numbers))
    return found


def reasons_of(login: Login, nonces: list[tuple[int, str]]) -> list[Reason]:
    """What is said of a login, in the order of its packets."""
    of_places = list(of_worlds(login))
    certain = [*of_tags(login, {it.place for it in shown_tokens(login.found) if it.name in OF_MAC}), *of_repeats(login), *nonces]
    of_places += [(place, Reason(None, text, login.places[place].called)) for place, text in certain]
    ordered = [it for _, it in sorted(of_places, key=lambda it: it[0])]
    return folded([*of_missing(login), *ordered, *of_keys(login), *of_others(login)])


def ending_name(end: Frame) -> str:
    return end.read.name if end.octets else "Access-Reject"


def story_of(login: Login, nonces: Nonces, known: Container[str] = ()) -> Story:
    """What came of a login; in brief, without the reasons, where the verdict is known."""
    again = list(of_nonces(login, nonces))
    has_nonce, verdict, end = bool(again), verdict_of(login), login.end
    if has_nonce:
        verdict = verdict.replace(said("verdict Success"), said("verdict nonce"))
    if login.pmk and login.pmk.name in handshake.FAULTS:
        verdict = verdict.replace(said("verdict Success"), said(f"verdict {login.pmk.name}"))
    is_brief = verdict in known
    reasons = [] if is_brief else reasons_of(login, again)
    is_odd = verdict != said("verdict Success")
    words_found = {it.word for it in login.own} & {"tag-good", "tag-bad", "malformed"}
    failed = next((it for it in login.own if "Failure-Code" in it.read.number and it.is_down), None) if not end else end
    if end and not login.is_end_sure:
        kind, outcome = "open", said("unsure end", end=f"packet {end.number}, {ending_name(end)}")
    elif end and end.message == "Success":
        what = "wrong" if words_found & {"tag-bad", "malformed"} else "good" if words_found else "none judged"
        kind = "good" if what == "good" and not is_odd else "open"
        outcome = said("success", said=said(what))
    else:
        kind = "bad" if failed or words_found & {"tag-bad", "malformed"} else "open"
        outcome = said("failed", end=f"packet {failed.number}, {ending_name(failed)}") if failed else said("no end")
    kind = "bad" if has_nonce else kind
    return Story(kind, f"{verdict}: {login.front()}: {outcome}", reasons, login.tries, verdict=verdict, user=login.user,
                 at=login.frames[0].at, until=login.frames[-1].at, last=login.frames[-1].number, is_brief=is_brief)


def of_captures(found: Iterable[Capture], row_of: Callable[[str], Optional[Row]] = lambda _: None,
                most: Optional[int] = None) -> Iterator[tuple[Capture, Story]]:
    """What came of each login of captures, one after the other; in brief of those above a number whose verdict came before.
    Behind the last of a capture stands what was judged of all."""
    logins, known = 0, set[str]()
    last: Optional[tuple[Capture, Story]] = None
    nonces: Nonces = {}
    count = Counter[str]()
    for capture, part, more in observed.conversations(found):
        if last and last[0] is not capture:
            yield last[0], counted(last, count)
            last, nonces, count = None, {}, Counter()
        for login in worlds.of_conversation(capture, more, part):
            if last:
                yield last
            count.update(it.word for it in login.frames if it.octets)
            logins += 1
            last = capture, story_of(Login(capture, login), nonces, known if most is not None and logins > most else ())
            known.add(last[1].verdict)
            for it in last[1].reasons:
                it.row = row_of(it.packet)
    if last:
        yield last[0], counted(last, count)


def counted(last: tuple[Capture, Story], count: Counter[str]) -> Story:
    judged = count["tag-good"] + count["tag-bad"]
    last[1].facts.append(said("judged", packets=len(last[0].packets), judged=judged, wrong=count["tag-bad"]))
    return last[1]


def of_ladder(ladder: Ladder) -> Iterator[Story]:
    """What came of each login of a ladder, and why."""
    if ladder.replay:
        yield of_replay(ladder.replay, ladder.rows)
        return
    rows = {f"packet {it.number}": it for it in ladder.rows if it.number}
    yield from (story for _, story in of_captures([ladder.capture], lambda called: rows.get(called.partition(",")[0])))
