"""Captures of logins between the program's own ends, whose truth is known: `peer` and `server`, over EAPOL or in RADIUS packets of
live/radius_server, with a middle box between them that has rules, and a tap on one side of it. Time is only counted."""

from __future__ import annotations

import heapq
import itertools
import struct
import sys
from dataclasses import dataclass, field
from importlib.machinery import SourceFileLoader
from pathlib import Path
from random import Random
from types import ModuleType, SimpleNamespace
from typing import Any, Callable, Optional

sys.path += [str(Path(__file__).resolve().parent.parent / it) for it in ("tools", "live") if it not in sys.path]

import ends  # noqa: E402
import radius  # noqa: E402
from lib import packets  # noqa: E402
from lib.common import ROOT  # noqa: E402

GROUP, SWITCH, MASTER, SECRET = bytes.fromhex("0180c2000003"), bytes.fromhex("020000000001"), (b"\x0a\0\0\1", 1812), b"testing123"
START, LOGOFF = b"\1\1\0\0", b"\1\2\0\0"
SIZES = {"51": 32, "47": 16}


@dataclass
class Act:
    """What the box does to a message as it passes: to so many, from one on. Of what is forged, the octets and the way they go."""

    kind: str
    message: str
    begin: int = 1
    count: int = 1
    value: float = 0.0
    place: int = 0
    octets: bytes = b""
    is_down: bool = True


@dataclass
class Plan:
    """How a login is set up, and what happens to it."""

    rule: str
    method: str
    user: str
    peer_key: bytes
    server_key: bytes
    given_key: bytes
    rto: float
    is_strict: bool
    says_failure: bool
    acts: list[Act] = field(default_factory=list)
    peer: dict[str, str] = field(default_factory=dict)
    server: dict[str, str] = field(default_factory=dict)
    is_barred: bool = False
    is_known: bool = True
    # (over RADIUS how many proxies there are, at which hops the tap is, and behind which Request of the client the rule begins)
    proxies: int = 0
    taps: tuple[int, ...] = (0, 1, 2)
    begin: int = 99
    # (whether the access point begins again at an EAPOL-Start amid a login; of a method over TLS, which)
    heeds_starts: bool = True
    over_tls: int = 25


@dataclass(eq=False)
class Sent:
    """What somebody sent: peer, server, client (as from there) or forger, when, whether again; what came to the other end, when, and
    whether it was taken; and the numbers by which it is captured."""

    login: Login
    by: str
    is_down: bool
    octets: bytes
    message: str
    at: float
    is_again: bool = False
    arrivals: list[tuple[float, bytes, bool]] = field(default_factory=list)
    numbers: list[int] = field(default_factory=list)


@dataclass(eq=False)
class Seen:
    """What the tap saw, when, and at which hop."""

    at: float
    sent: Sent
    octets: bytes
    frame: bytes
    hop: int = 0


class Drawn:
    """The numbers of a seed in place of the system's source."""

    def __init__(self, draw: Random) -> None:
        self.draw = draw

    def token_bytes(self, count: int) -> bytes:
        return bytes(self.draw.getrandbits(8) for _ in range(count))

    def token_hex(self, count: int) -> str:
        return self.token_bytes(count).hex()

    def randbelow(self, most: int) -> int:
        return self.draw.randrange(most)


class Login:
    """A login over EAPOL, with its truth."""

    def __init__(self, plan: Plan, draw: Random, begin: float, station: int, tap: str, to_group: bool = False) -> None:
        self.plan, self.draw, self.station, self.tap = plan, draw, bytes([2, 0, 0, 0, 1, station]), tap
        self.queue: list[tuple[float, int, Callable[..., None], tuple[Any, ...]]] = []
        self.begin = self.now = begin
        self.order = itertools.count()
        self.sent: list[Sent] = []
        self.seen: list[Seen] = []
        self.passed: dict[str, int] = {}
        self.restarts: list[tuple[str, float]] = []
        self.has_given_up = self.is_lost = False
        self.server_id = draw.randrange(200)
        self.wire = draw.choice((0.0002, 0.002, 0.01))
        self.to_group = to_group
        self.end_of: dict[str, Optional[ends.End]] = {"peer": None, "server": None}
        self.turn = 0
        self.asked: Optional[ends.End] = None

    def set_ends(self, *names: str) -> None:
        """Each of these ends anew, as after a restart."""
        for name in names:
            end = self.end_of[name]
            if end:
                end.stop()
            self.end_of[name] = ends.End(name, self.settings(name))

    def settings(self, name: str) -> list[str]:
        plan, kind = self.plan, self.plan.method
        if name == "peer":
            its = {"peer-name": plan.user, "peer-server": "any", "peer-methods": kind, f"peer-psk {kind}": plan.peer_key.hex(), **plan.peer}
        else:
            its = {"server-name": "srv", "server-methods": kind, "max-retrans": "3", "first-id": str(self.server_id), **plan.server}
            may = "barred" if plan.is_barred else "allowed"
            its |= {f"user {plan.user} {kind}": f"{plan.server_key.hex()} {may}"} if plan.is_known else {}
        return [f"{key} {value}" for key, value in its.items()]

    def after(self, seconds: float, call: Callable[..., None], *given: Any) -> None:
        heapq.heappush(self.queue, (self.now + seconds, next(self.order), call, given))

    def run(self) -> None:
        self.set_ends("peer", "server")
        self.after(0.0, self.start)
        while self.queue and len(self.sent) < 200:
            self.now, _, call, given = heapq.heappop(self.queue)
            call(*given)
        for end in self.end_of.values():
            if end:
                end.stop()

    def start(self) -> None:
        if self.draw.random() < 0.4:
            self.send("peer", START, "Start")
        self.after(0.01, self.ask, self.end_of["server"])

    def ask(self, server: ends.End) -> None:
        """A server begins, if it wasn't restarted meanwhile."""
        if self.end_of["server"] is server and server.count == 0 and self.asked is not server:
            self.asked = server
            self.serve(server.start())

    # ---- The ends.

    def serve(self, turn: ends.Turn, is_again: bool = False) -> None:
        """What the server sends, and its timer."""
        server, self.turn = self.end_of["server"], self.turn + 1
        if server and turn.sends:
            self.server_id = turn.sends[1]
            self.send("server", turn.sends, packets.read(turn.sends).message, is_again)
        if server and not server.is_over():
            self.after(self.plan.rto, self.expire, self.turn, server)

    def expire(self, turn: int, server: ends.End) -> None:
        if turn != self.turn or self.end_of["server"] is not server:
            return
        found = server.tell("timeout")
        if server.is_over() and not found.sends:
            self.has_given_up = True
            if self.plan.says_failure:
                self.send("server", ends.failure(self.server_id), "Failure")
            return
        self.serve(found, True)

    def arrive(self, sent: Sent, octets: bytes) -> None:
        end = self.end_of["peer" if sent.is_down else "server"]
        if octets in (START, LOGOFF):
            if octets == START and not sent.is_down and self.sent[0] is not sent and end and self.plan.heeds_starts:
                self.server_id = (self.server_id + 1) % 256
                self.set_ends("server")
                self.after(0.001, self.ask, self.end_of["server"])
            return
        if end is None or not sent.is_down and (end.is_over() or self.asked is not end):
            sent.arrivals.append((self.now, octets, False))
            return
        before, turn = end.state, end.packet(octets)
        sent.arrivals.append((self.now, octets, turn.cause is None and (before != end.state or bool(turn.sends))))
        if sent.is_down:
            if turn.sends:
                is_again = any(it.octets == turn.sends and it.by == "peer" for it in self.sent)
                self.after(self.wire, self.send, "peer", turn.sends, packets.read(turn.sends).message, is_again)
        elif turn.cause == "BadTag" and self.plan.is_strict:
            end.stop()
            self.end_of["server"] = None
            self.send("server", ends.failure(self.server_id), "Failure")
        elif not turn.cause:
            self.after(0.0, self.serve, turn)

    # ---- What lies between.

    def send(self, by: str, octets: bytes, message: str, is_again: bool = False, is_down: Optional[bool] = None) -> None:
        down = by == "server" if is_down is None else is_down
        sent = Sent(self, by, down, octets, message, self.now, is_again)
        self.sent.append(sent)
        if by != "forger" and (self.tap == "server") == down:
            self.after(self.wire / 4, self.see, sent, octets)
        self.after(self.wire / 2, self.box, sent)

    def box(self, sent: Sent) -> None:
        out = [(0.0, self.between(sent))]
        if sent.by != "forger":
            count = self.passed[sent.message] = self.passed.get(sent.message, 0) + 1
            for act in self.plan.acts:
                if act.message == sent.message and act.begin <= count < act.begin + act.count:
                    out = self.acted(act, out)
        for late, octets in out:
            if (self.tap == "peer") == sent.is_down:
                self.after(late + self.wire / 4, self.see, sent, octets)
            self.after(late + self.wire / 2, self.arrive, sent, octets)

    def between(self, sent: Sent) -> bytes:
        """What becomes of each message at the box."""
        return sent.octets

    def acted(self, act: Act, out: list[tuple[float, bytes]]) -> list[tuple[float, bytes]]:
        """What becomes of a message at the box."""
        if act.kind == "lose":
            return []
        if act.kind == "double":
            return [*out, *((late + act.value, it) for late, it in out)]
        if act.kind == "late":
            return [(late + act.value, it) for late, it in out]
        if act.kind == "alter":
            return [(late, changed(it, act.place)) for late, it in out]
        if act.kind == "forge":
            octets = act.octets if act.octets in (START, LOGOFF) else bytes([act.octets[0], out[0][1][1]]) + act.octets[2:]
            self.after(act.value, self.send, "forger", octets, packets.read(octets).message if octets[1:2] != b"" else "", False, act.is_down)
        elif act.kind == "start":
            self.after(act.value, self.resend_start)
        elif act.kind in ("peer", "server"):
            self.after(act.value, self.restart, act.kind)
            return [] if act.place else out
        return out

    def resend_start(self) -> None:
        """The station sends an EAPOL-Start, as a supplicant does whose timer for that runs on (IEEE 802.1X startPeriod)."""
        self.send("peer", START, "Start", True)
        if self.plan.heeds_starts:
            self.restarts.append(("peer", self.now))

    def restart(self, kind: str) -> None:
        self.restarts.append((kind, self.now))
        if kind == "peer":
            self.set_ends("peer")
            self.send("peer", START, "Start")
        else:
            self.server_id = self.draw.randrange(256)
            self.set_ends("server")
            self.ask(self.end_of["server"])

    def see(self, sent: Sent, octets: bytes) -> None:
        ways = (GROUP if self.to_group else self.station) + SWITCH, (GROUP if self.to_group else SWITCH) + self.station
        eapol = octets if octets in (START, LOGOFF) else b"\1\0" + struct.pack(">H", len(octets)) + octets
        self.seen.append(Seen(self.now, sent, octets, ways[0 if sent.is_down else 1] + b"\x88\x8e" + eapol))


def changed(octets: bytes, place: int) -> bytes:
    place %= len(octets)
    return octets[:place] + bytes([octets[place] ^ 1]) + octets[place + 1 :]


# ---- In RADIUS packets.


def server_module() -> ModuleType:
    loader = SourceFileLoader("radius_server", str(ROOT / "live/radius_server"))
    module = ModuleType(loader.name)
    sys.modules[loader.name] = module
    loader.exec_module(module)
    return module


SERVER = server_module()


class Radius(Login):
    """A login whose packets an access point carries in RADIUS packets: the client sends again what isn't answered."""

    def __init__(self, plan: Plan, draw: Random, begin: float, station: int, tap: str, to_group: bool = False) -> None:
        super().__init__(plan, draw, begin, station, tap)
        self.client = (bytes([10, 0, 0, 2 + draw.randrange(3)]), 40000)
        self.carriage = radius.Radius(SECRET)
        self.state, self.identifier, self.waits = b"", 60 * station + draw.randrange(40), b""
        self.requests: list[bytes] = []

    def run(self) -> None:
        self.place = SERVER.Server.__new__(SERVER.Server)
        its = SimpleNamespace(lines=self.lines, key_of=lambda name, kind: (self.plan.server_key.hex(), not self.plan.is_barred) if self.plan.is_known
                              else None)
        words = SimpleNamespace(lose=0, repeat=0, alter=None, logins=0, login_seconds=1e9)
        self.place.__dict__.update(words=words, settings=its, secret=SECRET, faults=ends.Faults(words), radius=radius.Radius(SECRET), packets=0,
                                   logins={}, replies={}, said=set(), begun=0, ended=0, is_stopped=False, socket=self)
        said, ends.say = ends.say, lambda line: None
        SERVER.print = lambda *_, **__: None
        try:
            super().run()
        finally:
            ends.say = said
            self.place.radius.stop()
            self.carriage.stop()
            for login in self.place.logins.values():
                login.end.stop()

    def lines(self, text: str) -> list[str]:
        return [it for it in self.settings(text) if not it.startswith("first-id")]

    def start(self) -> None:
        peer = self.end_of["peer"]
        if peer:
            self.request(peer.packet(bytes([1, self.server_id, 0, 5, 1])).sends)

    def set_ends(self, *names: str) -> None:
        super().set_ends(*(it for it in names if it == "peer"))

    def request(self, eap: Optional[bytes]) -> None:
        if eap:
            self.identifier = (self.identifier + 1) % 256
            more = radius.attribute(31, self.station.hex("-").encode())
            self.waits = self.carriage.request(self.identifier, self.plan.user.encode(), self.state, eap, more)
            self.requests.append(self.waits)
            self.ask_master(self.waits, packets.read(eap).message, 1)

    def ask_master(self, packet: bytes, message: str, times: int) -> None:
        if packet == self.waits and times <= 4:
            self.send("peer", packet, message, times > 1)
            self.after(self.plan.rto, self.ask_master, packet, message, times + 1)
        elif packet == self.waits:
            self.has_given_up = True

    def sendto(self, packet: bytes, client: object) -> None:
        """What the server sends to the client."""
        eap = b"".join(radius.values(packet, 79))
        if self.plan.rule == "reject" and packet[0] != 2:
            self.answer_bare(3, packet[1])
            return
        again = any(it.octets == packet for it in self.sent)
        self.after(0.001, self.send, "server", packet, packets.read(eap).message, again)

    def answer_bare(self, code: int, identifier: int) -> None:
        """An Access-Accept or an Access-Reject without an EAP packet."""
        self.after(0.001, self.send, "server", bytes([code, identifier, 0, 20]) + bytes(16), "Reject" if code == 3 else "Accept")

    def is_active(self, identifier: int) -> bool:
        """Whether the rule has begun at the Request with this Identifier."""
        return next(at for at, it in enumerate(self.requests, 1) if it[1] == identifier) > self.plan.begin

    def between(self, sent: Sent) -> bytes:
        rule, octets = self.plan.rule, sent.octets
        if rule == ("bare-reply" if sent.is_down else "bare-request"):
            return without_authenticator(octets)
        if rule == "reject-request" and octets[0] == 11 and self.is_active(octets[1]):
            return b"\3" + octets[1:]
        return octets

    def arrive(self, sent: Sent, octets: bytes) -> None:
        rule, is_active = self.plan.rule, self.is_active(sent.octets[1])
        if sent.is_down:
            self.accept_reply(sent, octets, octets == sent.octets and rule not in UNTAKEN)
            return
        is_heard = rule not in UNHEARD and not (rule == "hop-drop" and is_active)
        sent.arrivals.append((self.now, octets, is_heard))
        if is_heard and is_active and rule in ("accept", "hop-reject"):
            self.answer_bare(2 if rule == "accept" else 3, octets[1])
        elif is_heard and is_active and rule == "forget":
            self.forget(octets)
        elif is_heard:
            self.place.hear(octets, ("10.0.0.9", self.client[1]))

    def forget(self, octets: bytes) -> None:
        """What a server makes of a State that it doesn't know."""
        if self.plan.is_strict:
            eap = b"".join(radius.values(octets, 79))
            self.sendto(self.place.radius.reply(octets, "reject", b"", ends.failure(eap[1]), b""), None)

    def accept_reply(self, sent: Sent, octets: bytes, is_taken: bool) -> None:
        is_awaited = bool(self.waits) and octets[1] == self.waits[1] and is_taken
        sent.arrivals.append((self.now, octets, is_awaited))
        peer = self.end_of["peer"]
        if is_awaited and peer:
            self.waits, self.state = b"", radius.state_of(octets)
            eap = b"".join(radius.values(octets, 79))
            turn = peer.packet(eap) if eap else ends.Turn()
            if octets[0] == 11:
                self.after(self.wire, self.request, turn.sends)

    def see(self, sent: Sent, octets: bytes) -> None:
        """What the tap sees of a packet at each of its hops, of which 0 is the client's."""
        last, rule = self.plan.proxies, self.plan.rule
        hops = [*range(last + 1)] if not sent.is_down else [*range(last, -1, -1)]
        if rule in ("hop-drop", "hop-reject") and self.is_active(octets[1]):
            hops = [0]
        elif rule == "hop-address" and sent.is_down:
            hops = [last]
        is_elsewhere = sent.is_down and rule in ("other-address", "hop-address")
        for step, hop in enumerate(hops):
            if hop in self.plan.taps:
                client, server = (PROXIES[hop - 1], 1814) if hop else self.client, (PROXIES[hop] if hop < last else MASTER[0], 1812)
                server = (b"\x0a\0\0\x63", 1812) if is_elsewhere else server
                frame = self.framed(passed_on(octets, hop), *((server, client) if sent.is_down else (client, server)))
                self.seen.append(Seen(self.now + step * self.wire / 20, sent, octets, frame, hop))

    def framed(self, octets: bytes, source: tuple[bytes, int], to: tuple[bytes, int]) -> bytes:
        udp = struct.pack(">HHHH", source[1], to[1], 8 + len(octets), 0) + octets
        ip = struct.pack(">BBHHHBBH", 0x45, 0, 20 + len(udp), 0, 0, 64, 17, 0) + source[0] + to[0]
        return SWITCH + self.station + b"\x08\0" + ip + udp


# By which rules the server takes no request, and the client no reply.
UNHEARD, UNTAKEN = ("down", "secret", "hop-secret", "bare-request"), ("other-address", "hop-address", "bare-reply", "secret-reply")
PROXIES = (b"\x0a\0\1\1", b"\x0a\0\1\2")


def without_authenticator(octets: bytes) -> bytes:
    body = b"".join(radius.attribute(*it) for it in radius.parts(octets[20:]) if it[0] != radius.MESSAGE_AUTHENTICATOR)
    return octets[:2] + struct.pack(">H", 20 + len(body)) + octets[4:20] + body


def passed_on(octets: bytes, hop: int) -> bytes:
    """A packet as a proxy passes it on: with another Identifier and authenticator, and a Proxy-State."""
    if hop == 0:
        return octets
    body = octets[20:] + radius.attribute(radius.PROXY_STATE, bytes([hop]) * 4)
    return bytes([octets[0], (octets[1] + 7 * hop) % 256]) + struct.pack(">H", 20 + len(body)) + bytes(it ^ hop for it in octets[4:20]) + body


# ---- By a method over TLS.


class Tls(Login):
    """A login by EAP-TLS or a method like it, with octets that are drawn in the place of what is encrypted; the rule says how it
    ends."""

    def set_ends(self, *names: str) -> None:
        pass

    def arrive(self, sent: Sent, octets: bytes) -> None:
        sent.arrivals.append((self.now, octets, True))

    def start(self) -> None:
        rule, kind, draw, at = self.plan.rule, self.plan.over_tls, self.draw, self.server_id
        hello = b"\x16\3\1" + draw.getrandbits(8 * 120).to_bytes(120, "big")
        its: list[tuple[int, bytes]] = [(1, b"\1"), (2, b"\1" + self.plan.user.encode()), (1, bytes([kind, 0x20])), (2, bytes([kind, 0]) + hello)]
        for more in range(draw.choice((1, 2, 3)), 0, -1):
            flags = bytes([kind, 0x40 if more > 1 else 0])
            its += [(1, flags + draw.getrandbits(8 * 1300).to_bytes(1300, "big")), (2, bytes([kind, 0]) + (hello if more == 1 else b""))]
        inner = bytes([kind, 0]) + b"\x17\3\3\0\x20" + draw.getrandbits(256).to_bytes(32, "big")
        alert = bytes([kind, 0]) + b"\x15\3\3\0\2\2" + bytes([self.plan.begin])
        if rule == "tls-silent":
            its = [*its[:5], *its[4:5] * 3]
        elif rule == "tls-alert":
            its = [*its[:-1], (2, alert), (4, b"")] if self.plan.is_strict else [*its, (1, alert), (2, bytes([kind, 0])), (4, b"")]
        else:
            its += [(1, inner), (2, inner[:-1] + b"x"), (3 if rule == "tls-good" else 4, b"")]
        for step, (code, octets) in enumerate(its):
            at += code == 1 and step > 0 and octets != its[step - 1][1]
            eap = struct.pack(">BBH", code, at % 256, 4 + len(octets)) + octets
            late = max(0, step - 4) * self.plan.rto if rule == "tls-silent" else 0.0
            self.after(0.02 * step + late, self.send, "peer" if code == 2 else "server", eap, packets.read(eap).message, rule == "tls-silent" and step > 4)
