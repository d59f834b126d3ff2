"""Scenarios that are drawn from a number."""

from __future__ import annotations

import random
import string
from dataclasses import dataclass, replace
from functools import cached_property
from typing import Sequence

from lib import replays
from lib.common import Refused, ask
from lib.words import EVENTS

ENDS = ("peer", "server")
KINDS = ("47", "51")
# Whether the peer reads Expanded Types, and whether the server sends them.
EXPANDED = (("no", "no"),) * 4 + (("yes", "yes"),) * 2 + (("yes", "no"), ("no", "yes"))


@dataclass
class Scenario:
    """The lines of its settings and of its events."""

    settings: list[str]
    events: list[str]

    @property
    def text(self) -> bytes:
        return "\n".join(["eap-scenario 2", *self.settings, "events", *self.events, "end", ""]).encode()

    def trace(self, *words: str) -> list[str]:
        lines = ask(["replay", *words], self.text)
        if lines[-1:] != ["end"]:
            raise Refused("the trace has no end")
        return lines

    def replay(self) -> replays.Replay:
        return replays.of_scenario(self.text)

    @property
    def octets(self) -> list[bytes]:
        """All packets that are sent, in their order."""
        return [bytes.fromhex(it.split(" ")[2]) for it in self.trace("names") if " octets " in it]

    @property
    def is_through(self) -> bool:
        return "mode through" in self.settings

    def all(self, keyword: str) -> list[str]:
        """What is behind this word, in each setting that begins with it."""
        return [it.split(" ", 1)[1] for it in self.settings if it.split(" ")[0] == keyword]

    def word(self, keyword: str) -> str:
        return self.all(keyword)[0]

    def having(self, **changes: str) -> Scenario:
        """The same with something else behind these words."""
        words = {it.replace("_", "-"): value for it, value in changes.items()}
        settings = [f"{front} {words.get(front, rest)}" for front, _, rest in (it.partition(" ") for it in self.settings)]
        return replace(self, settings=settings)

    def doing(self, events: Sequence[str]) -> Scenario:
        return replace(self, events=list(events))


class Draw(random.Random):
    """What is drawn from a number; the same number gives the same."""

    def is_one_of(self, many: int) -> bool:
        return self.randrange(many) == 0

    def octets(self, size: int) -> bytes:
        return bytes(self.randrange(256) for _ in range(size))

    def name(self) -> str:
        """A name that ends with a digit, so that it isn't `any`, and never becomes that."""
        return "".join(self.choices(string.ascii_lowercase, k=self.randint(1, 12))) + "7"

    def some(self, items: Sequence[str]) -> str:
        """Two items in some order, or now and then one of them."""
        return " ".join(self.sample(items, 1 + (not self.is_one_of(6))))

    def nonces(self) -> list[bytes]:
        """Six, of which one often has the first 8 or 16 octets of another, or all of them."""
        drawn = [self.octets(32) for _ in range(6)]
        at, size = self.randint(1, 5), self.choice((0, 8, 8, 16, 32))
        drawn[at] = drawn[self.randrange(at)][:size] + drawn[at][size:]
        return drawn

    def settings(self) -> list[str]:
        """Those of two ends that share keys and can have three conversations; now and then they don't suit each other."""
        peer, server, nonces, methods = self.name(), self.name(), self.nonces(), self.some(KINDS)
        keys = {"47": self.octets(16), "51": self.octets(self.randint(32, 64))}
        lines = [f"mode {self.choice(('alone', 'through'))}", f"first-id {self.choice((0, 254, self.randrange(256)))}"]
        lines += [f"max-retrans {self.randrange(5)}", f"peer-name {peer}", f"peer-server {self.choice((server, 'any'))}"]
        lines += [f"peer-methods {methods}", f"server-name {server}", f"server-methods {self.some(KINDS)}"]
        lines += [f"peer-psk {it} {keys[it].hex()}" for it in methods.split(" ")]
        lines += [f"{it}-suites {self.some('12')}" for it in ENDS]
        lines += [f"{who}-expanded {it}" for who, it in zip(ENDS, self.choice(EXPANDED))]
        lines += [f"{who}-nonce {it.hex()}" for who, its in zip(ENDS, (nonces[::2], nonces[1::2])) for it in its]
        for kind, key in keys.items():
            known = self.octets(len(key)) if self.is_one_of(16) else key
            lines.append(f"user {peer} {kind} {known.hex()} {self.choice(('allowed', 'allowed', 'allowed', 'allowed', 'barred'))}")
        return lines

    def packet(self) -> bytes:
        """Octets that often are a packet, of any Type."""
        data = bytes([self.choice((1, 2, 3, 4, 47, 51, 254, self.randrange(256)))]) + self.octets(self.randrange(12))
        code = self.choice((1, 1, 1, 2, 2, 3, 4, 5))
        length = 4 if code in (3, 4) else 4 + len(data) + self.choice((0, 0, 0, 0, 1, -1))
        return bytes([code, self.randrange(256)]) + length.to_bytes(2, "big") + data[: self.choice((20, 20, 20, 1))]

    def noise(self, number: int, is_through: bool, is_wild: bool) -> str:
        """An event beside the delivery of this packet. What isn't wild looks at no octet behind the Type."""
        near, timer = self.randint(max(1, number - 2), number + 1), "pass" if is_through else "server"
        kinds = [f"deliver {near}", f"cut {near} {self.randrange(60)}", "deliver 1000000", "restart peer", "restart server"]
        kinds += [f"alter {near} {self.choice((0, 2, 3, 4))} {1 << self.randrange(8)}", *[f"timeout {timer}"] * 2]
        kinds.append(self.choice(("restart pass", "timeout pass", *(it.keyword for it in EVENTS if not it.fields))))
        if is_wild:
            port = self.choice(("peer", "server", "pass-peer", "pass-server") if is_through else ENDS)
            kinds += [f"alter {near} {self.randrange(70)} {self.randint(1, 255)}"] * 4 + [f"inject {port} {self.packet().hex()}"] * 4
        return self.choice(kinds)

    def noisy(self, is_wild: bool) -> Scenario:
        """All packets are delivered in their order, with noise between; few are lost."""
        base, events = Scenario(self.settings(), []), list[str]()
        for number in range(1, 23 if base.is_through else 17):
            events += [self.noise(number, base.is_through, is_wild) for _ in range(2) if self.is_one_of(7)]
            events += [f"deliver {number}"] * (not self.is_one_of(60))
        return base.doing(events)

    @cached_property
    def smooth(self) -> Scenario:
        """All packets are delivered in their order."""
        return Scenario(self.settings(), [f"deliver {it}" for it in range(1, 20)])

    @cached_property
    def plain(self) -> Scenario:
        return self.noisy(is_wild=False)

    @cached_property
    def wild(self) -> Scenario:
        return self.noisy(is_wild=True)
