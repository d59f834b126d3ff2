"""What the scripts in Python read of packets, files and RADIUS packets that are drawn, beside what the program reads of them, whose
readers are proved. READERS_SEED names another number to draw from, READERS_COUNT how many packets."""

from __future__ import annotations

import hashlib
import io
import os
import re
import sys
from pathlib import Path
from random import Random
from typing import Iterator, Optional

from cases.fields import parts_of
from cases.lib import wire
from cases.lib.small import Run, holds
from lib import captures, frames, inputs, ladder, macs, packets, refusals, replays
from lib.common import answer

sys.path.append("live")
import ends  # noqa: E402
import login_keys  # noqa: E402
import radius  # noqa: E402

SEED, COUNT = int(os.environ.get("READERS_SEED", "1")), int(os.environ.get("READERS_COUNT", "1500"))
KEY = "000102030405060708090a0b0c0d0e0f101112131415161718191a1b1c1d1e1f"


# ---- What is drawn.


class Stream:
    """The octets that `bulk N K` draws (docs/TEXTS.md)."""

    def __init__(self, number: int) -> None:
        self.at = number

    def octet(self) -> int:
        self.at = (1664525 * self.at + 1013904223) % 2**32
        return self.at >> 24

    def octets(self) -> str:
        return bytes(self.octet() for _ in range(32)).hex()


def run_of(settings: str, events: list[str]) -> list[str]:
    return answer(["replay", "names"], "\n".join([settings, *events, "end", ""]).encode())[1]


def sent_in(trace: list[str]) -> list[bytes]:
    return [bytes.fromhex(it.split(" ")[2]) for it in trace if re.match(r"\d+ octets ", it)]


def bulk_events(number: int) -> tuple[str, list[str]]:
    """The settings and the events of the first conversation of `bulk N`, for an even N."""
    draw = Stream(number)
    nonces = draw.octets(), draw.octets()
    settings = Path("cases/settings").read_text().strip().replace("11" * 32, nonces[0]).replace("22" * 32, nonces[1])
    settings = settings.replace(KEY, draw.octets())
    events: list[str] = []
    for _ in range(40):
        one, other = draw.octet() % 8, draw.octet()
        sent = sent_in(run_of(settings, events))
        last = len(sent)
        events += {0: ["timeout server"], 1: [f"deliver {1 + other % last}"], 3: [],
                   2: [f"alter {last} {other % len(sent[-1])} 1"]}.get(one, [f"deliver {last}"])
    return settings, events


def disturbed(draw: Random, kept: list[bytes], count: int) -> Iterator[bytes]:
    """Packets as c/fuzz.c disturbs them: as they are, with a bit altered, cut, padded, made up with the right Length."""
    for _ in range(count):
        packet, way = draw.choice(kept), draw.randrange(5)
        if way == 1:
            at = draw.randrange(len(packet))
            packet = packet[:at] + bytes([packet[at] ^ 1 << draw.randrange(8)]) + packet[at + 1 :]
        elif way == 2:
            packet = packet[: draw.randrange(len(packet) + 1)]
        elif way == 3:
            packet += draw.randbytes(draw.choice([1, 2, 4, 16]))
            packet = packet[:2] + len(packet).to_bytes(2, "big") + packet[4:] if draw.randrange(2) else packet
        elif way == 4:
            size = 1500 if draw.randrange(8) == 0 else 4 + draw.randrange(60)
            kind = draw.choice([1, 2, 3, 47, 51, draw.randrange(253)])
            packet = bytes([draw.randrange(6), draw.randrange(256)]) + size.to_bytes(2, "big") + bytes([kind]) + draw.randbytes(size)
            packet = packet[:size]
        yield packet


def packets_drawn() -> list[bytes]:
    """Those that are sent and delivered in a conversation of `bulk`, and those of the examples, disturbed."""
    draw = Random(SEED)
    settings, events = bulk_events(2 * draw.randrange(500000))
    kept = sent_in(run_of(settings, events))
    for name in ("gpsk-suite2", "psk-login", "barred", "expanded"):
        kept += sent_in(Path(f"examples/{name}.names").read_text().splitlines()) if Path(f"examples/{name}.names").exists() else []
    # (what Type 254 holds of another vendor isn't judged)
    return [it for it in disturbed(draw, kept, COUNT) if it[4:5] != b"\xfe"]


# ---- Beside the program.


def case_bulk(_: Run) -> Iterator[Optional[str]]:
    """`bulk` counts what `replay` makes of the conversation that its number says."""
    for number in (2 * Random(SEED + at).randrange(500000) for at in range(2)):
        settings, events = bulk_events(number)
        trace = run_of(settings, events)
        found = dict(it.split(" ") for it in answer(["bulk", str(number), "1"], b"")[1][:-1] if it.count(" ") == 1)
        counted = dict(it.split(" ") for it in trace if it.startswith(("deliveries ", "discards ")))
        result = next(it.split(" ")[1] for it in trace if it.startswith("result "))
        same = {it: found.get(it) == counted[it] for it in counted}
        yield holds(all(same.values()) and found.get(result) == "1", f"bulk {number} 1 counts {found}, and replay {counted}, {result}")


def case_packets(run: Run) -> Iterator[Optional[str]]:
    """Code, Identifier, Type and message are those of `decode`, the fields are the packet, and something is wrong with it exactly
    where `decode` says so."""
    drawn = packets_drawn()
    found = list(parts_of(run(["decode-fields"], "".join(f"{it.hex() or '-'}\n" for it in drawn).encode())[1]))
    yield holds(len(found) == len(drawn) > COUNT // 2, f"{len(found)} packets are told of {len(drawn)}")
    for packet, (line, fields, is_wrong) in zip(drawn, found):
        said = re.fullmatch(r"\d+ (?:malformed \w+|(\w+) (\d+) (?:type (\d+) )?length (\d+) padding (\d+)(.*))", line)
        read = dict(fields)
        if not said or not said[1]:
            fault = None if said and is_wrong else "is malformed"
        else:
            told = ({"1": "request", "2": "response", "3": "success", "4": "failure"}.get(str(int(read["Code"], 16))),
                    *(str(int(read[it], 16)) if it in read else None for it in ("Identifier", "Type", "Length")))
            padding = str(len(read.get("(padding)", "")) // 2)
            is_shape = re.search("Shape|ListTooLong", said[6]) is not None
            fault = None if told == said.group(1, 2, 3, 4) and padding == said[5] and is_shape == is_wrong else f"{told}"
        fault = fault or (None if "".join(it for _, it in fields) == packet.hex() else "other octets")
        yield fault and f"{packet.hex()[:80]}: decode says {line}: {fault}"


def case_files(_: Run) -> Iterator[Optional[str]]:
    """The packets of a file are those that `pcap` judges, and of a record that it takes for cut or passes over there is none."""
    draw = Random(SEED)
    for order in "<>":
        items = [(100.0 + at, frame) for at, it in enumerate(packets_drawn()[:300]) for frame in [drawn_frame(draw, it)]]
        octets = wire.pcap(items, order=order)
        lines = [it.split(" ", 1) for it in answer(["pcap", "alice", "51", KEY], octets)[1][:-1]]
        cut = {int(number) for number, finding in lines if finding == "eapol-cut"}
        wanted = {int(number): finding for number, finding in lines if finding != "eapol-cut"}
        found, there = {}, set()
        for capture in [captures.of_pcap(octets)[0]]:
            there = {number for number, *_ in capture.cut}
            text = captures.text_of(capture.packets, [("alice", "51", KEY)])
            for number, line in zip(capture.packets.numbers, answer(["check"], text.encode())[1]):
                found[number] = line.split(" ", 1)[1]
        yield holds(found == wanted, f"other packets in a file: {sorted(set(found.items()) ^ set(wanted.items()))[:3]}")
        yield holds(there == cut, f"other records are cut: {sorted(there ^ cut)[:5]}")


def drawn_frame(draw: Random, packet: bytes) -> bytes:
    """A frame of two stations alone: with an EAP packet, padded or cut, or of another type."""
    frame = frames.frame_of(packet, packet[:1] != b"\2") if packet else wire.framed(packet)
    way = draw.randrange(8)
    return frame[: draw.randrange(14, len(frame))] if way == 0 else frame + bytes(3) if way == 1 else frame


def case_radius(_: Run) -> Iterator[Optional[str]]:
    """The EAP packet of a RADIUS packet whose EAP-Messages are of any sizes is the one that `radius` reads; and so is a packet that the
    scripts of live/ write, with the attributes that they read again."""
    draw, lines, wanted = Random(SEED), ["eap-radius 1", "secret 00"], []
    for packet in [it for it in packets_drawn() if it][:200]:
        octets = radius_around(draw, packet)
        lines.append(f"read {octets.hex()}")
        wanted.append(frames.Radius((b"", 0), (b"", 0), octets).eap)
    told = [it.split(" ") for it in answer(["radius"], "\n".join([*lines, "end", ""]).encode())[1]]
    wrong = [it for it, eap in zip(told, wanted) if len(it) < 7 or it[5] != eap.hex()]
    yield holds(len(told) == len(wanted) and not wrong, f"another EAP packet: {wrong[:1]}")


def radius_around(draw: Random, packet: bytes) -> bytes:
    body = radius.attribute(1, b"alice")
    while packet:
        size = draw.randrange(1, 254)
        body, packet = body + radius.attribute(79, packet[:size]), packet[size:]
    body += radius.attribute(80, bytes(16)) + radius.attribute(radius.PROXY_STATE, draw.randbytes(3))
    return bytes([1, 7]) + (20 + len(body)).to_bytes(2, "big") + draw.randbytes(16) + body + draw.randbytes(draw.randrange(3))


# ---- What no word of the program reads.


def case_stations(_: Run) -> Iterator[Optional[str]]:
    """The station is who sends EAPOL-Start and Responses, or whom the RADIUS client calls so."""
    good = wire.Login()
    for items in ([wire.START] * 3 + [good.asked], good.whole):
        found = captures.of_file(io.BytesIO(wire.pcap(wire.frames_of(items))))[0]
        yield holds([it.station for it in found] == [wire.STATION.hex("-")], f"other stations: {[it.station for it in found]}")
    called = captures.of_pcap(wire.pcap(wire.frames_of(wire.by_radius(good.whole[1:]))))
    yield holds([it.station for it in called] == [wire.STATION.hex("-")], f"other stations of RADIUS: {[it.station for it in called]}")


def case_users(_: Run) -> Iterator[Optional[str]]:
    """A key that stands alone is that of the first 16 users whom the packets name."""
    capture = captures.Capture(captures.Packets())
    for at in range(20):
        capture.packets.append(at + 1, False, wire.Login(user=b"user%d" % at).gpsk2, captures.NONE)
    inputs.give_users(capture, [], KEY)
    yield holds(capture.users == [(f"user{at}", "51", KEY) for at in range(16)], f"other users: {len(capture.users)}")


def case_macs(_: Run) -> Iterator[Optional[str]]:
    """Of a wrong MAC of suite 2 the one received is told, and the one that HMAC-SHA256 gives under the key."""
    good, bad = wire.Login(), wire.Login(psk=wire.OTHER_KEY)
    for octets, right, before in ((bad.gpsk2, good.gpsk2, []), (bad.gpsk3, good.gpsk3, [packets.read(good.gpsk2)])):
        told = macs.told(octets, packets.read(octets), before, KEY)
        wanted = f"received {octets[-32:].hex()}, computed {right[-32:].hex()} "
        yield holds(told.startswith(wanted), f"another MAC is told: {told}")


def case_right_macs(_: Run) -> Iterator[Optional[str]]:
    """Nothing is told of a MAC that is right: those of both methods, as the program makes them."""
    for name, key in (("gpsk-login", KEY), ("gpsk-suite2", KEY), ("psk-login", KEY[:32])):
        sent = sent_in(Path(f"examples/{name}.names").read_text().splitlines())
        before = [packets.read(it) for it in sent]
        told = [macs.told(octets, message, before[:at], key) for at, (octets, message) in enumerate(zip(sent, before))]
        yield holds(not any(told), f"{name}: a right MAC is told of: {told}")


def case_scenarios(_: Run) -> Iterator[Optional[str]]:
    """What comes of a packet that is altered or cut, and the users and packets of the capture of a scenario, or of a text."""
    events = ["deliver 1", "deliver 2", "deliver 3", "alter 4 10 3", "cut 4 7", "end"]
    replay = replays.of_scenario("\n".join([Path("cases/settings").read_text().strip(), *events, ""]).encode())
    whole, altered, cut = (replay.events[at] for at in (3, 4, 5))
    sent = whole.sent[0].octets or b""
    yield holds(altered.octets == sent[:10] + bytes([sent[10] ^ 3]) + sent[11:], "another octet is altered")
    yield holds(cut.octets == sent[:7], "a packet is cut elsewhere")
    users = ladder.of_a_replay(replay).capture.users
    yield holds(users == [("alice", "51", KEY), ("alice", "47", KEY[:32])], f"other users: {users}")
    text = Path("examples/login.capture").read_text()
    again = captures.of_capture(text.encode()).text()
    yield holds([it for it in again.splitlines() if it[0] in "<>u"] == [it for it in text.splitlines() if it[0] in "<>u"], "another text")


def case_frames(_: Run) -> Iterator[Optional[str]]:
    """To whom and from whom a frame of IEEE 802.11 goes (table 9-30); the times of a file, in micro- and nanoseconds."""
    one, two, three = (bytes([it]) * 6 for it in (2, 4, 6))
    for flags, wanted in ((0, (one, two)), (1, (three, two)), (2, (one, three))):
        frame = bytes([8, flags, 0, 0]) + one + two + three + bytes(2) + bytes.fromhex("aaaa03000000888e") + bytes(8)
        yield holds(frames.of_wifi(frame)[:2] == wanted, f"other addresses of the flags {flags}")
    for magic in (0xA1B2C3D4, 0xA1B23C4D):
        for order in "<>":
            file = io.BytesIO(wire.pcap([(100.25, wire.framed(wire.START))], magic=magic, order=order))
            yield holds([it.at for it in frames.of_file(file)[1]] == [100.25], f"other times: {magic:x} {order}")


def case_words(_: Run) -> Iterator[Optional[str]]:
    """A mark of the order of octets before a text, which editors write, and hex as other tools write it."""
    yield holds(inputs.form_of(b"\xef\xbb\xbfeap-scenario 1\n") == "replay", "a mark before a scenario isn't passed over")
    for word, told in (("0x00", "begins with 0x"), ("0X00", "begins with 0x"), ("00:01", "colons"), ("000", "3 digits"), ("0001", "")):
        yield holds(refusals.is_of_hex(word) == told or told and told in refusals.is_of_hex(word), f"{word}: {refusals.is_of_hex(word)}")


def case_ends(_: Run) -> Iterator[Optional[str]]:
    """Of which end a text is, is said by any of its settings."""
    for keyword in ("user", "first-id", "max-retrans", "server-name"):
        yield holds(replays.end_of([["eap-end", "1"], [keyword, "x"]]) == "server", f"{keyword} is taken for the peer's")
    yield holds(replays.end_of([["peer-name", "x"]]) == "peer", "peer-name is taken for the server's")


# ---- What live/ writes.


def case_attributes(_: Run) -> Iterator[Optional[str]]:
    """`radius` finds good what the scripts have added to, and its attributes are read again in their order; a reply has the
    Proxy-States of its request (RFC 2865 section 5.33), and the link keys, which no other secret opens."""
    draw = Random(SEED)
    for _ in range(5):
        secret, msk, states = draw.randbytes(8), draw.randbytes(64), [draw.randbytes(size) for size in (1, 9, 2)]
        at = radius.Radius(secret)
        more = b"".join(radius.attribute(radius.PROXY_STATE, it) for it in states)
        asked = at.request(9, b"alice", b"state", wire.Login().named, more)
        yield holds(at.read(asked, "request").fault == "", "a request with more attributes isn't good")
        yield holds(at.read(asked, "accept").fault != "", "a request is taken for an Access-Accept")
        keys = radius.link_keys(secret, asked[4:20], msk)
        reply = at.reply(asked, "accept", b"", wire.Login().success, keys)
        yield holds(at.read(reply, "accept").fault == "", "a reply with more attributes isn't good")
        yield holds(radius.values(reply, radius.PROXY_STATE) == states, "a reply has other Proxy-States")
        yield holds(radius.state_of(asked) == b"state" and radius.state_of(reply) == b"", "another State")
        yield holds(radius.link_of(secret, asked[4:20], reply) == msk, "other link keys are opened")
        yield holds(radius.link_of(secret + b"x", asked[4:20], reply) != msk, "another secret opens the link keys")
        yield holds(radius.link_of(secret, asked[4:20], asked) is None, "a packet without link keys has some")
        at.stop()


def case_link_keys(_: Run) -> Iterator[Optional[str]]:
    """RFC 2548 section 2.4: the vendor 311, the types 17 and then 16, salts that begin with a one bit and differ, and a key of 32
    octets behind its length, in whole blocks that are hidden by MD5."""
    draw = Random(SEED)
    for _ in range(20):
        secret, asked, msk = draw.randbytes(8), draw.randbytes(16), draw.randbytes(64)
        octets = radius.link_keys(secret, asked, msk)
        parts = [octets[:58], octets[58:]]
        yield holds([it[:8].hex() for it in parts] == ["1a3a000001371134", "1a3a000001371034"], f"other heads: {octets.hex()}")
        salts = [it[8:10] for it in parts]
        yield holds(salts[0] != salts[1] and all(it[0] & 0x80 for it in salts), f"other salts: {salts}")
        opened = [opened_by_md5(secret, asked + it[8:10], it[10:]) for it in parts]
        yield holds(opened == [b"\x20" + msk[:32] + bytes(15), b"\x20" + msk[32:] + bytes(15)], "another key is sealed")
    for plain in (b"\x0f" + bytes(14), b"\x10" + bytes(15), b""):
        sealed = radius.combined(b"secret", b"front", plain, False)
        yield holds(radius.opened(b"secret", b"front", sealed) == b"", f"{plain.hex()} is opened, and holds no key")


def opened_by_md5(secret: bytes, front: bytes, sealed: bytes) -> bytes:
    plain = b""
    for at in range(0, len(sealed), 16):
        hides = hashlib.md5(secret + (front if at == 0 else sealed[at - 16 : at])).digest()
        plain += bytes(one ^ other for one, other in zip(sealed[at:], hides))
    return plain


def case_msk(_: Run) -> Iterator[Optional[str]]:
    """The MSK that is made of a login's packets has the name that both ends tell; of a message with a wrong part none is made."""
    for name, key in (("gpsk-login", KEY), ("gpsk-suite2", KEY), ("psk-login", KEY[:32])):
        text = Path(f"examples/{name}.names").read_text()
        claims = [it for packet in sent_in(text.splitlines()) for it in [login_keys.claim_of(packet)] if it]
        told = re.findall(r"msk (\w+) ", text)[0]
        yield holds(len(claims) == 1 and claims[0].user == "alice", f"{name}: other claims: {[it.name for it in claims]}")
        yield holds(login_keys.name_of(login_keys.msk_of(claims[0], key, told)) == told, f"{name}: another MSK")
        try:
            yield holds(not login_keys.msk_of(claims[0], key, "0" * 16), f"{name}: an MSK of another name is taken")
        except ends.Failed:
            yield None
