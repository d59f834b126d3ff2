#!/usr/bin/env python3
"""Computes every packet, every key's name, the verdicts and the counts of the files NAME.names anew, with hashlib, hmac and
cryptography alone.

examples/check runs it, and dev/relations on runs that it draws. A packet is computed from the settings of the scenario, from
which message it is, from the nonce of its end's conversation and from what that end heard in it; a tag under the key of the
end that made it, or accepted it. It knows nothing of the program's code; tools/lib reads the events.
"""
import hashlib, hmac, struct, sys
from pathlib import Path

from cryptography.hazmat.primitives.ciphers import Cipher, algorithms, modes
from cryptography.hazmat.primitives.cmac import CMAC

sys.path.append(str(Path(__file__).resolve().parent.parent / "tools"))

from lib.replays import bring, parts_of, tell

# Before the Vendor-Type of a Type of the IETF.
EXPANDED = b"\xfe" + bytes(6)


def aes(key, block):
    it = Cipher(algorithms.AES(key), modes.ECB()).encryptor()
    return it.update(block) + it.finalize()


def cmac(key, text):
    it = CMAC(algorithms.AES(key))
    it.update(text)
    return it.finalize()


def mixed(one, other):
    return bytes(a ^ b for a, b in zip(one, other))


def eax(key, nonce, header, text):
    """EAX: the tag, and the ciphertext."""
    omac = lambda t, octets: cmac(key, bytes(15) + bytes([t]) + octets)
    start = omac(0, nonce)
    cipher = Cipher(algorithms.AES(key), modes.CTR(start)).encryptor().update(text)
    return mixed(mixed(start, omac(1, header)), omac(2, cipher)), cipher


def sized(it):
    return struct.pack(">H", len(it)) + it


def suite(number):
    return bytes([0, 0, 0, 0, 0, number])


def mac_of(number, key, text):
    return cmac(key, text) if number == 1 else hmac.digest(key, text, "sha256")


def gkdf(number, size, key, text):
    made, at = b"", 1
    while len(made) < size:
        made, at = made + mac_of(number, key, struct.pack(">H", at) + text), at + 1
    return made[:size]


def gpsk_keys(number, psk, nonce_p, id_p, nonce_s, id_s):
    size = 16 if number == 1 else 32
    given = nonce_p + id_p + nonce_s + id_s
    mk = gkdf(number, size, psk[:size], sized(psk) + suite(number) + given)
    made = gkdf(number, 160, mk, given)
    pk = made[128 + size :] if number == 1 else b""
    return {"mk": mk, "msk": made[:64], "emsk": made[64:128], "sk": made[128 : 128 + size], "pk": pk}


def psk_keys(psk, nonce_p):
    number = lambda it: bytes(15) + bytes([it])
    first = aes(psk, bytes(16))
    ak, kdk = aes(psk, mixed(first, number(1))), aes(psk, mixed(first, number(2)))
    start = aes(kdk, nonce_p)
    block = lambda it: aes(kdk, mixed(start, number(it)))
    return {"ak": ak, "kdk": kdk, "tek": block(1), "msk": b"".join(map(block, range(2, 6))), "emsk": b"".join(map(block, range(6, 10)))}


def name_of(key):
    return hashlib.sha256(b"eap-key-name\0" + key).digest()[:8].hex()


def packet(code, number, data):
    return bytes([code, number]) + struct.pack(">H", 4 + len(data)) + data


def plain(given):
    """The packet of the Type inside one of Type 254; any other as it is."""
    return packet(given[0], given[1], given[11:]) if given[4:11] == EXPANDED and len(given) > 11 else given


def parts(octets, *sizes):
    """Parts of these sizes, one behind the other; 0 is for one behind its length in two octets."""
    for size in sizes:
        if size == 0:
            size, octets = int.from_bytes(octets[:2], "big"), octets[2:]
        yield octets[:size]
        octets = octets[size:]


def channel_of(given, at, tek):
    """PCHANNEL at its place in a packet: what its tag covers, the tag, and what it should be."""
    nonce, tag, cipher = bytes(12) + given[at : at + 4], given[at + 4 : at + 20], given[at + 20 :]
    result = eax(tek, nonce, given[:22], cipher)[1]
    return nonce + given[:22] + cipher, tag, eax(tek, nonce, given[:22], result)[0]


class Scenario:
    def __init__(self, text):
        self.version = int(text.split()[1])
        settings, self.events = parts_of(text)
        self.said = {it[0]: it[1:] for it in settings}
        self.keys = {("peer", *it[1:-1]): bytes.fromhex(it[-1]) for it in settings if it[0] == "peer-psk"}
        self.keys.update({tuple(it[1:3]): bytes.fromhex(it[3]) for it in settings if it[0] == "user"})
        self.barred = [tuple(it[1:3]) for it in settings if it[0] == "user" and it[4] == "barred"]
        self.id_p, self.id_s = (self.said[it][0].encode() for it in ("peer-name", "server-name"))
        self.nonces = {who: [bytes.fromhex(it[1]) for it in settings if it[0] == f"{who}-nonce"] for who in ("peer", "server")}
        self.expanded = {who: self.said.get(f"{who}-expanded") == ["yes"] for who in ("peer", "server")}

    def suites(self, who):
        return [suite(int(it)) for it in self.said.get(f"{who}-suites", ["1", "2"])]


class End:
    """An end in one of its conversations: its own nonce, what it heard of the other end's, of names and of the suites, and
    what it reports."""

    def __init__(self, who, nonce, scenario):
        self.who, self.own, self.scenario, self.id_p, self.id_s = who, nonce, scenario, scenario.id_p, scenario.id_s
        self.other = self.kind = self.heard = self.suite = self.report = None
        self.asked_expanded = False  # whether the peer's last Request is of Type 254

    def nonces(self):
        """Those of the peer and of the server."""
        return (self.own, self.other) if self.who == "peer" else (self.other, self.own)

    def key(self, kind):
        """The key of the end for a method, if it has one."""
        return self.scenario.keys.get(("peer" if self.who == "peer" else self.id_p.decode("latin-1"), kind))

    def keys(self, kind):
        """The keys that the end derives by a method."""
        nonce_p, nonce_s = self.nonces()
        if kind == 47:
            return psk_keys(self.key("47"), nonce_p[:16])
        return gpsk_keys(self.suite, self.key("51"), nonce_p, self.id_p, nonce_s, self.id_s)

    def read(self, given):
        """A packet as the end reads it: without padding (RFC 3748 section 4.1), and in its plain form."""
        given = given[: int.from_bytes(given[2:4], "big")]
        return plain(given) if self.scenario.expanded[self.who] else given

    def hear(self, given):
        """Takes names, the suite and the other end's nonce from the first message of a method that has them."""
        self.asked_expanded, given = self.scenario.expanded[self.who] and given[0] == 1 and given[4] == 254, self.read(given)
        if len(given) < 6:
            return
        message = (self.who, given[0], given[4], given[5] if given[4] == 51 else given[5] >> 6)
        if message == ("peer", 1, 51, 1):
            self.id_s, self.other, self.heard = parts(given[6:], 0, 32, 0)
            listed = parts(self.heard, *[6] * (len(self.heard) // 6))
            self.suite = next((it[5] for it in listed if it in self.scenario.suites("peer")), None)
        elif message == ("server", 2, 51, 2):
            self.id_p, _, self.other, _, _, chosen = parts(given[6:], 0, 0, 32, 32, 0, 6)
            self.suite = chosen[5]
        elif message == ("peer", 1, 47, 0):
            self.other, self.id_s = given[6:22], given[22:]
        elif message == ("server", 2, 47, 1):
            self.other, self.id_p = given[22:38], given[54:]
        else:
            return
        self.kind = given[4]

    def gpsk(self, op):
        """The Type-Data of a message of EAP-GPSK, by its OP-Code, with the tag of this end."""
        it = self.scenario
        if op == 1:
            return bytes([op]) + sized(it.id_s) + self.own + sized(b"".join(it.suites("server")))
        if op == 5:
            return bytes([op]) + struct.pack(">I", 1)
        nonces = b"".join(self.nonces())
        if op == 2:
            body = sized(it.id_p) + sized(self.id_s) + nonces + sized(self.heard) + suite(self.suite) + sized(b"")
        elif op == 3:
            body = nonces + sized(it.id_s) + suite(self.suite) + sized(b"")
        elif op == 4:
            body = sized(b"")
        else:
            assert op == 6 and (self.id_p.decode(), "51") in it.barred
            body = struct.pack(">I", 3)
        return bytes([op]) + body + mac_of(self.suite, self.keys(51)["sk"], body)

    def psk(self, kind, code, number):
        """The Type-Data of a message of EAP-PSK, by the two high bits of Flags."""
        if kind == 0:
            return bytes(1) + self.own[:16] + self.id_s
        nonce_p, nonce_s = (nonce[:16] for nonce in self.nonces())
        keys = self.keys(47)
        body = bytes([kind << 6]) + nonce_s
        if kind == 1:
            return body + nonce_p + cmac(keys["ak"], self.id_p + self.id_s + nonce_s + nonce_p) + self.id_p
        if kind == 2:
            body += cmac(keys["ak"], self.id_s + nonce_p)
        place, result = struct.pack(">I", kind - 2), 0xC0 if self.is_barred("47") else 0x80
        header = packet(code, number, b"\x2f" + body + bytes(21))[:22]
        tag, cipher = eax(keys["tek"], bytes(12) + place, header, bytes([result]))
        return body + place + tag + cipher

    def is_barred(self, kind):
        return (self.id_p.decode("latin-1"), kind) in self.scenario.barred

    def data(self, code, number, kind, first):
        """The Type-Data of a packet, told which one it is by its code, Identifier, Type and kind of message alone."""
        if kind == 51:
            return self.gpsk(first)
        if kind == 47:
            return self.psk(first >> 6, code, number)
        # (RFC 3748 section 5.2: a Notification's Response has no Type-Data)
        desired = bytes(int(it) for it in self.scenario.said["peer-methods"] if it != "-") or b"\0"
        return {1: self.scenario.id_p, 2: b"", 3: desired}[kind] if code == 2 else b""

    def computed(self, given):
        """What the packet should be."""
        code, number, kind, first = (*given[:2], *plain(given)[4:6].ljust(2, b"\0"))
        if code > 2:
            return packet(code, number, b"")
        data = self.data(code, number, kind, first)
        if self.asked_expanded if self.who == "peer" else self.scenario.expanded["server"] and kind != 1:
            entries = b"".join(EXPANDED + bytes([it]) for it in data)
            return packet(code, number, EXPANDED + bytes([kind]) + (entries if kind == 3 else data))
        return packet(code, number, bytes([kind]) + data)

    def tags(self, given):
        """The tags of a message that the end makes or accepts: label, what is covered, the tag, and what it should be."""
        given = self.read(given)
        kind, first = given[4:6].ljust(2, b"\0")
        if not self.key(str(kind)):
            return []
        if kind == 51 and first in (2, 3, 4, 6):
            size = 16 if self.suite == 1 else 32
            return [("sk", given[6:-size], given[-size:], mac_of(self.suite, self.keys(51)["sk"], given[6:-size]))]
        if kind == 47 and first >> 6 == 1:
            text = self.id_p + self.id_s + given[6:38]
            return [("ak", text, given[38:54], cmac(self.keys(47)["ak"], text))]
        if kind == 47 and first >> 6 == 2:
            text = self.id_s + self.nonces()[0][:16]
            return [("ak", text, given[22:38], cmac(self.keys(47)["ak"], text)), ("tek", *channel_of(given, 38, self.keys(47)["tek"]))]
        return [("tek", *channel_of(given, 22, self.keys(47)["tek"]))] if kind == 47 and first >> 6 == 3 else []

    def reports(self):
        """The names of its keys; they and what they were derived for are its report."""
        keys = self.keys(self.kind)
        names = [name_of(keys[it]) for it in ("msk", "emsk")]
        ids = [it.decode("latin-1") for it in (self.id_p, self.id_s)]
        self.report = (str(self.kind), *ids, self.suite if self.kind == 51 else 0, names)
        return names


def agrees(scenario, report):
    """Whether both policies allow what is reported."""
    kind, id_p, id_s, number, _ = report
    said = scenario.said
    return (
        all(kind in said[it] for it in ("peer-methods", "server-methods"))
        and said["peer-server"][0] in ("any", id_s)
        and (kind == "47" or all(suite(number) in scenario.suites(it) for it in ("peer", "server")))
        and (id_p, kind) in scenario.keys
        and (id_p, kind) not in scenario.barred
    )


class Run:
    """A run of a scenario along its trace: where both ends are, what was sent, what was delivered, and the book of tags."""

    def __init__(self, text, trace):
        self.scenario, self.sent, self.heard, self.fronts, self.ends = Scenario(text), {}, [], [], {}
        self.last, self.made = {}, []
        self.packets = self.names = self.tags = 0
        self.wrong, self.fresh, self.honest = [], "yes", "honest"
        for words in trace:
            if words[0].isdigit():
                tell(self.scenario.events[int(words[0])], words[1:])
        for who in self.scenario.nonces:
            self.begins(who)
        for event in self.scenario.events:
            if not event.skip:
                self.happens(event)
        states = {words[1]: words[2] for words in trace if words[0] == "state"}
        last = [words for words in trace if not words[0].isdigit() and words[0] not in ("eap-trace", "state", "end")]
        self.judge("end", [" ".join(words) for words in last], self.verdicts(states))

    def begins(self, who):
        nonce = self.scenario.nonces[who].pop(0)
        if nonce[:16] in self.fronts or any(nonce[:16] in given for given in self.heard):
            self.fresh = "no"
        self.fronts.append(nonce[:16])
        self.ends[who] = End(who, nonce, self.scenario)

    def happens(self, event):
        """What an event brings is heard; what was told of it is judged."""
        bring(event, self.sent)
        states = {state for _, entered in event.acts for state in entered}
        is_again = bool(states & {"RETRANSMIT", "RETRANSMIT2"})
        if event.words[0] == "restart" and event.words[1] in self.ends:
            self.begins(event.words[1])
        if event.port:
            self.heard.append(event.octets)
        if event.port in self.ends and not event.cause and not is_again:
            self.ends[event.port].hear(event.octets)
            if states & {"METHOD", "INTEGRITY_CHECK"}:
                self.book(event, event.port, event.octets, is_made=False)
        for it in event.sent:
            self.sent[it.number] = it
            self.judge(event.number, it.octets.hex(), self.expected(event, it, is_again).hex())
            self.last[it.sender, it.port] = it.octets
            if it.sender in self.ends and not is_again:
                self.book(event, it.sender, it.octets, is_made=True)
        for who, *names in event.keys:
            self.judge(event.number, names, self.ends[who].reports())
        self.packets, self.names = self.packets + len(event.sent), self.names + len(event.keys)

    def expected(self, event, it, is_again):
        """What a packet that is sent should be: the one sent before, what the pass-through sends on, or what is computed."""
        if is_again:
            return self.last[it.sender, it.port]
        if it.sender != "pass":
            return self.ends[it.sender].computed(it.octets)
        return event.octets[: len(it.octets)] if event.port and it.octets[:1] == event.octets[:1] else packet(1, it.octets[1], b"\x01")

    def book(self, event, who, octets, is_made):
        """An end makes or accepts the tags of a message: each is right under its key, and an accepted one the other end's."""
        end = self.ends[who]
        for label, covered, tag, right in end.tags(octets):
            record = (label, end.key("51" if label == "sk" else "47"), covered, tag)
            self.judge(event.number, tag.hex(), right.hex())
            self.tags += 1
            if is_made:
                self.made.append((who, record))
            elif self.honest == "honest" and not any(maker != who and it == record for maker, it in self.made):
                self.honest = f"broken {event.number}"

    def verdicts(self, states):
        """The last lines of the trace, but for the states."""
        events = self.scenario.events[1:]
        brought = [it for it in events if not it.skip and it.words[0] in ("deliver", "alter", "cut", "inject")]
        lines = [f"events {len(events)}", f"deliveries {len(brought)}", f"discards {sum(bool(it.cause) for it in brought)}"]
        one, other = (self.ends[it].report for it in ("peer", "server"))
        result = "agree" if one and one == other and agrees(self.scenario, one) else "apart"
        if (states["peer"], states["server"]) != ("SUCCESS", "SUCCESS"):
            result = "open"
        return [*lines, *[f"fresh {self.fresh}"] * (self.scenario.version - 1), f"tags {self.honest}", f"result {result}"]

    def judge(self, number, given, wanted):
        if given != wanted:
            self.wrong.append(f"event {number}: {given}\n  computed {wanted}")


class Judge:
    """Judges the packets of a capture, the well-formed ones alone, under the keys of users, by name and method. It remembers the
    last PSK-1, and the last GPSK-2 and PSK-2 whose MAC is right."""

    def __init__(self, users):
        self.users, self.psk1, self.login, self.psk2 = users, None, None, None

    def finding(self, given):
        given = given[: int.from_bytes(given[2:4], "big")]
        kind, first = given[4:6].ljust(2, b"\0")
        if kind == 51 and first in (2, 3, 4, 6):
            return self.of_gpsk(given, first)
        return self.of_psk(given, first >> 6) if kind == 47 else "good"

    def of_gpsk(self, given, op):
        login = self.login
        if op == 2:
            id_p, id_s, nonce_p, nonce_s, _, chosen = parts(given[6:], 0, 0, 32, 32, 0, 6)
            name = id_p.decode("latin-1")
            if (name, "51") not in self.users:
                return "no-key"
            login = name, chosen[5], gpsk_keys(chosen[5], self.users[name, "51"], nonce_p, id_p, nonce_s, id_s)["sk"]
        if login is None:
            return "no-context"
        size = 16 if login[1] == 1 else 32
        if mac_of(*login[1:], given[6:-size]) != given[-size:]:
            return "tag-bad"
        self.login = login
        return f"tag-good {login[0]}"

    def of_psk(self, given, kind):
        if kind == 0:
            self.psk1 = given
            return "good"
        before = self.psk1 if kind == 1 else self.psk2 and self.psk2[0]
        if before is None or before[6:22] != given[6:22]:
            return "no-context"
        if kind == 1:
            return self.of_psk2(given, before[22:])
        _, name, id_s, keys = self.psk2
        right = [channel_of(given, 38 if kind == 2 else 22, keys["tek"])]
        right += [(b"", given[22:38], cmac(keys["ak"], id_s + before[22:38]))] * (kind == 2)
        return f"tag-good {name}" if all(tag == computed for _, tag, computed in right) else "tag-bad"

    def of_psk2(self, given, id_s):
        name = given[54:].decode("latin-1")
        if (name, "47") not in self.users:
            return "no-key"
        keys = psk_keys(self.users[name, "47"], given[22:38])
        if cmac(keys["ak"], given[54:] + id_s + given[6:38]) != given[38:54]:
            return "tag-bad"
        self.psk2 = given, name, id_s, keys
        return f"tag-good {name}"


def wrong_findings(users, packets, lines):
    """The lines of `check`, without the last one, that say of a well-formed packet something else than is found."""
    judge, wrong = Judge({(name, kind): bytes.fromhex(key) for name, kind, key in users}), []
    for at, (given, line) in enumerate(zip(packets, lines), 1):
        if not line.startswith(f"{at} malformed "):
            found = f"{at} {judge.finding(given)}"
            wrong += [f"{line}\n  computed {found}"] * (line != found)
    return wrong


def captures():
    """The captures beside this: each one's name, its packets, and what of its findings is wrong."""
    for file in sorted(Path(__file__).resolve().parent.glob("*.capture")):
        words = [line.split() for line in file.read_text().splitlines()]
        packets = [bytes.fromhex(it[1].replace("-", "")) for it in words if it[0] in "<>"]
        lines = file.with_suffix(".findings").read_text().splitlines()[:-1]
        yield file.name, packets, wrong_findings([it[1:] for it in words if it[0] == "user"], packets, lines)


def main():
    runs = []
    for file in sorted(Path(__file__).resolve().parent.glob("*.names")):
        run = Run(file.with_suffix(".scenario").read_bytes(), [line.split() for line in file.read_text().splitlines()])
        runs.append((file.name, run.wrong, run.packets, run.tags, run.names, 0))
    runs += [(name, wrong, 0, 0, 0, len(packets)) for name, packets, wrong in captures()]
    for name, its, *_ in runs:
        for wrong in its:
            print(f"{name}: {wrong}")
    packets, tags, names, findings = map(sum, list(zip(*runs))[2:])
    wrong = sum(len(it[1]) for it in runs)
    print(f"{packets} packets, {tags} tags, {names} lines of key names and {findings} findings computed anew, {wrong} of them otherwise")
    return 1 if wrong or not all((packets, tags, names, findings)) else 0


if __name__ == "__main__":
    sys.exit(main())
