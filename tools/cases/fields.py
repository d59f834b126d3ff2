"""What tools/decode-fields and tools/keys-of read in packets, beside what was set, what `decode` says and `keys` computes."""

from __future__ import annotations

import re
from pathlib import Path
from typing import Iterator, Optional

from cases.lib.small import Run, holds
from lib.cases import read
from lib.common import answer
from lib.macs import keyed
from lib.texts import lines_of

FIELD = re.compile(r" *\d+ (.{24,}?) ([0-9a-f]+|-)(?:  .*)?")
NAMES = ("gpsk-suite2", "psk-login", "barred")
KEY = bytes(range(32)).hex()


def packets_of(name: str) -> Iterator[bytes]:
    for line in Path(f"examples/{name}.names").read_text().splitlines():
        words = line.split()
        if words[1:2] == ["octets"]:
            yield bytes.fromhex(words[2])


def changed(packet: bytes) -> Iterator[bytes]:
    yield packet
    for at in range(len(packet)):
        yield packet[:at]
        yield packet[:at] + bytes([packet[at] ^ 1]) + packet[at + 1 :]
    yield packet + b"\0"
    yield packet[:2] + b"\0\3" + packet[4:]
    yield packet[:2] + (len(packet) + 1).to_bytes(2, "big") + packet[4:] + b"\0"


def at_limits() -> Iterator[bytes]:
    """The packets of the cases of `decode`, which are at each limit, and the longest packet; what Type 254 holds isn't judged."""
    for case in (it for path in sorted(Path("cases").glob("*.cases")) for it in read(path)):
        if case.words == ["decode"] and case.last("=") == "0":
            yield from (packet for _, (word, *_) in lines_of(case.input()) if (packet := bytes.fromhex(word.strip("-")))[4:5] != b"\xfe")
    yield from (bytes([code, 1, 0, 4]) for code in (0, 5, 255))
    yield from (b"\2\0" + (5 + count).to_bytes(2, "big") + b"\1" + bytes(count) for count in (1495, 1496))


def parts_of(out: str) -> Iterator[tuple[str, list[tuple[str, str]], bool]]:
    """What is told of each packet: decode's line, the names and octets of its fields, whether something is wrong."""
    for part in re.split(r"^(?=\d)", out, flags=re.M)[1:]:
        line, *rest = [it for it in part.splitlines() if it[0].isdigit() or it[0] == " "]
        fields = [FIELD.fullmatch(it) for it in rest if not it.startswith("     ! ")]
        yield line, [(it[1].rstrip(), it[2].strip("-")) if it else ("", "?") for it in fields], len(fields) < len(rest)


def case_fields(run: Run) -> Iterator[Optional[str]]:
    """Of many packets, the fronts of those of some logins, and each with an octet changed: the octets of the fields, one behind
    the other, are the packet; and something is said to be wrong with it exactly where `decode`, whose reader is proved, takes it
    for none or for no message of its method."""
    packets = [other for name in NAMES for packet in packets_of(name) for other in changed(packet)] + [*at_limits()]
    text = "".join(f"{packet.hex() or '-'}\n" for packet in packets)
    found = list(parts_of(run(["decode-fields"], text.encode())[1]))
    yield holds(len(found) == len(packets) > 1000, f"{len(found)} packets are told of {len(packets)}")
    wrong = [line for packet, (line, fields, is_wrong) in zip(packets, found) if "".join(it for _, it in fields) != packet.hex()
             or (re.search("malformed|Shape|ListTooLong", line) is not None) != is_wrong]
    yield holds(not wrong, f"other fields or faults: {wrong[:1]} and {len(wrong) - 1} more")


# ---- What the fields of a login are.


def setting(name: str, keyword: str) -> str:
    found = re.search(rf"^{keyword} (.*)$", Path(f"examples/{name}.scenario").read_text(), re.M)
    return found[1] if found else ""


def messages_of(run: Run, name: str) -> list[dict[str, str]]:
    """The fields of the four messages of a method."""
    return [dict(fields) for _, fields, _ in parts_of(run(["decode-fields", f"examples/{name}.names"])[1])][2:6]


def case_fields_of_gpsk(run: Run) -> Iterator[Optional[str]]:
    """The fields have what the scenario sets; the MAC of each message is that of the octets from the OP-Code up to it,
    under the SK that `keys` computes."""
    for name, mac in (("gpsk-login", "cmac"), ("gpsk-suite2", "hmac")):
        first, *rest = messages_of(run, name)
        found = [rest[0]["RAND_Peer"], rest[0]["RAND_Server"], rest[0]["ID_Peer"], first["ID_Server"], *(it["MAC"] for it in rest)]
        sk = keyed(run(["keys-of", f"examples/{name}.scenario"])[1].strip())[3]
        names = [setting(name, it).encode().hex() for it in ("peer-name", "server-name")]
        wanted = [setting(name, "peer-nonce"), setting(name, "server-nonce"), *names]
        for octets, message in zip(list(packets_of(name))[3:], rest):
            wanted += keyed(f"{mac} {sk} {octets[6:].hex().removesuffix(message['MAC'])}")
        yield holds(found == wanted, f"{name} has the octets {found}, and not {wanted}")


def case_fields_of_psk(run: Run) -> Iterator[Optional[str]]:
    """RFC 4764 section 3.2: MAC_P over ID_P, ID_S, RAND_S and RAND_P, MAC_S over ID_S and RAND_P."""
    first, second, third, fourth = messages_of(run, "psk-login")
    ak = keyed(f"psk {setting('psk-login', 'peer-psk 47')} {second['RAND_P']}")[0]
    of_s = first["ID_S"] + second["RAND_P"]
    of_p = second["ID_P"] + first["ID_S"] + second["RAND_S"] + second["RAND_P"]
    yield holds([second["MAC_P"], third["MAC_S"]] == keyed(f"cmac {ak} {of_p}", f"cmac {ak} {of_s}"), "other MACs")
    yield holds(second["RAND_P"] == setting("psk-login", "peer-nonce")[:32], "another RAND_P")
    yield holds(fourth["RAND_S"] == setting("psk-login", "server-nonce")[:32], "another RAND_S")


def case_keys_of(run: Run) -> Iterator[Optional[str]]:
    """The keys of a login's packets have the names that both ends hold."""
    for name, key in (("gpsk-login", KEY), ("psk-login", KEY[:32])):
        names = Path(f"examples/{name}.names").read_text()
        keys = answer(["keys"], run(["keys-of", key], names.encode())[1].encode())[1]
        found = keyed(*(f"name {it.split(' ')[1]}" for it in keys if it.startswith(("msk", "emsk"))))
        wanted = re.findall(r"msk (\w+) emsk (\w+)", names)
        yield holds(wanted == [(*found,)] * 2, f"{name}: {found}")
