"""The MAC that a message has, and the one that it should have under a key: RFC 5433 section 6, RFC 4764 section 3."""

from __future__ import annotations

from typing import Optional, Sequence

from lib.common import answer
from lib.packets import SECOND, Reading


def keyed(*requests: str) -> list[str]:
    """What `keys` computes, line by line."""
    status, lines = answer(["keys"], ("\n".join(requests) + "\n").encode("latin-1"))
    return ["".join(it.split(" ")[1:]) for it in lines] if status == 0 else []


def part(message: Reading, name: str) -> str:
    return (message.get(name) or b"").hex()


def of_gpsk(octets: bytes, message: Reading, second: Reading, key: str) -> tuple[str, str]:
    """What is told of the MAC of a message that follows a GPSK-2: as received, as computed."""
    suite, mac = second.number.get("CSuite_Sel", 0) & 0xFF, message.get("MAC") or b""
    keys = keyed(second.key_request(key))
    end = next(it.at for it in message.fields if it.name == "MAC")
    found = keyed(f"{'hmac' if suite == 2 else 'cmac'} {keys[3]} {octets[6:end].hex() or '-'}") if len(keys) > 3 else []
    return mac.hex(), "".join(found)


def of_psk(octets: bytes, message: Reading, first: Reading, second: Reading, key: str) -> tuple[str, str]:
    """The same by EAP-PSK: MAC_P, MAC_S, and where that is right, or isn't there, the tag of PCHANNEL."""
    ak, _, tek, *_ = keyed(second.key_request(key)) or [""] * 3
    rand_s, rand_p, id_s, id_p = part(first, "RAND_S"), part(second, "RAND_P"), part(first, "ID_S"), part(second, "ID_P")
    covered = {"MAC_P": id_p + id_s + rand_s + rand_p, "MAC_S": id_s + rand_p}
    for name, text in covered.items():
        if message.get(name) is not None:
            computed = "".join(keyed(f"cmac {ak} {text}"))
            if computed != part(message, name):
                return part(message, name), computed
    nonce, sealed = part(message, "PCHANNEL Nonce").zfill(32), message.get("PCHANNEL R, E, Reserved") or b""
    if len(sealed) != 1:
        return "", ""
    # (what is sealed is one octet: that of zero is the octet that hides it)
    hides = "".join(keyed(f"eax {tek} {nonce} {octets[:22].hex()} 00"))[:2]
    told = f"{sealed[0] ^ int(hides or '0', 16):02x}"
    return part(message, "PCHANNEL Tag"), "".join(keyed(f"eax {tek} {nonce} {octets[:22].hex()} {told}"))[2:34]


def told(octets: bytes, message: Reading, before: Sequence[Reading], key: str) -> str:
    """The MAC received and the one computed, with the name of the key; nothing where one isn't there."""
    def last(name: str) -> Optional[Reading]:
        return next((it for it in reversed(before) if it.message == name and not it.faults), None)

    second = message if message.message in SECOND else last("GPSK-2") or last("PSK-2")
    first, name = last("PSK-1"), "".join(keyed(f"name {key}"))
    received = computed = ""
    if second and message.message.startswith("GPSK"):
        received, computed = of_gpsk(octets, message, second, key)
    elif second and first:
        received, computed = of_psk(octets, message, first, second, key)
    return f"received {received}, computed {computed} by the key named {name}" if computed and computed != received else ""
