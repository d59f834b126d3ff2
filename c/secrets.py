#!/usr/bin/env python3
"""What becomes of keys in secrets.c.

    secrets.py left keep|clear|short [nameless] COMMAND ..   where octets of a key are left in memory, when all is closed and cleared
    secrets.py branches LIST PROGRAM        where memcheck sees an address or a branch that depends on a key, beside LIST

`left` computes the keys and Session-Ids of each conversation from its packets, and searches the writable memory of the
stopped program for any 16 successive octets of the keys, and of what is derived from them: round keys of AES, L, K1 and
K2 of CMAC, HMAC's midstates. Of a program under an emulator that is the emulator's memory, with the registers that it
holds for the program. The status is 0 where none is found. A `nameless` program gives no Session-Ids.

`branches` needs valgrind. LIST has a line `FUNCTION PLACES`, ` # ` and why, for each function that branches on a key.
The status is 0 where there is no such address, and no such branch but those of the list.
"""

import collections
import decimal
import hashlib
import hmac
import math
import os
import random
import re
import signal
import struct
import subprocess
import sys
import tempfile

WAYS = (("47", "0"), ("51", "1"), ("51", "2"))


def xtime(a):
    return (a << 1 ^ (0x1B if a & 0x80 else 0)) & 0xFF


def sbox():
    """The S-box of AES (FIPS 197 section 5.1.1); each octet but 0 is a power of 3, which has its inverse among them."""
    powers, box = [1], [0x63] * 256
    for _ in range(254):
        powers.append(powers[-1] ^ xtime(powers[-1]))
    for i, power in enumerate(powers):
        turned = inverse = powers[-i]
        for shift in (1, 2, 3, 4):
            turned ^= inverse << shift | inverse >> 8 - shift
        box[power] = turned & 0xFF ^ 0x63
    return box


SBOX = sbox()


def xor(a, b):
    return bytes(x ^ y for x, y in zip(a, b))


def round_keys(key):
    """The eleven round keys of AES-128 (FIPS 197 section 5.2)."""
    words, constant = [key[i : i + 4] for i in range(0, 16, 4)], 1
    for i in range(4, 44):
        last = words[-1]
        if i % 4 == 0:
            last = bytes(SBOX[b] for b in last[1:] + last[:1])
            last, constant = xor(last, bytes([constant, 0, 0, 0])), xtime(constant)
        words.append(xor(words[i - 4], last))
    return [b"".join(words[i : i + 4]) for i in range(0, 44, 4)]


def aes(key, block):
    """AES-128 of one block (FIPS 197)."""
    keys = round_keys(key)
    state = xor(block, keys[0])
    for turn in range(1, 11):
        state = bytes(SBOX[state[(i + 4 * (i % 4)) % 16]] for i in range(16))
        if turn < 10:
            mixed = []
            for i in range(0, 16, 4):
                column = state[i : i + 4]
                every = column[0] ^ column[1] ^ column[2] ^ column[3]
                mixed += [column[j] ^ every ^ xtime(column[j] ^ column[(j + 1) % 4]) for j in range(4)]
            state = bytes(mixed)
        state = xor(state, keys[turn])
    return state


def doubled(block):
    number = int.from_bytes(block, "big") << 1
    return (number ^ (0x87 if number >> 128 else 0)).to_bytes(17, "big")[1:]


def cmac(key, text):
    """AES-CMAC (RFC 4493)."""
    *blocks, last = [text[i : i + 16] for i in range(0, len(text), 16)] or [b""]
    subkey = doubled(aes(key, bytes(16)))
    if len(last) < 16:
        subkey, last = doubled(subkey), (last + b"\x80").ljust(16, b"\0")
    whole = bytes(16)
    for block in [*blocks, xor(last, subkey)]:
        whole = aes(key, xor(whole, block))
    return whole


def fraction(prime, degree):
    """The first 32 bits of the fraction of a prime's root of this degree."""
    return int(decimal.Decimal(prime) ** (1 / decimal.Decimal(degree)) * 2**32) % 2**32


PRIMES = [number for number in range(2, 312) if all(number % it for it in range(2, math.isqrt(number) + 1))]
ROOTS = [fraction(it, 2) for it in PRIMES[:8]]
CUBE_ROOTS = [fraction(it, 3) for it in PRIMES[:64]]


def sha256_words(block):
    """The eight words of SHA-256 after its first block (FIPS 180-4 section 6.2.2)."""

    def turned(word, *by):
        out = 0
        for it in by:
            out ^= word >> it | word << 32 - it
        return out % 2**32

    words = list(struct.unpack(">16I", block))
    for i in range(16, 64):
        first = turned(words[i - 15], 7, 18) ^ words[i - 15] >> 3
        second = turned(words[i - 2], 17, 19) ^ words[i - 2] >> 10
        words.append((words[i - 16] + first + words[i - 7] + second) % 2**32)
    a, b, c, d, e, f, g, h = ROOTS
    for word, constant in zip(words, CUBE_ROOTS):
        first = h + turned(e, 6, 11, 25) + (e & f ^ ~e & g) + constant + word
        second = turned(a, 2, 13, 22) + (a & b ^ a & c ^ b & c)
        a, b, c, d, e, f, g, h = (first + second) % 2**32, a, b, c, (d + first) % 2**32, e, f, g
    return [(x + y) % 2**32 for x, y in zip(ROOTS, (a, b, c, d, e, f, g, h))]


def check_ciphers():
    """AES-CMAC as RFC 4493 section 4 has it, and SHA-256 as hashlib has."""
    key = bytes.fromhex("2b7e151628aed2a6abf7158809cf4f3c")
    text = bytes.fromhex("6bc1bee22e409f96e93d7e117393172aae2d8a571e03ac9c9eb76fac45af8e5130c81c46a35ce411")
    wanted = "bb1d6929e95937287fa37d129b756746", "070a16b46b4d4144f79bdd9dd04a287c", "dfa66747de9ae63030ca32611497c827"
    if tuple(cmac(key, text[:length]).hex() for length in (0, 16, 40)) != wanted:
        sys.exit("secrets.py: AES-CMAC isn't that of RFC 4493 section 4")
    made = sha256_words(b"abc\x80" + bytes(59) + b"\x18")
    if struct.pack(">8I", *made) != hashlib.sha256(b"abc").digest():
        sys.exit("secrets.py: SHA-256 isn't that of FIPS 180-4")


def mac_of(suite):
    """The MAC of a suite of EAP-GPSK, and the octets of its keys."""
    return (cmac, 16) if suite == 1 else (lambda key, text: hmac.digest(key, text, "sha256"), 32)


def gkdf(suite, key, text, length):
    """GKDF (RFC 5433 section 4)."""
    mac, size = mac_of(suite)
    return b"".join(mac(key[:size], i.to_bytes(2, "big") + text) for i in range(1, -(-length // size) + 1))[:length]


def gpsk_keys(suite, psk, text):
    """The keys of EAP-GPSK (RFC 5433 section 4), and of suite 2 what HMAC makes of its keys."""
    size = mac_of(suite)[1]
    master = gkdf(suite, psk, len(psk).to_bytes(2, "big") + psk + bytes(4) + suite.to_bytes(2, "big") + text, size)
    block = gkdf(suite, master, text, 128 + 2 * size)
    keys = {"MK": master, "MSK": block[:64], "EMSK": block[64:128], "SK": block[128 : 128 + size]}
    if suite == 1:
        keys["PK"] = block[128 + size :]
    else:
        for name, key in (("PSK", psk[:size]), ("MK", master), ("SK", keys["SK"])):
            for pad in (0x36, 0x5C):
                keys[f"{name} under {pad:x}"] = bytes(octet ^ pad for octet in key)
    return keys


def psk_keys(psk, rand_p):
    """The keys of EAP-PSK (RFC 4764 section 3.2)."""

    def modified(block, number):
        return block[:-1] + bytes([block[-1] ^ number])

    key_block = aes(psk, bytes(16))
    access, derivation = aes(psk, modified(key_block, 1)), aes(psk, modified(key_block, 2))
    block = aes(derivation, rand_p)
    made = [aes(derivation, modified(block, number)) for number in range(1, 10)]
    return {"AK": access, "KDK": derivation, "TEK": made[0], "MSK": b"".join(made[1:5]), "EMSK": b"".join(made[5:])}


def field(packet, at):
    end = at + 2 + int.from_bytes(packet[at : at + 2], "big")
    return packet[at + 2 : end], end


def conversations(method, packets):
    """What the keys are derived from, of each conversation whose first Response was sent."""
    for packet in packets:
        if packet[4:11] == bytes([254, 0, 0, 0, 0, 0, 0]):  # a Type of the IETF's as an Expanded Type
            packet = packet[:4] + packet[11:]
        if len(packet) < 6 or packet[0] != 2 or packet[4] != method:
            continue
        if method == 51 and packet[5] == 2:
            peer, at = field(packet, 6)
            server, at = field(packet, at)
            yield packet[at : at + 32] + peer + packet[at + 32 : at + 64] + server
        elif method == 47 and packet[5] >> 6 == 1:
            yield packet[22:38] + packet[6:22]


def derived(suite, name, key):
    """What gives a key of the ciphers and MACs away: by AES and CMAC, or by HMAC as either order of octets holds it."""
    if suite == 2:
        for pad in (0x36, 0x5C):
            words = sha256_words(bytes(octet ^ pad for octet in key.ljust(64, b"\0")))
            for order in "<>":
                yield f"midstate of HMAC by {name}", struct.pack(f"{order}8I", *words)
        return
    for it in round_keys(key)[1:]:
        yield f"round key of {name}", it
    zeros = aes(key, bytes(16))
    yield f"L of {name}", zeros
    yield f"K1 of {name}", doubled(zeros)
    yield f"K2 of {name}", doubled(doubled(zeros))


def secrets_of(method, suite, keys, packets):
    """Every 16 successive octets of every key, and of what is derived from it, by name."""
    parts, size = {}, 32 if suite == 2 else 16

    def add(name, octets):
        parts.update({octets[i : i + 16]: name for i in range(len(octets) - 15)})

    psks = (keys[:16], keys[64:80]) if method == 47 else (keys[16:64], keys[80:])
    for name, psk in zip(("PSK", "another PSK"), psks):
        for told, octets in derived(suite, name, psk[:size]):
            add(told, octets)
    for text in set(conversations(method, packets)):
        for psk in psks:
            made = psk_keys(psk, text[:16]) if method == 47 else gpsk_keys(suite, psk, text)
            for name in ("AK", "KDK", "TEK", "MK", "SK", "PK"):
                for told, octets in derived(suite, name, made[name]) if name in made else ():
                    add(told, octets)
            for name, key in made.items():
                add(name, key)
    for name, key in (("PSK of EAP-PSK", keys[:16]), ("PSK of EAP-GPSK", keys[16:64]), ("another PSK", keys[64:])):
        add(name, key)
    return parts


def ids_of(method, suite, keys, packets):
    """Both Session-Ids of every conversation: by its standard, and as wpa_supplicant derives it."""
    for text in set(conversations(method, packets)):
        if method == 47:
            yield b"\x2f" + text, b"\x2f" + text
        else:
            # (the Method-ID of RFC 5433 section 4 is of a key of zeros, theirs of the PSK's front)
            seed = b"Method ID\x33" + bytes(4) + suite.to_bytes(2, "big") + text
            yield tuple(b"\x33" + gkdf(suite, key, seed, 16) for key in (bytes(32), keys[16:48]))


def writable(pid):
    """The writable memory of a process: what each part is, and its octets."""
    with open(f"/proc/{pid}/maps", encoding="utf-8") as maps, open(f"/proc/{pid}/mem", "rb") as memory:
        for start, end, name in re.findall(r"^(\w+)-(\w+) rw\S* \S+ \S+ \S+ *(.*)", maps.read(), re.M):
            memory.seek(int(start, 16))
            try:
                yield name.strip("[]") if name.startswith("[") else "data", memory.read(int(end, 16) - int(start, 16))
            except OSError:
                continue


def values(word, said):
    return [bytes.fromhex(it) for it in re.findall(rf"^{word} (\w+)$", said, re.M)]


def run_stopped(command, way, word, keys):
    """What a program writes, and its memory when it has stopped."""
    with tempfile.TemporaryFile("w+") as said:
        it = subprocess.Popen([*command, *way, word, "stop"], stdin=subprocess.PIPE, stdout=said)
        it.stdin.write(keys)
        it.stdin.close()
        ended = os.waitid(os.P_PID, it.pid, os.WSTOPPED | os.WEXITED | os.WNOWAIT)
        stopped = ended.si_code == os.CLD_STOPPED
        parts = list(writable(it.pid)) if stopped else []
        os.kill(it.pid, signal.SIGCONT)
        status = it.wait()
        said.seek(0)
        wrote = said.read()
    if status or not stopped:
        sys.exit(f"secrets.py: {command[-1]} ends with {status}: {wrote.splitlines()[-1:]}")
    return wrote, parts


def counts_of(secrets, parts):
    """How often each secret is in each part of the memory."""
    found = collections.Counter()
    for name, octets in parts:
        for start in range(0, len(octets), 4096):
            page = octets[start : start + 4096 + 15]
            if page.count(0) < len(page):  # (most of an emulator's are of zeros)
                at = (secrets.get(page[i : i + 16]) for i in range(len(page) - 15))
                found.update((secret, name) for secret in at if secret)
    return found


def left(word, command):
    check_ciphers()
    found, nameless = False, command[:1] == ["nameless"]
    command = command[nameless:]
    for way in WAYS:
        method, suite = map(int, way)
        keys = random.Random(suite + 1).randbytes(128)
        said, parts = run_stopped(command, way, word, keys)
        packets = values("packet", said)
        made = set(zip(values("session-id", said), values("session-id-wpa", said)))
        wanted = set(ids_of(method, suite, keys, packets))
        if not wanted or bool(made) == nameless or not made <= wanted:
            sys.exit(f"secrets.py: {command[-1]} gives other Session-Ids than its packets")
        secrets = secrets_of(method, suite, keys, packets)
        counts, octets = counts_of(secrets, parts), sum(len(octets) for _, octets in parts)
        told = ", ".join(f"{name} {n} times in {where}" for (name, where), n in sorted(counts.items())) or "nothing"
        print(f"method {method} suite {suite}: {len(secrets)} parts of secrets, {octets} octets of memory: {told}")
        found = found or bool(counts)
    return 1 if found else 0


def places_of(log):
    """The places that memcheck tells, each once: addresses, branches, and what else, by function."""
    kinds = {"Use of uninit": "address", "Conditional jump": "branch", "Syscall param": "call"}
    found = re.findall(rf"^==\d+== ({'|'.join(kinds)}).*\n==\d+== +at 0x(\w+): (\S+)", log, re.M)
    return {(kinds[kind], re.sub(r"::<#\w+>", "", function), at) for kind, at, function in found}


def run_checked(program, way):
    keys = random.Random(7).randbytes(128)
    with tempfile.NamedTemporaryFile("r") as log:
        words = ["valgrind", "--error-limit=no", "--num-callers=1", f"--log-file={log.name}", program, *way, "clear"]
        ended = subprocess.run(words, input=keys, stdout=subprocess.PIPE)
        if ended.returncode:
            sys.exit(f"secrets.py: {program} ends with {ended.returncode}: {ended.stdout.decode()[-200:]}")
        return places_of(log.read())


def listed(path):
    with open(path, encoding="utf-8") as it:
        return {function: int(places) for function, places in re.findall(r"^([^#\s]+) (\d+)", it.read(), re.M)}


def branches(path, program):
    places = set()
    for way in WAYS:
        told = run_checked(program, way)
        counts = collections.Counter(kind for kind, _, _ in told)
        print(f"method {way[0]} suite {way[1]}: {counts['address']} addresses and {counts['branch']} branches"
              f" depend on a key, {counts['call']} calls of the system")
        places |= told
    bad = [place for place in places if place[0] != "branch"]
    for kind, function, _ in sorted(bad)[:20]:
        print(f"{kind} in {function}")
    seen, wanted = collections.Counter(function for kind, function, _ in places if kind == "branch"), listed(path)
    for function in sorted(seen | wanted):
        if seen[function] != wanted.get(function, 0):
            print(f"{function} branches at {seen[function]} places, listed {wanted.get(function, 0)}")
    return 1 if bad or seen != wanted else 0


def main(words):
    if len(words) > 2 and words[0] == "left" and words[1] in ("keep", "clear", "short"):
        return left(words[1], words[2:])
    if len(words) == 3 and words[0] == "branches":
        return branches(*words[1:])
    sys.exit(__doc__)


if __name__ == "__main__":
    sys.exit(main(sys.argv[1:]))
