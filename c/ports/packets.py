"""packets.py PROGRAM: the table `logins` of board.c, from three logins of examples/both.c, which this program is."""

import re
import subprocess
import sys

NONCES = (bytes(range(32)), bytes(range(32, 64)))
WAYS = ((47, 0, 16), (51, 1, 48), (51, 2, 48))


def octets(it):
    return "{ " + ", ".join(map(str, it)) + " }"


def login(program, number, method, suite, key_length):
    """A row, with its packets before it."""
    key = bytes(range(key_length))
    words = [program, str(method), str(suite), key.hex(), *(it.hex() for it in NONCES)]
    said = subprocess.run(words, capture_output=True, text=True, check=True).stdout
    packets = [bytes.fromhex(it) for it in re.findall(r"^octets (\w+)$", said, re.M)]
    for n, it in enumerate(packets):
        print(f"static const uint8_t packet_{number}_{n}[] = {octets(it)};")
    listed = ", ".join(f"{{ {len(it)}, packet_{number}_{n} }}" for n, it in enumerate(packets))
    msk = bytes.fromhex(re.search(r"^msk (\w+)$", said, re.M)[1])
    nonces = f"{{ {octets(NONCES[0])}, {octets(NONCES[1])} }}"
    return f"{{ {method}, {suite}, {octets(key)}, {nonces}, {octets(msk)}, {{ {listed} }} }}"


rows = [login(sys.argv[1], number, *way) for number, way in enumerate(WAYS)]
print("static const struct login logins[] = {\n" + ",\n".join(rows) + "\n};")
