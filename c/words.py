#!/usr/bin/env python3
"""words.py: the numbers and words of the library that TUVADDRI_LIBRARY names, beside the header, numbers.txt and
docs/TEXTS.md.

Each number of the header is that of numbers.txt, and the other way round; its word is its name. A number that has no
name has the word "?". The causes are those that docs/TEXTS.md explains. The status is 0 where all of this holds.
"""

import ctypes
import os
import re
import sys

HERE = os.path.dirname(os.path.realpath(__file__))
sys.path.insert(0, f"{HERE}/python")
from tuvaddri._abi import VERSION, Turn, ident, library

# The causes from here on are of frames: the texts have none.
OF_FRAMES = 64
# The names of each group in the header, and the call that has their words.
GROUPS = {
    "tuv_cause_word": r"TUV_CAUSE_(\w+)",
    "tuv_state_word": r"TUV_STATE_(\w+)",
    "tuv_supplicant_word": r"TUV_SUPPLICANT_(\w+)",
    "tuv_port_word": r"TUV_PORT_(\w+)",
    "tuv_failure_word": r"TUV_FAILURE_(\w+)",
    "tuv_refusal_word": r"TUV_(OK|BAD_SIZE|NO_METHOD|NO_SUITE|BAD_NAME|BAD_OTHER|BAD_KEY|MANY_RETRIES|NO_MEMORY|WRONG_END)",
}


def text_of(path):
    with open(f"{HERE}/{path}", encoding="utf-8") as it:
        return it.read()


def faults_of_texts():
    """The text of each turn, beside the words of its numbers."""
    library.tuv_turn_text.argtypes, library.tuv_turn_text.restype = [Turn, ctypes.c_char_p], None
    room = ctypes.create_string_buffer(b"x" * 80, 80)
    for number in range(256):
        word = library.tuv_state_word(number).decode()
        texts = {
            (True, False, False, 0, number): f"sends a packet; state {word}",
            (False, False, False, 0, number): f"sends nothing; state {word}",
            (False, False, True, 0, 0): "has no place for this call",
            (False, True, False, number, 1): f"discards what came, {library.tuv_cause_word(number).decode()}; state IDLE",
            (False, True, False, 26, number): f"discards what came, SuiteNotOffered; state {word}",
        }
        for values, wanted in texts.items():
            library.tuv_turn_text(Turn(*values), room)
            if room.value.decode() != wanted:
                yield f"a turn is told by {room.value.decode()}, and not by {wanted}"


def faults():
    numbers = re.findall(r"\b(TUV_[A-Z0-9_]+) = (\d+)", text_of("tuvaddri.h"))
    kept = [tuple(line.split()) for line in text_of("numbers.txt").splitlines() if line and line[0] != "#"]
    for name, number in sorted(set(numbers) ^ set(kept)):
        yield f"{name} {number} is in one of tuvaddri.h and numbers.txt alone"
    for call, form in GROUPS.items():
        words = {int(number): re.fullmatch(form, name)[1] for name, number in numbers if re.fullmatch(form, name)}
        if not words:
            yield f"the header has no number for {call}"
        for number in range(256):
            word, wanted = getattr(library, call)(number).decode(), words.get(number, "?")
            if call not in ("tuv_state_word", "tuv_supplicant_word", "tuv_port_word"):
                wanted = wanted.title().replace("_", "")
            if word != wanted:
                yield f"{call}({number}) is {word}, and not {wanted}"
    yield from faults_of_texts()
    table = text_of("../docs/TEXTS.md").split("<!-- made: causes -->")[1].split("<!-- end of made -->")[0]
    told = set(re.findall(r"^\| (\w+) \|", table, re.M)) - {"Cause"}
    causes = {library.tuv_cause_word(number).decode() for number in range(OF_FRAMES)} - {"?"}
    for word in sorted(told ^ causes):
        yield f"the cause {word} is in one of the header and docs/TEXTS.md alone"
    if f"#define TUV_VERSION {VERSION}\n" not in text_of("tuvaddri.h") or library.tuv_version() != VERSION:
        yield "tuv_version is another than the header's"
    if not re.fullmatch(rf"tuvaddri {VERSION} ([0-9a-f]{{7,}}\+?|unknown)( unchecked| dist)?", ident):
        yield f"tuv_ident is {ident}"


if __name__ == "__main__":
    found = list(faults())
    for fault in found:
        print(fault)
    sys.exit(1 if found else 0)
