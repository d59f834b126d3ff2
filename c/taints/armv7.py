"""Armv7-A with NEON: the ops of each instruction. What Thumb has too is read as there."""

import re

from . import thumb
from .engine import Unread
from .thumb import CONDITIONS, EARLY_END, PASSED, PUSHED, RESULT, SP, WORD, listed, name_of, operand, split

KEPT = (*thumb.KEPT, *(f"d{i}" for i in range(8, 16)))
VECTORS = tuple(f"d{i}" for i in range(8))
BRANCH = "\tldrb\tr12, [r1]\n\tcmp\tr12, #0\n\tbeq\t.LBBplant\n.LBBplant:\n"
LENGTH = "\tldrb\tr12, [r1]\n\tstrb\tr12, [r0, #97]\n\tbx\tlr\n"
LOOK_UP = "\tldrb\tr3, [r1]\n\tadr\tr12, .Lstatic.0\n\tldrb\tr3, [r12, r3]\n"
ALL_LANES, LANE = re.compile(r"d\d+\[\]"), re.compile(r"(d\d+)\[\d+\]")


def decode(name, text, where):
    """The ops of an instruction; its condition may be in its name."""
    if name[0] == "v":
        return vector(name, split(text), where)
    try:
        return plain(name, text, where)
    except Unread:
        if name[-2:] not in CONDITIONS:
            raise
    condition, ops = name[-2:], plain(name[:-2], text, where)
    return [("retif", condition, where)] if ops[-1] == ("ret",) else [("when", condition, ops, where)]


def plain(name, text, where):
    words = split(text)
    if name == "adr" or name[:3] == "ldr" and words[1][:2] == ".L":
        return [("place", words[0], (None, None, 1, 0, words[1]))]
    if name in ("stmib", "ldmib"):
        kind, base = "store" if name[0] == "s" else "load", words[0].rstrip("!")
        return thumb.access(kind, listed(words[1]), 4, [f"[{base}, #4]"], where)
    if name in ("add", "sub") and words[-1][:4] == "lsl ":
        *_, a, b, by = words[0], *words[-3:]
        shift = [("shift", "t2", b, operand(by[4:]))]
        return [*shift, ("sum", words[0], a, "t2", 1 if name == "add" else -1)]
    if name in ("uxtab", "uxtah", "uxtb16", "rsc", "rscs", "teq"):
        sources = [it for it in words[name != "teq" :] if it[0] in "rl" and " " not in it]
        made = [("flags", sources, 4, name == "rscs")] if name in ("teq", "rscs") else []
        return made if name == "teq" else [*made, ("gen", (words[0],), sources, name[:3] == "rsc")]
    return thumb.plain(name, re.sub(r":\d+\]", "]", text), where)


def doubles(text):
    """The registers of eight octets in an operand."""
    found = []
    for name, number in re.findall(r"\b([dq])(\d+)", text):
        found += [f"d{number}"] if name == "d" else [f"d{2 * int(number)}", f"d{2 * int(number) + 1}"]
    return found


def element(name):
    """The octets of an element."""
    return int(re.search(r"\.[a-z]?(\d+)", name)[1]) // 8


def vector(name, words, where):
    if name in ("vpush", "vpop"):
        names = doubles(words[0])
        places = [(it, (SP, None, 1, 8 * i, None)) for i, it in enumerate(names)]
        move = ("sum", SP, SP, 8 * len(names), -1 if name == "vpush" else 1)
        if name == "vpush":
            return [move, *(("store", it, at, 8, where) for it, at in places)]
        return [*(("load", it, at, 8, where) for it, at in places), move]
    if name in ("vldmia", "vstmia"):
        behind = "!" if words[0][-1] == "!" else ""
        return several(name, doubles(words[1]), 8, [f"[{words[0].rstrip('!')}]{behind}"], where)
    if name in ("vldr", "vstr"):
        if words[1][:2] == ".L":
            return [("gen", tuple(doubles(words[0])), ())]
        (base, index, scale, offset, table), _, _ = thumb.memory(words[1:])
        kind = "load" if name == "vldr" else "store"
        return [(kind, it, (base, index, scale, offset, table), 8, where) for it in doubles(words[0])]
    if name[:4] in ("vld1", "vst1"):
        return lanes(name, words, where)
    return computed(name, words)


def several(name, names, size, words, where):
    """Registers from an address on, which may be moved behind them, by their octets or by a register."""
    base = re.match(r"\[(\w+)", words[0])[1]
    kind = "load" if name[:3] == "vld" else "store"
    out = [(kind, it, (base, None, 1, i * size, None), size, where) for i, it in enumerate(names)]
    if words[0][-1] == "!":
        return [*out, ("sum", base, base, size * len(names), 1)]
    return [*out, *([("sum", base, base, operand(words[1]), 1)] if len(words) > 1 else [])]


def lanes(name, words, where):
    if ALL_LANES.search(words[0]):
        made = several(name, ["t4"], element(name), words[1:], where)
        return [*made, ("gen", tuple(doubles(words[0])), ("t4",))]
    if found := LANE.search(words[0]):
        if name[:4] == "vst1":
            return [("gen", ("t4",), (found[1],)), *several(name, ["t4"], element(name), words[1:], where)]
        made = several(name, ["t4"], element(name), words[1:], where)
        return [*made, ("gen", (found[1],), (found[1], "t4"))]
    return several(name, doubles(words[0]), 8, words[1:], where)


def computed(name, words):
    """What is computed of registers: all of a register that is written depends on all of those that are read."""
    to, sources = words[0], [it for word in words[1:] for it in (doubles(word) or [word]) if it[0] in "drl"]
    if name == "vmov" and len(words) == 3 and to[0] == "r":
        return [("gen", tuple(words[:2]), tuple(sources))]
    if name[:5] == "vmov." and len(words) == 2 and words[1] in ("#0x0", "#0"):
        return [("mov", it, 0) for it in doubles(to)]
    if name in ("vmov", "vorr") and len(doubles(to)) == len(doubles(words[1])) and words[1] == words[-1] and "[" not in "".join(words):
        return [("mov", it, source) for it, source in zip(doubles(to), doubles(words[1]))]
    if name == "veor" and words[1] == words[2]:
        return [("mov", it, 0) for it in doubles(to)]
    if "[" in to or name in ("vbsl", "vbit", "vbif", "vtbx.8", "vsli.64", "vsri.64"):
        sources += doubles(to)
    return [("gen", tuple(doubles(to)) or (to,), tuple(sources))]
