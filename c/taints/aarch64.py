"""64-bit Arm: the ops of each instruction."""

import re

from .engine import Unread

SP, PUSHED = "sp", 0
WORD, RESULT = 8, "x0"
PASSED = tuple(f"x{i}" for i in range(8))
KEPT = tuple(f"x{i}" for i in range(19, 31))
VECTORS = tuple(f"v{i}{half}" for i in range(8) for half in ("", "h"))
BRANCH = "\tldrb\tw9, [x1]\n\tcbz\tw9, .LBBplant\n.LBBplant:\n"
LENGTH = "\tldrb\tw9, [x1]\n\tstrb\tw9, [x0, #97]\n\tret\n"
LOOK_UP = "\tldrb\tw9, [x1]\n\tadrp\tx10, .Lstatic.0\n\tadd\tx10, x10, :lo12:.Lstatic.0\n\tldrb\tw9, [x10, x9]\n"
EARLY_END = "\tldrb\tw9, [x0]\n\tldrb\tw10, [x2]\n\tcmp\tw9, w10\n\tb.eq\t.LBBplant\n\tmov\tw0, wzr\n\tret\n.LBBplant:\n"
SIZES = {"b": 1, "h": 2}


def split(text):
    """The operands."""
    parts, depth, start, quoted = [], 0, 0, False
    for i, it in enumerate(text):
        if it == '"':
            quoted = not quoted
        elif quoted:
            continue
        elif it in "[{":
            depth += 1
        elif it in "]}":
            depth -= 1
        elif it == "," and not depth:
            parts.append(text[start:i].strip())
            start = i + 1
    if text[start:].strip():
        parts.append(text[start:].strip())
    return parts


def reg(text):
    """The register's name here, and its octets; None of the register of zeros."""
    if text in ("wzr", "xzr"):
        return None, 8 if text[0] == "x" else 4
    if text == "sp":
        return "sp", 8
    found = re.match(r"([xw])(\d+)$", text)
    if found:
        return f"x{found[2]}", 8 if found[1] == "x" else 4
    found = re.match(r"([vqdshb])(\d+)\b", text)
    if found:
        return f"v{found[2]}", {"v": 16, "q": 16, "d": 8, "s": 4, "h": 2, "b": 1}[found[1]]
    raise Unread(f"a register {text}")


def number(text):
    return int(text.lstrip("#"), 0)


def name_of(name):
    """The name that the assembly has for a function."""
    return name


def symbol_of(text):
    return re.sub(r"^:lo12:", "", text).strip('"')


def memory(words):
    """The address, and what is added to its base: before, behind, or not."""
    text = words[0]
    inner = split(text.strip("!")[1:-1])
    base = reg(inner[0])[0]
    index, scale, offset = None, 1, 0
    if len(inner) > 1:
        if inner[1].startswith(":lo12:"):
            pass  # (the page's register has the symbol)
        elif inner[1].startswith("#"):
            offset = number(inner[1])
        else:
            index = reg(inner[1])[0]
            if len(inner) > 2:
                scale = 1 << int(inner[2].split("#")[1])
    if text.endswith("!"):
        return (base, index, scale, offset, None), offset, 0
    if len(words) > 1:
        return (base, index, scale, 0, None), 0, number(words[1])
    return (base, index, scale, offset, None), 0, 0


def at(address, more):
    base, index, scale, offset, symbol = address
    return base, index, scale, offset + more, symbol


def loads(name, size, address, where):
    if name is None:
        return []
    if size == 16:
        return [("load", name, address, 8, where), ("load", name + "h", at(address, 8), 8, where)]
    made = [("load", name, address, size, where)]
    return made + [("mov", name + "h", 0)] if name[0] == "v" else made


def stores(name, size, address, where):
    if name is None:
        return [("store", 0, at(address, i), min(size, 8), where) for i in range(0, size, 8)]
    if size == 16:
        return [("store", name, address, 8, where), ("store", name + "h", at(address, 8), 8, where)]
    return [("store", name, address, size, where)]


def access(name, words, where):
    pair = name in ("ldp", "stp")
    names = words[:2] if pair else words[:1]
    address, before, behind = memory(words[len(names):])
    suffix = re.sub(r"^(ld|st)u?r", "", name) if not pair else ""
    out, base = [], address[0]
    if before:
        # (written back first: the octets are at the base then)
        out.append(("sum", base, base, before, 1))
        address = at(address, -before)
    for i, it in enumerate(names):
        one, size = reg(it)
        size = SIZES.get(suffix, size)
        out += (loads if name.startswith("ld") else stores)(one, size, at(address, i * size), where)
    if behind:
        out.append(("sum", base, base, behind, 1))
    return out


def decode(name, text, where):
    """The ops of an instruction."""
    words = split(text)
    if name == "bl":
        return [("call", symbol_of(words[0]), where)]
    if name == "ret":
        return [("ret",)]
    if name == "b":
        return [("jump", words[0])] if words[0].startswith(".LBB") else [("tail", symbol_of(words[0]), where)]
    if name.startswith("b."):
        return [("br", name[2:], words[0], where)]
    if name in ("cbz", "cbnz"):
        one = reg(words[0])[0]
        return [("cmp", one, 0, reg(words[0])[1]), ("br", "eq" if name == "cbz" else "ne", words[1], where)]
    if name in ("tbz", "tbnz"):
        one, bit = reg(words[0])[0], number(words[1])
        return [("flags", (one,), 1 if bit < 8 else 8), ("br", "bit", words[2], where)]
    if re.match(r"(ld|st)(p|u?r[bh]?)$", name):
        return access(name, words, where)
    if name.startswith("ld1"):
        address, _, behind = memory(words[1:])
        to = reg(words[0].strip("{} "))[0]
        out = [("load", "t0", address, 4, where), ("gen", (to, to + "h"), (to, to + "h", "t0"), False)]
        return out + ([("sum", address[0], address[0], behind, 1)] if behind else [])
    if name == "adrp":
        return [("place", reg(words[0])[0], (None, None, 1, 0, re.sub(r"\+\d+$", "", symbol_of(words[1]))))]
    if any(it[0] in "vqdshb" and re.match(r"[vqdshb]\d", it) for it in words):
        return vector(name, words, where)
    return scalar(name, words, where)


def scalar(name, words, where):
    to, size = reg(words[0])
    if name == "mov":
        if words[1][0] == "#":
            return [("mov", to, number(words[1]))]
        source = reg(words[1])[0]
        if source is None:
            return [("mov", to, 0)]
        return [("mov", to, source) if size == 8 else ("cut", to, source, 4)]
    if name in ("cmp", "cmn", "tst"):
        sources = tuple(it for it in (operand(word) for word in words[:2]) if isinstance(it, str))
        octet = len(words) > 2 and words[2].startswith("uxtb") or words[1] == "#0xff"
        if name == "cmp" and len(words) == 2 and to is not None:
            return [("cmp", to, operand(words[1]), size)]
        return [("flags", sources, 1 if octet and name == "tst" else size)]
    if name == "ccmp":
        return [("flags", tuple(it for it in (operand(word) for word in words[:2]) if isinstance(it, str)), size, True)]
    if name == "cset":
        return [("set", to, words[1])]
    if name in ("csel", "csinc"):
        a, b = operand(words[1]), operand(words[2])
        out = []
        if a == 0:
            out.append(("mov", "t0", 0))
            a = "t0"
        if b == 0:
            out.append(("mov", "t1", 0))
            b = "t1"
        if name == "csinc":
            out.append(("sum", "t1", b, 1, 1))
            b = "t1"
        return out + [("pick", to, a, b)]
    if name == "cinc":
        a = operand(words[1])
        return [("sum", "t1", a, 1, 1), ("pick", to, a, "t1")]
    if name in ("add", "sub", "adds", "subs"):
        return sums(name, to, size, words)
    if name in ("and", "ands") and words[2][0] == "#" and number(words[2]) in (0xFF, 0xFFFF) and words[1] != "wzr":
        return [("cut", to, operand(words[1]), 1 if number(words[2]) == 0xFF else 2), *flagged(name, (to,), size)]
    if name in ("and", "ands") and words[2][0] == "#" and operand(words[1]) != 0:
        mask = number(words[2])
        mask = mask - (1 << 64) if size == 8 and mask >> 63 else mask
        return [("and", to, operand(words[1]), mask), *flagged(name, (to,), size)]
    if name in ("lsl", "lsr") and words[2][0] == "#":
        return [("shift", to, operand(words[1]), number(words[2]) * (1 if name == "lsl" else -1))]
    if name == "orr" and operand(words[1]) == 0 and len(words) == 3 and words[2][0] != "#":
        return [("mov", to, operand(words[2]))]
    if name == "sxtb":
        return [("cut", "t0", operand(words[1]), 1), ("gen", (to,), ("t0",), False)]
    if name in KNOWN:
        sources = [operand(word) for word in words[1:] if re.match(r"[xw](\d|zr)", word)]
        if name in ("movk", "bfi", "bfxil"):
            sources.append(to)
        return [("gen", (to,), tuple(it for it in sources if isinstance(it, str)), False)]
    raise Unread(f"an instruction {name} {', '.join(words)}")


KNOWN = ("and", "ands", "orr", "eor", "bic", "orn", "mvn", "lsl", "lsr", "asr", "ror", "extr", "rev", "rev16", "mul", "madd",
         "msub", "umull", "movk", "bfi", "bfxil", "ubfiz", "ubfx")


def operand(text):
    if text[0] == "#":
        return number(text)
    return reg(text)[0] or 0


def flagged(name, sources, size):
    return [("flags", sources, size)] if name.endswith("s") and name not in ("bics",) else []


def sums(name, to, size, words):
    sign, rest = 1 if name[:3] == "add" else -1, words[3:]
    a = operand(words[1])
    if words[2].startswith(":lo12:"):
        return [("mov", to, a)]
    b = operand(words[2])
    out = []
    to = to or "t0"
    if a == 0:
        out.append(("mov", "t1", 0))
        a = "t1"
    if rest:
        kind, _, by = rest[0].partition(" ")
        if isinstance(b, int):
            b <<= number(by)
        elif kind in ("lsl", "lsr"):
            out.append(("shift", "t2", b, number(by) * (1 if kind == "lsl" else -1)))
            b = "t2"
        elif kind in ("uxtb", "uxth", "uxtw"):
            out.append(("cut", "t2", b, {"b": 1, "h": 2, "w": 4}[kind[3]]))
            if by:
                out.append(("shift", "t2", "t2", number(by)))
            b = "t2"
        else:
            out.append(("gen", ("t2",), (b,), False))
            b = "t2"
    if name == "subs":
        out.append(("cmp", a, b, size))
    elif name == "adds":
        out.append(("flags", tuple(it for it in (a, b) if isinstance(it, str)), size))
    return out + [("sum", to, a, b, sign), *([("cut", to, to, 4)] if size == 4 else [])]


def vector(name, words, where):
    to = reg(words[0])[0]
    if name == "movi":
        return [("mov", to, 0), ("mov", to + "h", 0)] if number(words[1]) == 0 else [("gen", (to, to + "h"), ())]
    if name == "eor" and words[1] == words[2]:
        return [("mov", to, 0), ("mov", to + "h", 0)]
    if name == "fmov" or name == "mov" and words[0][0] in "xw":
        source = reg(words[1])[0]
        if to[0] == "x":
            return [("mov", to, source)] if words[1][0] in "ds" else [("gen", (to,), (source, source + "h"), False)]
        return [("mov", to, source), ("mov", to + "h", 0)]
    if name == "mov" and re.match(r"v\d+\.16b$", words[0]):
        source = reg(words[1])[0]
        return [("mov", to, source), ("mov", to + "h", source + "h")]
    if name == "mov" and re.match(r"v\d+\.d\[[01]\]$", words[0]):
        source = reg(words[1])[0] if words[1][0] in "x" else None
        if source:
            return [("mov", to + ("h" if "[1]" in words[0] else ""), source)]
    sources = []
    for it in words[1:]:
        if it[0] == "#":
            continue
        one = reg(it.strip("{} "))[0]
        if one is not None:
            sources += [one, one + "h"] if one[0] == "v" else [one]
    if "[" in words[0] or name in ("bif", "bit", "bsl"):
        sources += [to, to + "h"]
    if to[0] == "v":
        return [("gen", (to, to + "h"), tuple(sources), False)]
    return [("gen", (to,), tuple(sources), False)]
