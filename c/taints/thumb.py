"""Armv7-M, as Thumb: the ops of each instruction."""

import re

from .engine import Unread

SP, PUSHED = "sp", 0
WORD, RESULT = 4, "r0"
PASSED = ("r0", "r1", "r2", "r3")
KEPT = tuple(f"r{i}" for i in range(4, 12))
VECTORS = ()
BRANCH = "\tldrb.w\tr12, [r1]\n\tcmp.w\tr12, #0\n\tbeq\t.LBBplant\n.LBBplant:\n"
LENGTH = "\tldrb\tr3, [r1]\n\tstrb.w\tr3, [r0, #97]\n\tbx\tlr\n"
LOOK_UP = "\tldrb\tr3, [r1]\n\tmovw\tr2, :lower16:.Lstatic.0\n\tmovt\tr2, :upper16:.Lstatic.0\n\tldrb\tr3, [r2, r3]\n"
EARLY_END = "\tldrb\tr1, [r0]\n\tldr\tr12, [sp]\n\tldrb\tr12, [r12]\n\tcmp\tr1, r12\n" \
    "\tbeq\t.LBBplant\n\tmovs\tr0, #0\n\tbx\tlr\n.LBBplant:\n"
CONDITIONS = ("eq", "ne", "lo", "hs", "hi", "ls", "mi", "pl", "gt", "le", "ge", "lt")
SIZES = {"": 4, "b": 1, "h": 2}
CARRY = ("adc", "adcs", "sbc", "sbcs")
COMPUTED = ("eor", "orr", "and", "bic", "orn", "mvn", "adc", "sbc", "rsb", "ror", "lsl", "lsr", "asr", "mul", "rev", "rev16", "clz",
            "ubfx", "add", "sub", "uxtb16", "sxtb", "sxth", "mla", "mls")


def name_of(name):
    """The name that the assembly has for a function."""
    return name


def split(text):
    """The operands; an address in brackets, or a list in braces, is one."""
    return re.findall(r"\[[^\]]*\]!?|\{[^}]*\}|[^,\s][^,]*", text)


def operand(text):
    return int(text[1:], 0) if text[0] == "#" else text


def memory(words):
    """The address, and what is added to its base before or behind the access."""
    inner = split(words[0].rstrip("!")[1:-1])
    base, index, scale, offset = inner[0], None, 1, 0
    if len(inner) > 1 and inner[1][0] == "#":
        offset = operand(inner[1])
    elif len(inner) > 1:
        index, scale = inner[1], 1 << int(inner[2].split("#")[1]) if len(inner) > 2 else 1
    if words[0][-1] == "!":
        return (base, None, 1, 0, None), offset, 0
    return (base, index, scale, offset, None), 0, operand(words[1]) if len(words) > 1 else 0


def access(kind, names, size, words, where):
    (base, index, scale, offset, table), before, behind = memory(words)
    out = [("sum", base, base, before, 1)] if before else []
    places = [(base, index, scale, offset + i * size, table) for i in range(len(names))]
    # (of several the base is loaded last)
    pairs = sorted(zip(names, places), key=lambda it: it[0] == base)
    out += [(kind, name, at, size, where) for name, at in pairs]
    return out + ([("sum", base, base, behind, 1)] if behind else [])


def listed(text):
    return [it.strip() for it in text.strip("{}").split(",")]


def several(kind, base, names, where):
    """ldm or stm of these from the base on, which stays."""
    return access(kind, names, 4, [f"[{base.rstrip('!')}]"], where)


def decode(name, text, where):
    """The ops of an instruction; one behind an `it` has its condition in its name."""
    name = name.removesuffix(".w")
    if re.fullmatch("it[te]*", name):
        return []
    try:
        return plain(name, text, where)
    except Unread:
        if name[-2:] not in CONDITIONS:
            raise
    condition, ops = name[-2:], plain(name[:-2], text, where)
    return [("retif", condition, where)] if ops[-1] == ("ret",) else [("when", condition, ops, where)]


def plain(name, text, where):
    words = split(text)
    if name == "bl":
        return [("call", text.strip('"'), where)]
    if name == "bx" and words == ["lr"]:
        return [("ret",)]
    if name == "b":
        return [("jump", text)] if text.startswith(".LBB") else [("tail", text.strip('"'), where)]
    if name[0] == "b" and name[1:] in CONDITIONS:
        return [("br", name[1:], text, where)]
    if name in ("cbz", "cbnz"):
        return [("cmp", words[0], 0, 4), ("br", "eq" if name == "cbz" else "ne", words[1], where)]
    if name == "push":
        names = listed(text)
        return [("sum", SP, SP, 4 * len(names), -1), *several("store", SP, names, where)]
    if name == "pop":
        names = listed(text)
        out = [*several("load", SP, [it for it in names if it != "pc"], where), ("sum", SP, SP, 4 * len(names), 1)]
        return out + ([("ret",)] if "pc" in names else [])
    if name in ("ldm", "stm"):
        names, base = listed(words[1]), words[0].rstrip("!")
        out = several("load" if name == "ldm" else "store", base, names, where)
        return out + ([("sum", base, base, 4 * len(names), 1)] if words[0][-1] == "!" else [])
    if name in ("ldrd", "strd"):
        return access("load" if name == "ldrd" else "store", words[:2], 4, words[2:], where)
    if name[:3] in ("ldr", "str") and name[3:] in SIZES:
        return access("load" if name[:3] == "ldr" else "store", words[:1], SIZES[name[3:]], words[1:], where)
    return computed(name, words, where)


def computed(name, words, where):
    """The ops of what is computed in registers."""
    to, sets = words[0], name[-1] == "s"
    base = name[:-1] if sets else name
    if name in ("cmp", "cmn", "tst"):
        if name == "cmp" and len(words) == 2:
            return [("cmp", to, operand(words[1]), 4)]
        if name == "tst" and words[1] == "#255":
            return [("zero", to, 1)]
        return [("flags", [it for it in words if it[0] in "rl"], 4)]
    if name in ("movw", "movt") and words[1][0] == ":":
        return [("place", to, (None, None, 1, 0, words[1].split(":")[2]))]
    if name == "movt":
        return [("gen", (to,), (to,))]
    if base in ("mov", "movw") and len(words) == 2:
        return [("mov", to, operand(words[1])), *([("flags", (to,), 4)] if sets else [])]
    if name in ("uxtb", "uxth"):
        return [("cut", to, words[1], 1 if name == "uxtb" else 2)]
    if name == "bfc":
        return [("align", to)]
    if name == "bfi":
        return [("gen", (to,), (to, words[1]))]
    if name in ("addw", "subw"):
        return [("sum", to, words[-2], operand(words[-1]), 1 if name == "addw" else -1)]
    if name == "umull":
        return [("gen", tuple(words[:2]), tuple(words[2:]))]
    if base not in COMPUTED:
        raise Unread(f"an instruction {name} {', '.join(words)}")
    shifts = [it for it in words if " " in it]
    rest = [operand(it) for it in words if " " not in it]
    a, b = (rest[0], rest[1]) if len(rest) == 2 else (rest[1], rest[2])
    of_two = len(rest) == 2 and base not in ("mvn", "rev", "rev16", "clz")
    sources = [it for it in (rest if of_two else rest[1:]) if isinstance(it, str)]
    out = []
    if sets and base == "sub" and not shifts:
        out.append(("cmp", a, b, 4))
    elif sets and not (base in ("lsl", "lsr") and isinstance(b, int)):
        out.append(("flags", sources, 4, name in CARRY))
    if base in ("add", "sub") and not shifts:
        return [*out, ("sum", to, a, b, 1 if base == "add" else -1)]
    if base in ("lsl", "lsr") and isinstance(b, int):
        out += [("shift", to, a, b if base == "lsl" else -b), *([("cut", to, to, 4)] if base == "lsl" else [])]
        return [*out, *([("zero", to, 4)] if sets else [])]
    if base == "orr" and isinstance(b, int) and not shifts:
        return [*out, ("or", to, a, b)]
    if base == "and" and isinstance(b, int) and b >= 0:
        return [*out, ("and", to, a, b)]
    return [*out, ("gen", (to,), sources, name in CARRY)]
