"""x86-64, as AT&T writes it: the ops of each instruction."""

import re

from .engine import Unread

SP, PUSHED = "rsp", 8
WORD, RESULT = 8, "rax"
PASSED = ("rdi", "rsi", "rdx", "rcx", "r8", "r9")
KEPT = ("rbx", "rbp", "r12", "r13", "r14", "r15")
VECTORS = tuple(f"xmm{i}{half}" for i in range(8) for half in ("", "h"))
BRANCH = "\tcmpb\t$0, (%rsi)\n\tje\t.LBBplant\n.LBBplant:\n"
LENGTH = "\tmovb\t(%rsi), %al\n\tmovb\t%al, 97(%rdi)\n\tretq\n"
LOOK_UP = "\tmovzbl\t(%rsi), %eax\n\tleaq\t.Lstatic.0(%rip), %r11\n\tmovzbl\t(%r11,%rax), %eax\n"
EARLY_END = "\tmovzbl\t(%rdi), %eax\n\tcmpb\t(%rdx), %al\n\tje\t.LBBplant\n\txorl\t%eax, %eax\n\tretq\n.LBBplant:\n"
REGS = {}
for _name in ("ax", "bx", "cx", "dx", "si", "di", "bp", "sp"):
    _low = _name[0] + "l" if _name[1] == "x" else _name + "l"
    REGS.update({f"r{_name}": (f"r{_name}", 8), f"e{_name}": (f"r{_name}", 4), _name: (f"r{_name}", 2), _low: (f"r{_name}", 1)})
    if _name[1] == "x":
        REGS[_name[0] + "h"] = (f"r{_name}", 0)
for _i in range(8, 16):
    REGS.update({f"r{_i}": (f"r{_i}", 8), f"r{_i}d": (f"r{_i}", 4), f"r{_i}w": (f"r{_i}", 2), f"r{_i}b": (f"r{_i}", 1)})
CONDITIONS = {"e": "eq", "ne": "ne", "b": "lo", "ae": "hs", "a": "hi", "be": "ls"}
ALU = {"add", "sub", "and", "or", "xor", "adc", "sbb", "imul", "shl", "shr", "sar", "rol", "ror", "inc", "dec", "neg", "not",
       "bswap", "shld", "shrd"}
ONE = {"inc", "dec", "neg", "not", "bswap"}
SIZES = {"b": 1, "w": 2, "l": 4, "q": 8}
MEMORY = re.compile(r"^(?:([-\w.$:<>#=]+|\"[^\"]*\")?)(?:([-+]\d+))?\((%\w+)?(?:,(%\w+)(?:,(\d))?)?\)$")


def split(text):
    """The operands."""
    parts, depth, start = [], 0, 0
    quoted = False
    for i, it in enumerate(text):
        if it == '"':
            quoted = not quoted
        if quoted:
            continue
        if it == "(":
            depth += 1
        elif it == ")":
            depth -= 1
        elif it == "," and not depth:
            parts.append(text[start:i].strip())
            start = i + 1
    if text[start:].strip():
        parts.append(text[start:].strip())
    return parts


def is_memory(text):
    return text.endswith(")")


def memory(text):
    found = MEMORY.match(text)
    if not found:
        raise Unread(f"an address {text}")
    front, more, base, index, scale = found.groups()
    offset, symbol = 0, None
    if front:
        if re.fullmatch(r"-?\d+", front):
            offset = int(front)
        else:
            symbol = re.sub(r"[-+]\d+$", "", front)
    if base == "%rip":
        return None, None, 1, 0, symbol
    return base and base[1:], index and index[1:], int(scale or 1), offset, symbol


def number(text):
    return int(text[1:], 0)


def name_of(name):
    """The name that the assembly has for a function."""
    return name


def symbol_of(text):
    return text.replace("@PLT", "").strip('"')


def value(text, size, ops, where, temp="t0"):
    """A register with this operand's value, or its number."""
    if text[0] == "$":
        return number(text)
    if is_memory(text):
        ops.append(("load", temp, memory(text), size, where))
        return temp
    reg, width = REGS[text[1:]]
    if width == 0:
        ops.append(("gen", (temp,), (reg,), False))
        return temp
    return reg


def decode(name, text, where):
    """The ops of an instruction."""
    words, out = split(text), []
    if name in ("call", "callq"):
        return [("call", symbol_of(words[0]), where)]
    if name in ("ret", "retq"):
        return [("ret",)]
    if name == "jmp":
        if words[0].startswith(".L"):
            return [("jump", words[0])]
        return [("tail", symbol_of(words[0]), where)]
    if name == "jmpq":
        raise Unread(f"a jump {text}")
    if name[0] == "j":
        return [("br", CONDITIONS.get(name[1:], name[1:]), words[0], where)]
    if name == "pushq":
        out += [("sum", SP, SP, 8, -1)]
        source = value(words[0], 8, out, where)
        return out + [("store", source, (SP, None, 1, 0, None), 8, where)]
    if name == "popq":
        return [("load", words[0][1:], (SP, None, 1, 0, None), 8, where), ("sum", SP, SP, 8, 1)]
    if "%xmm" in text:
        return vector(name, words, where)
    if name.startswith("set"):
        return set_to(words[0], 1, [("set", "t1", CONDITIONS.get(name[3:]))], where)
    if name.startswith("cmov"):
        size = SIZES[name[-1]]
        source = value(words[0], size, out, where)
        to = REGS[words[1][1:]][0]
        return out + [("pick", to, to, source)]
    found = re.fullmatch(r"mov([zs])([bwl])([wlq])", name)
    if found:
        size = SIZES[found[2]]
        source = value(words[0], size, out, where)
        to = REGS[words[1][1:]][0]
        if name == "movslq" and is_memory(words[0]):
            return out + [("mov", to, source)]
        if found[1] == "z" or size == 4:
            return out + [("cut", to, source, size)]
        return out + [("cut", "t1", source, size), ("gen", (to,), ("t1",), False)]
    if name == "movabsq":
        return [("mov", REGS[words[1][1:]][0], number(words[0]))]
    base, size = name[:-1], SIZES.get(name[-1])
    if base == "mov" and size:
        source = value(words[0], size, out, where)
        if is_memory(words[1]):
            return out + [("store", source, memory(words[1]), size, where)]
        to = REGS[words[1][1:]][0]
        if isinstance(source, int):
            return out + ([("mov", to, source)] if size >= 4 else [("low", to, source)])
        if size == 8:
            return out + [("mov", to, source)]
        if size == 4:
            return out + [("cut", to, source, 4)]
        return out + [("low", to, source) if size == 1 else ("gen", (to,), (to, source))]
    if base == "lea":
        return [("place", REGS[words[1][1:]][0], memory(words[0]))]
    if base in ("cmp", "test", "bt"):
        a = value(words[1], size, out, where, "t0")
        b = value(words[0], size, out, where, "t1")
        if base == "cmp" and not isinstance(a, int):
            return out + [("cmp", a, b, size)]
        if base == "test" and a == b:
            return out + [("cmp", a, 0, size)]
        return out + [("flags", tuple(it for it in (a, b) if not isinstance(it, int)), size)]
    if base in ALU and size:
        return alu(base, size, words, where)
    raise Unread(f"an instruction {name} {text}")


def set_to(text, size, out, where, temp="t1"):
    if is_memory(text):
        return out + [("store", temp, memory(text), size, where)]
    reg = REGS[text[1:]][0]
    return out + [("low", reg, temp) if size == 1 else ("mov", reg, temp)]


def alu(base, size, words, where):
    out, to = [], words[-1]
    a = value(to, size, out, where, "t0")
    if base in ONE or len(words) == 1:
        b = 1
    else:
        b = value(words[0], size, out, where, "t2")
    sources = tuple(it for it in (a, b) if not isinstance(it, int))
    if len(words) == 3:
        third = value(words[1], size, out, where, "t3")
        sources = (third, *sources) if base in ("shld", "shrd") else tuple(it for it in (third, b) if not isinstance(it, int))
    carry = base in ("adc", "sbb")
    same = len(words) == 2 and words[0] == to
    wide = size >= 4
    if base in ("xor", "sub") and same:
        out.append(("mov", "t1", 0) if size != 1 else ("low", "t1", 0))
    elif base == "sbb" and same:
        out.append(("gen", ("t1",), (), True))
    elif base in ("inc", "dec") and wide:
        out.append(("sum", "t1", a, 1, 1 if base == "inc" else -1))
    elif base in ("add", "sub") and wide:
        out.append(("sum", "t1", a, b, 1 if base == "add" else -1))
    elif base == "and" and isinstance(b, int) and wide:
        out.append(("and", "t1", a, b))
    elif base in ("shl", "shr") and isinstance(b, int) and wide:
        out.append(("shift", "t1", a, b if base == "shl" else -b))
    elif size == 1:
        out.append(("gen8", "t1", sources, carry))
    else:
        out.append(("gen", ("t1",), sources, carry))
    if size == 4 and out[-1][0] in ("sum", "shift"):
        out.append(("cut", "t1", "t1", 4))
    if base not in ("not", "bswap"):
        if base == "sub" and not same:
            out.append(("cmp", a, b, size))
        else:
            out.append(("flags", tuple(it for it in sources if not same), size) if not carry else ("flags", sources, size, True))
    return set_to(to, size, out, where)


def vector(name, words, where):
    out, to = [], words[-1]
    if name in ("movups", "movaps", "movdqa", "movdqu", "movapd"):
        if is_memory(words[0]):
            base, index, scale, offset, symbol = memory(words[0])
            return [("load", to[1:], (base, index, scale, offset, symbol), 8, where),
                    ("load", to[1:] + "h", (base, index, scale, offset + 8, symbol), 8, where)]
        if is_memory(to):
            base, index, scale, offset, symbol = memory(to)
            return [("store", words[0][1:], (base, index, scale, offset, symbol), 8, where),
                    ("store", words[0][1:] + "h", (base, index, scale, offset + 8, symbol), 8, where)]
        return [("mov", to[1:], words[0][1:]), ("mov", to[1:] + "h", words[0][1:] + "h")]
    sizes = {"movq": 8, "movsd": 8, "movlps": 8, "movd": 4, "movss": 4}
    if name in sizes:
        size = sizes[name]
        if is_memory(to):
            return [("store", words[0][1:], memory(to), size, where)]
        if is_memory(words[0]):
            out.append(("load", to[1:], memory(words[0]), size, where))
            return out if name == "movlps" else out + [("mov", to[1:] + "h", 0)]
        source = words[0][1:] if words[0].startswith("%xmm") else REGS[words[0][1:]][0]
        if name == "movss":
            return [("gen", (to[1:],), (to[1:], source))]
        if to.startswith("%xmm"):
            return [("mov", to[1:], source), *([("mov", to[1:] + "h", 0)] if name != "movsd" else [])]
        return [("mov", REGS[to[1:]][0], source)]
    if name in ("xorps", "pxor", "pcmpeqb") and words[0] == to:
        return [("gen", (to[1:], to[1:] + "h"), ())]
    sources = []
    for i, it in enumerate(words):
        if it[0] == "$":
            continue
        if is_memory(it):
            if i == len(words) - 1:
                size = {"pextrb": 1, "pextrw": 2, "pextrd": 4, "pextrq": 8, "movhps": 8}[name]
                return [("gen", ("t1",), (words[-2][1:], words[-2][1:] + "h"), False), ("store", "t1", memory(it), size, where)]
            size = {"pinsrb": 1, "pinsrw": 2, "pinsrd": 4, "pinsrq": 8}.get(name, 16)
            base, index, scale, offset, symbol = memory(it)
            out.append(("load", "t4", (base, index, scale, offset, symbol), min(size, 8), where))
            sources.append("t4")
            if size == 16:
                out.append(("load", "t5", (base, index, scale, offset + 8, symbol), 8, where))
                sources.append("t5")
        elif it.startswith("%xmm"):
            if i < len(words) - 1 or name not in ("pshufd", "pshuflw"):
                sources += [it[1:], it[1:] + "h"]
        else:
            reg = REGS[it[1:]][0]
            if i < len(words) - 1:
                sources.append(reg)
    if name == "punpcklqdq" and words[0].startswith("%xmm"):
        return [("mov", to[1:] + "h", words[0][1:])]
    if name == "ptest":
        return out + [("flags", tuple(sources), 16)]
    if to.startswith("%xmm"):
        return out + [("gen", (to[1:], to[1:] + "h"), tuple(sources), False)]
    return out + [("gen", (REGS[to[1:]][0],), tuple(sources), False)]
