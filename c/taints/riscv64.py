"""64-bit RISC-V: the ops of each instruction."""

import re

from .engine import Unread

SP, PUSHED = "sp", 0
WORD, RESULT = 8, "a0"
PASSED = tuple(f"a{i}" for i in range(8))
KEPT = tuple(f"s{i}" for i in range(12))
VECTORS = ()
BRANCH = "\tlbu\tt0, 0(a1)\n\tbeqz\tt0, .LBBplant\n.LBBplant:\n"
LENGTH = "\tlbu\tt0, 0(a1)\n\tsb\tt0, 97(a0)\n\tret\n"
LOOK_UP = "\tlbu\tt0, 0(a1)\n\tauipc\tt1, %pcrel_hi(.Lstatic.0)\n\tadd\tt1, t1, t0\n\tlbu\tt0, 0(t1)\n"
EARLY_END = "\tlbu\tt0, 0(a0)\n\tlbu\tt1, 0(a2)\n\tbeq\tt0, t1, .LBBplant\n\tli\ta0, 0\n\tret\n.LBBplant:\n"
LOADS = {"lb": 1, "lbu": 1, "lh": 2, "lhu": 2, "lw": 4, "lwu": 4, "ld": 8}
STORES = {"sb": 1, "sh": 2, "sw": 4, "sd": 8}
BRANCHES = {"beq": "eq", "bne": "ne", "bltu": "lo", "bgeu": "hs", "blt": "lt", "bge": "ge"}
COMPUTED = ("and", "or", "xor", "xori", "ori", "not", "neg", "srl", "sll", "srai", "sraiw", "slliw", "sllw", "srlw",
            "sltu", "sltiu", "slt", "slti", "snez", "seqz", "mul", "mulhu", "addw", "addiw", "subw", "sext.w")


def name_of(name):
    """The name that the assembly has for a function."""
    return name.replace("::", ".")


def operand(text):
    return 0 if text == "zero" else text


def memory(text):
    """Octets behind a register; %pcrel_lo belongs to the register's table."""
    offset, base = re.fullmatch(r"(.*)\((\w+)\)", text).groups()
    return base, None, 1, 0 if offset[:1] == "%" else int(offset), None


def decode(name, text, where):
    """The ops of an instruction."""
    words = re.split(r",\s*", text) if text else []
    if name == "ret":
        return [("ret",)]
    if name in ("call", "tail"):
        return [(name, words[0], where)]
    if name == "j":
        return [("jump", words[0])]
    if name in BRANCHES:
        a, b = operand(words[0]), operand(words[1])
        return [("flags", (a, b), 8) if a == 0 else ("cmp", a, b, 8), ("br", BRANCHES[name], words[2], where)]
    if name in ("beqz", "bnez"):
        return [("cmp", words[0], 0, 8), ("br", "eq" if name == "beqz" else "ne", words[1], where)]
    if name in STORES:
        return [("store", operand(words[0]), memory(words[1]), STORES[name], where)]
    to = words[0]
    if name in ("lb", "lh"):
        return [("load", "signed", memory(words[1]), LOADS[name], where), ("gen", (to,), ("signed",))]
    if name in LOADS:
        return [("load", to, memory(words[1]), LOADS[name], where)]
    if name == "auipc":
        return [("place", to, (None, None, 1, 0, words[1]))]
    if name in ("li", "lui"):
        return [("mov", to, int(words[1], 0) << (12 if name == "lui" else 0))]
    if name == "mv":
        return [("mov", to, operand(words[1]))]
    if name == "addi" and words[2][0] == "%":
        return [("mov", to, words[1])]
    if name in ("add", "addi", "sub"):
        b = operand(words[2])
        return [("sum", to, operand(words[1]), int(b, 0) if name == "addi" else b, -1 if name == "sub" else 1)]
    if name == "andi":
        return [("and", to, words[1], int(words[2], 0))]
    if name == "zext.b":
        return [("cut", to, words[1], 1)]
    if name in ("slli", "srli"):
        return [("shift", to, words[1], int(words[2]) * (1 if name == "slli" else -1))]
    if name == "srliw":
        return [("gen", (to,), (words[1],))]
    if name in COMPUTED:
        return [("gen", (to,), tuple(it for it in words[1:] if not re.fullmatch(r"-?\d+|0x\w+|zero", it)))]
    raise Unread(f"an instruction {name} {text}")
