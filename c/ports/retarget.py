"""The module of the ends for processors that the kit has no target for, for `c/library --target`: made of that for x86-64.

These change, and nothing else: the layout and the triple; the words of x86-64; the one instruction that looks sixteen octets
up in a table of sixteen, or, where there is none, the function that says so, on which AES goes by slices of bits; and where a pointer has 4 octets the first-class structs that contain one, so that each pointer keeps
a slot of 8 octets and no offset changes (`same_offsets` refuses a module of which that isn't so). Sizes keep 64 bits in the
module; narrow.c stands between it and calls of 32 bits.
"""

import re
from typing import NamedTuple

ARM64 = "e-m:e-p270:32:32-p271:32:32-p272:64:64-i8:8:32-i16:16:32-i64:64-i128:128-n32:64-S128-Fn32"
ARM = "e-m:e-p:32:32-Fi8-i64:64-v128:64:128-a:0:32-n32-S64"
RISCV32 = "e-m:e-p:32:32-i64:64-n32-S128"
RISCV64 = "e-m:e-p:64:64-i64:64-i128:128-n32:64-S128"


class Port(NamedTuple):
    triple: str
    layout: str
    pointer: int  # its octets
    flags: tuple  # for the kit's clang and for the compiler of C
    look_up: str  # which of LOOK_UPS, or "" where octets are not shuffled
    compiler: str
    has_system: bool = True  # shared objects, and malloc
    level: tuple = ("-Os",)  # more for clang

    @property
    def cc(self):
        """The compiler of C for it, with its words."""
        return " ".join([self.compiler, *self.flags, *([] if self.has_system else ["--specs=picolibc.specs"])])


NEON = ("-march=armv7-a", "-mfpu=neon", "-mfloat-abi=hard")
RV64, RV32 = ("-march=rv64gc", "-mabi=lp64d"), ("-march=rv32imac", "-mabi=ilp32")
PORTS = {
    # (without proofs alone: the proved one is the kit's own, as this flag is)
    "aarch64-unknown-linux-gnu": Port(
        "aarch64-unknown-linux-gnu",
        ARM64,
        8,
        (),
        "tbl",
        "aarch64-linux-gnu-gcc",
        level=("-O3", "-mllvm", "-aarch64-load-store-renaming=false"),
    ),
    "armv7-unknown-linux-gnueabihf": Port("armv7-unknown-linux-gnueabihf", ARM, 4, NEON, "vtbl", "arm-linux-gnueabihf-gcc"),
    "riscv64-unknown-linux-gnu": Port("riscv64-unknown-linux-gnu", RISCV64, 8, RV64, "", "riscv64-linux-gnu-gcc"),
    "riscv32-unknown-none-elf": Port("riscv32-unknown-none-elf", RISCV32, 4, RV32, "", "riscv64-unknown-elf-gcc", False),
}
# (half of what clang inlines for size otherwise: a peer has 3 KB less)
CORTEX = ("-Os", "-mllvm", "-inline-threshold=25")
for name, triple, cpu in (
    ("thumbv6m-none-eabi", "thumbv6m", "cortex-m0"),
    ("thumbv7m-none-eabi", "thumbv7m", "cortex-m3"),
    ("thumbv7em-none-eabi", "thumbv7em", "cortex-m4"),
    ("thumbv7em-none-eabi-cached", "thumbv7em", "cortex-m7"),
    ("thumbv8m.main-none-eabi", "thumbv8m.main", "cortex-m33"),
):
    words = (f"-mcpu={cpu}", "-mthumb", "-mfloat-abi=soft")
    PORTS[name] = Port(f"{triple}-none-unknown-eabi", ARM, 4, words, "", "arm-none-eabi-gcc", False, CORTEX)
SHUFFLE = "@llvm.x86.ssse3.pshuf.b.128"
# The function that says whether the processor shuffles octets.
CHOICE = re.compile(r'^(define internal [^@\n]*\bi1 @"aes_block::processor::shuffles"\(\)[^\n]*\{\n)(.*?^\}\n)', re.S | re.M)
SIZES = {"i1": 1, "i8": 1, "i16": 2, "i32": 4, "i64": 8}
# What would depend on a pointer's size, or isn't known to keep its place.
UNKNOWN = (
    r"x ptr\]",
    r"getelementptr (?:inbounds )?(?:nuw )?(?!inbounds|nuw|i8,)\S+",
    r"= (?:private|internal|external)?.*(?:constant|global) .*\bptr\b",
    r"<\d+ x ptr>",
    r"\binttoptr\b",
    r"\bbyval\b|\bsret\b",
    r"alloca ptr, i",
)


class Unported(Exception):
    """Why a module can't be taken to another processor by this."""


def offsets(fields, pointer):
    """Where each field of a first-class struct lies."""
    at, found = 0, []
    for field in fields:
        size = pointer if field == "ptr" else SIZES.get(field)
        if size is None:
            raise Unported(f"a struct has a {field}")
        at += -at % size
        found.append(at)
        at += size
    return found


def same_offsets(text):
    """The structs whose offsets change with the pointer's size. Every other use of that size is refused."""
    for form in UNKNOWN:
        found = re.search(form, text)
        if found:
            raise Unported(f"the module has a `{found[0]}`")
    differ = set()
    for body in set(re.findall(r"\{ ((?:[a-z0-9]+)(?:, [a-z0-9]+)*) \}", text)):
        fields = body.split(", ")
        if "ptr" in fields and offsets(fields, 4) != offsets(fields, 8):
            differ.add(body)
    return differ


def by_vtbl():
    """NEON's: of a table of two halves, twice; 0 for an index over 15."""

    def half(name, of, first):
        places = ", ".join(f"i32 {n}" for n in range(first, first + 8))
        return f"%{name} = shufflevector <16 x i8> %{of}, <16 x i8> poison, <8 x i32> <{places}>"

    places = ", ".join(f"i32 {n}" for n in range(16))
    call = "call <8 x i8> @llvm.arm.neon.vtbl2(<8 x i8> %lo, <8 x i8> %hi, <8 x i8>"
    joined = f"%r = shufflevector <8 x i8> %a, <8 x i8> %b, <16 x i32> <{places}>"
    halves = [half("lo", "t", 0), half("hi", "t", 8), half("il", "i", 0), half("ih", "i", 8)]
    return ["alwaysinline", *halves, f"%a = {call} %il)", f"%b = {call} %ih)", joined, "ret <16 x i8> %r"]


def by_tbl():
    """64-bit Arm's, of sixteen; 0 for an index over 15."""
    return ["alwaysinline", "%r = call <16 x i8> @llvm.aarch64.neon.tbl1.v16i8(<16 x i8> %t, <16 x i8> %i)", "ret <16 x i8> %r"]


LOOK_UPS = {
    "tbl": by_tbl,
    "vtbl": by_vtbl,
}
DECLARED = {
    "tbl": "declare <16 x i8> @llvm.aarch64.neon.tbl1.v16i8(<16 x i8>, <16 x i8>)\n",
    "vtbl": "declare <8 x i8> @llvm.arm.neon.vtbl2(<8 x i8>, <8 x i8>, <8 x i8>)\n",
}


def look_up(form):
    """What stands for the shuffle: of a table and of places, of which one over 127 gets 0, and no other is over 15."""
    kind, *lines = LOOK_UPS[form]()
    head = f"\ndefine internal <16 x i8> @look_up(<16 x i8> %t, <16 x i8> %i) {kind} nounwind {{\n  "
    return head + "\n  ".join(lines) + "\n}\n" + DECLARED[form]


def by_slices(text):
    """The module whose AES goes by slices. The shuffles are then in code that nothing runs; a program in which one is left has
    a name that nothing defines."""
    bodies = [body for _, body in CHOICE.findall(text)]
    if len(bodies) != 1 or bodies[0].count("i1 true") != 1 or re.search(r"false|call|%a\d", bodies[0]):
        raise Unported("the module has no function that says just that octets are shuffled")
    text = CHOICE.sub(lambda it: it[1] + it[2].replace("i1 true", "i1 false"), text)
    return text + "\ndeclare <16 x i8> @look_up(<16 x i8>, <16 x i8>)\n"


def heap(name, given):
    """A call of the heap, whose answer of two words comes by its place (narrow.c)."""
    kinds = re.sub(r" %\w+", "", given)
    return f"""
declare void @tuv_wide_{name}(ptr, {kinds})
define internal {{ i64, i64 }} @rattle_{name}({given}) {{
  %place = alloca {{ i64, i64 }}, align 8
  call void @tuv_wide_{name}(ptr %place, {given})
  %answer = load {{ i64, i64 }}, ptr %place, align 8
  ret {{ i64, i64 }} %answer
}}
"""


def narrowed(text):
    """The module with pointers of 4 octets in slots of 8."""
    differ = same_offsets(text)
    if not differ <= {"i8, ptr"}:
        raise Unported(f"structs of the module lie otherwise where pointers are short: {differ}")
    text = re.sub(r"((?:extractvalue|insertvalue) \{ i8, ptr \} .*), 1$", r"\1, 2", text, flags=re.M)
    text = text.replace("{ i8, ptr }", "{ i8, [7 x i8], ptr }")
    text = re.sub(r"alloca ptr, align \d+", "alloca i64, align 8", text).replace("ptrtoaddr ptr", "ptrtoint ptr")
    for name, given in (("alloc", "i64 %size, i64 %align"), ("realloc", "ptr %at, i64 %old, i64 %size, i64 %align")):
        text, count = re.subn(rf"^declare \{{ i64, i64 \}} @rattle_{name}\(.*\n", heap(name, given), text, flags=re.M)
        if count != 1:
            raise Unported(f"the module declares rattle_{name} {count} times")
    # (what comes in one register of 64 bits comes in two here)
    for bits, name, given in re.findall(r"^define i(16|40|48|56) @(tuv_\w+)\((.*?)\) #", text, re.M):
        text = re.sub(rf"@{name}\(", f"@in_{name}(", text)
        text = text.replace(f"define i{bits} @in_{name}(", f"define internal i{bits} @in_{name}(")
        given = given.replace("noundef ", "")
        text += f"\ndefine i64 @{name}({given}) {{\n  %r = call i{bits} @in_{name}({given})\n"
        text += f"  %w = zext i{bits} %r to i64\n  ret i64 %w\n}}\n"
    return text


def ported(text, target):
    """The module for x86-64, as one for this target."""
    port = PORTS[target]
    if "p270:32:32-p271:32:32-p272:64:64" not in text[:2000]:
        raise Unported("the module is not one for x86-64")
    text = re.sub(r"^target datalayout = .*", f'target datalayout = "{port.layout}"', text, flags=re.M)
    text = re.sub(r"^target triple = .*", f'target triple = "{port.triple}"', text, flags=re.M)
    text = re.sub(r' ?"(probe-stack|stack-probe-size|target-cpu|frame-pointer)"="[^"]*"', "", text)
    text = re.sub(r"^(attributes #\d+ = \{) +\}$", r'\1 "ported" }', text, flags=re.M)  # (clang takes no empty group)
    text = re.sub(rf"^declare .*{re.escape(SHUFFLE)}\(.*\n", "", text, flags=re.M)
    text = text.replace(SHUFFLE, "@look_up")
    text = text + look_up(port.look_up) if port.look_up else by_slices(text)
    left = sorted(set(re.findall(r"@llvm\.x86\.[\w.]+", text)))
    if left:
        raise Unported(f"instructions of x86-64 are left: {left}")
    return narrowed(text) if port.pointer == 4 else text


# The functions of which a library for size is made for speed all the same.
CIPHERS = re.compile(r"aes_block|sha2::|compress|block256")


def for_size(text):
    """The module with `optsize` on all functions but those of AES and SHA-256."""

    def marked(found):
        return found[0] if CIPHERS.search(found[1]) else f"{found[1]} optsize #0{found[2]}"

    return re.sub(r"^(define [^\n]*?) #0([^\n]*\{)$", marked, text, flags=re.M)
