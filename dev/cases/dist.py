"""dev/dist: what it does to an assembly changes no octet of the object, each other change is seen, and what it says."""

from __future__ import annotations

import shutil
import subprocess
import sys
import tempfile
from pathlib import Path
from typing import Iterator, Optional
from unittest import mock

from cases.lib.parts import module_of
from cases.lib.small import Run, holds
from lib.common import ROOT

# Two functions with names in quotes, local labels, a branch, a table of places and octets.
TEXT = '''\t.text
\t.section\t".text.low::first","ax",@progbits
\t.globl\t"low::first"
\t.type\t"low::first",@function
"low::first":
.Lfunc_begin0:
\tpushq\t%rax
\ttestl\t%edi, %edi
\tje\t.LBB0_2
\tcallq\t"low::first"
.LBB0_2:
\tmovdqa\t.LCPI0_0(%rip), %xmm0
\taddl\t$5, %edi
\tpopq\t%rcx
\tretq
.Lfunc_end0:
\t.size\t"low::first", .Lfunc_end0-"low::first"
\t.section\t.rodata.cst16,"aM",@progbits,16
\t.p2align\t4, 0x0
.LCPI0_0:
''' + "".join(f"\t.byte\t{it}\n" for it in range(16)) + '''\t.text
\t.globl\tmain
\t.type\tmain,@function
main:
\tjmp\t.LBB1_1
.LBB1_1:
\tleaq\t.LJTI1_0(%rip), %rax
\tjmp\t"low::first"
.Lfunc_end1:
\t.size\tmain, .Lfunc_end1-main
\t.section\t.rodata,"a",@progbits
.LJTI1_0:
\t.long\t.LBB1_1-.LJTI1_0
'''
CHANGES = ("$5, %edi|$6, %edi", "\tje\t|\tjne\t", "\t.byte\t0,1,|\t.byte\t0,2,", "\tretq\n|\tud2\n", "\tpopq\t%rcx|\tpopq\t%rdx",
           "%rip), %xmm0|%rip), %xmm1", "\t.long\t|\t.long\t1+", "\tpushq\t%rax\n|\tpushq\t%rax\n\tnop\n")


def case_same_octets(run: Run) -> Iterator[Optional[str]]:
    """The text as dist/ has it is the object; with a changed instruction or datum it isn't."""
    if not shutil.which("rt"):
        print("dev/check: dist.py is passed over: the kit isn't here", file=sys.stderr)
        return
    it = module_of(ROOT / "dev/dist")
    with tempfile.TemporaryDirectory() as work:
        plain, built = Path(work, "plain.s"), f"{work}/built.o"
        plain.write_text(TEXT)
        subprocess.run([f"{it.KIT}/toolchain/bin/clang", f"--target={it.HERE}", "-c", plain, "-o", built], check=True)
        path = it.write(Path(work), it.HERE, it.PROGRAM, TEXT)
        text = path.read_text()
        yield holds(it.is_object(path, it.HERE, built), "what it writes is another object")
        yield holds("\t.byte\t0,1,2,3,4,5,6,7,8,9,10,11,12,13,14,15\n" in text, "octets stand in other rows")
        yield holds(".LBB0_2" not in text and ".Lfunc_end1" not in text, "a label has a number")
        for change in CHANGES:
            old, _, new = change.partition("|")
            path.write_text(text.replace(old, new, 1))
            yield holds(old in text and not it.is_object(path, it.HERE, built), f"a change is not seen: {change!r}")


def case_labels(run: Run) -> Iterator[Optional[str]]:
    """A function more before another one changes no line of that; two labels are never one."""
    it = module_of(ROOT / "dev/dist")
    more = 'other:\n.LBB0_1:\n\tjmp\t.LBB0_1\n.Lfunc_end0:\n'
    later = TEXT.replace("0_", "9_").replace("end0", "end9").replace("begin0", "begin9")
    yield holds(it.by_names(more + later).endswith(it.by_names(TEXT)), "labels depend on what stands before")
    names = [f"f{n}" for n in range(3000)]
    text = it.by_names("".join(f"{name}:\n.Lfunc_end{n}:\n" for n, name in enumerate(names)))
    yield holds(len(set(text.splitlines())) == 2 * len(names), "two labels are one")


def case_risc_v(run: Run) -> Iterator[Optional[str]]:
    """Names without quotes, but in strings and sections, and no names of extensions."""
    it = module_of(ROOT / "dev/dist")
    text = '\t.attribute\t5, "rv64i"\n\t.section\t".text.low::first","ax"\n"low::first<u8>":\n\tcall\t"low::first<u8>"\n\t.asciz\t"a::b"\n'
    wanted = '\t.section\t".text.low::first","ax"\nlow.first_u8_:\n\tcall\tlow.first_u8_\n\t.asciz\t"a::b"\n'
    yield holds(it.for_binutils(text) == wanted, "a text for RISC-V is another")
    try:
        it.for_binutils('"a::b":\n"a.b":\n')
        yield "two names become one"
    except it.Refused:
        yield None


def case_what_it_says(run: Run) -> Iterator[Optional[str]]:
    """Other sources are said, and refused where CI is set; by another kit the cases run; a file that differs is refused."""
    it = module_of(ROOT / "dev/dist")
    now = {"sources": lambda: "sources 1", "compiler": lambda: "kit 1", "run_cases": lambda: 7, "quick": lambda: 5}
    anew = "dist/ was made of other sources"
    for record, ci, status, out, error in (
        ("", "", 0, "dist: there is no dist/MADE, so it is not compared; dev/dist makes it anew\n", ""),
        ("", "1", 0, "dist: there is no dist/MADE, so it is not compared; dev/dist makes it anew\n", ""),
        ("kit 1\nsources 2\n", "", 0, f"dist: {anew}, so it is not compared; dev/dist makes it anew\n", ""),
        ("kit 1\nsources 2\n", "1", 2, "", f"dist: {anew}: dev/dist makes it anew\n"),
        ("kit 2\nsources 1\n", "1", 7, "dist: it was made by another kit, so it is not compared; the cases run over it\n", ""),
        ("kit 1\nsources 1\n", "1", 0, "dist: 5 passed, 0 failed\n", ""),
    ):
        with mock.patch.multiple(it, recorded=lambda: record, run=lambda *_: "", **now), mock.patch.dict("os.environ", CI=ci):
            came = run(["dist", "--check", "quick"])
        yield holds(came == (status, out, error), f"{record!r} with CI={ci} comes to {came}")

    def refuse(*_: object) -> str:
        raise it.Refused("dist/x isn't as it was made")

    with mock.patch.multiple(it, recorded=lambda: "kit 1\nsources 1\n", run=refuse, **now):
        came = run(["dist", "--check", "quick"])
    yield holds(came == (2, "", "dist: dist/x isn't as it was made\n"), f"a changed file comes to {came}")
