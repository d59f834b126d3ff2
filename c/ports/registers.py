"""Which registers tuv_clear_stack leaves, by the code of a library: those that no call keeps, that the code has, and that
clear_registers hasn't. They are the ones that c/README tells.

    python3 registers.py ARCHIVE OBJDUMP..
"""

import re
import subprocess
import sys

HEAD = re.compile(r"^[0-9a-f]+ <([^>]+)>:$", re.M)
# By the format of objects: a register's names as it is cleared, of which is taken the group; which of these no call keeps; and
# which c/README tells.
GENERAL = "r(?:[acd]x|[sd]i|8|9|1[01])"
TARGETS = {
    "elf64-x86-64": (rf"%({GENERAL}|[xyz]mm\d+|mm[0-7]|st|k[0-7])\b", r".*", GENERAL),
    "elf64-littleaarch64": (r"\b([xvqdshbw]\d+)\b", r"x(?:\d|1[0-7])|v\d+", r"x(?:\d|1[0-7])"),
    "elf32-littlearm": (r"\b(r[0-3]|ip|[dqs]\d+)\b", r"r[0-3]|ip|d(?:[0-7]|1[6-9]|2\d|3[01])", "none"),
    "elf64-littleriscv": (r"\b(t[0-6]|a[0-7]|ft\d+|fa\d)\b", r".*", "none"),
}
# A part of a register has the whole one's name.
WHOLE = {
    "elf64-x86-64": {r"[yz]mm(\d+)": r"xmm\1"},
    "elf64-littleaarch64": {r"w(\d+)": r"x\1", r"[qdshb](\d+)": r"v\1"},
    "elf32-littlearm": {},
    "elf64-littleriscv": {},
}


def doubles(name):
    """Of 32-bit Arm, the registers of eight octets in one."""
    if name[0] == "q":
        return [f"d{2 * int(name[1:])}", f"d{2 * int(name[1:]) + 1}"]
    return [f"d{int(name[1:]) // 2}"] if name[0] == "s" else [name]


def registers(text, form):
    names, _, _ = TARGETS[form]
    found = set(re.findall(names, text))
    for part, whole in WHOLE[form].items():
        found = {re.sub(f"^{part}$", whole, it) for it in found}
    return {one for it in found for one in (doubles(it) if form == "elf32-littlearm" else [it])}


def main(archive, *objdump):
    said = subprocess.run([*objdump, "-dw", "--no-show-raw-insn", archive], capture_output=True, text=True, check=True).stdout
    form = re.search(r"file format (\S+)", said)[1]
    _, kept_by_none, told = TARGETS[form]
    _, *parts = HEAD.split(said)
    # (without addresses)
    code = [(name, re.sub(r"^ *[0-9a-f]+:\t|[0-9a-f]+ <.*?>", "", text, flags=re.M)) for name, text in zip(parts[::2], parts[1::2])]
    cleared = registers("".join(text for name, text in code if name.startswith("clear_registers")), form)
    used = registers("".join(text for name, text in code if not name.startswith("clear_registers")), form)
    left = {it for it in used - cleared if re.fullmatch(kept_by_none, it)}
    faults = sorted(it for it in left if not re.fullmatch(told, it))
    print(f"{form}: {len(used)} used, {len(cleared)} cleared, left: {' '.join(sorted(left)) or 'none'}")
    if faults or not cleared:
        sys.exit(f"left, and not told: {' '.join(faults)}")


if __name__ == "__main__":
    main(*sys.argv[1:])
