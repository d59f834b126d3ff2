#!/usr/bin/env python3
"""Which instruction that a processor leaves out lets one in who hasn't the key: logins of skips.c under Unicorn.

    skips.py LIST TARGET PROGRAM [whole]    each by itself, beside LIST; without `whole` one of STRIDE, and all that compares tags
    skips.py pairs COUNT TARGET PROGRAM END ..    so many pairs at each of these ends, drawn at random

A glitch of power, clock or field makes a processor leave an instruction out. Each one of a login with wrong MACs, outside AES,
SHA-256 and memcpy, is left out once; the login goes on, and then its end is asked. LIST has a line `TARGET END FUNCTION MOMENTS`,
` # ` and why, for each function in which that gives SUCCESS with a report. The status is 0 where these are the same, and where
nothing is left out (at one of STRIDE too) none succeeds. Whether a run ends is told by its instructions, not by a clock.
"""

import bisect
import collections
import random
import re
import sys

from elftools.elf.elffile import ELFFile
from unicorn import UC_ARCH_ARM, UC_HOOK_CODE, UC_MODE_MCLASS, UC_MODE_THUMB, UC_PROT_EXEC, UC_PROT_READ, Uc, UcError
from unicorn import arm_const as arm

# At `late` the first message's MACs are true: one without the key relays them.
ENDS = [f"{end}_{how}" for end in ("peer", "server") for how in ("psk", "gpsk1", "gpsk2")]
LATE = ["peer_psk_late", *(f"server_{how}_late" for how in ("psk", "gpsk1", "gpsk2"))]
STRIDE, SECONDS = 16, 100
CODE, CODE_LEN, RAM, RAM_LEN, RETURN = 0x10000, 0x80000, 0x20000000, 0xC000, 0x80000
# What gives another tag if an instruction is left out, and what is of skips.c.
PASSED = re.compile(r"aes_block|sha2|sha256|aes_|memcpy|memset|memmove|attack|outcome|follow|settings_of")
COMPARES = re.compile(r"equal_in_full|is_tagged|confirm|known_reads|handle_step|gpsk2::check|channel::open|asked_reads")
MODELS = {"thumbv6m-none-eabi": arm.UC_CPU_ARM_CORTEX_M0, "thumbv7em-none-eabi": arm.UC_CPU_ARM_CORTEX_M4}
REGISTERS = [getattr(arm, f"UC_ARM_REG_{it}") for it in [*(f"R{n}" for n in range(13)), "SP", "LR"]]
SUCCEEDS = "SUCCESS with a report"
KINDS = {1: "SUCCESS without a report", 2: "a report without SUCCESS", 3: SUCCEEDS}


class Program:
    """Its segments and functions."""

    def __init__(self, target, path):
        self.model = MODELS[target]
        with open(path, "rb") as it:
            elf = ELFFile(it)
            self.segments = [(seg["p_paddr"], seg.data()) for seg in elf.iter_segments() if seg["p_type"] == "PT_LOAD"]
            table = list(elf.get_section_by_name(".symtab").iter_symbols())
        self.at = {it.name: it["st_value"] for it in table}
        functions = sorted((it["st_value"] & ~1, it.name) for it in table if it["st_info"]["type"] == "STT_FUNC" and it["st_size"])
        self.starts = [at for at, _ in functions]
        self.names = [re.sub(r"::<#\w+>", "", name) for _, name in functions]

    def function(self, place):
        return self.names[bisect.bisect_right(self.starts, place) - 1]

    def board(self, see=None):
        """A processor with the program in its flash, of which `see` sees each instruction. (What was translated before a hook is
        there isn't seen.)"""
        it = Uc(UC_ARCH_ARM, UC_MODE_THUMB | UC_MODE_MCLASS)
        it.ctl_set_cpu_model(self.model)
        it.mem_map(CODE, CODE_LEN)
        it.mem_map(RAM, RAM_LEN)
        for at, octets in self.segments:
            it.mem_write(at, octets)
        it.mem_protect(CODE, CODE_LEN, UC_PROT_READ | UC_PROT_EXEC)
        if see:
            it.hook_add(UC_HOOK_CODE, lambda _, at, size, __: see(at, size))
        it.clean = it.context_save()
        return it

    def call(self, board, name, limit=0):
        """The result of a function without arguments, None if it isn't back after so many instructions."""
        board.reg_write(arm.UC_ARM_REG_SP, RAM + RAM_LEN - 64)
        board.reg_write(arm.UC_ARM_REG_LR, RETURN | 1)
        board.emu_start(self.at[name] | 1, RETURN, count=limit)
        return board.reg_read(arm.UC_ARM_REG_R0) if board.reg_read(arm.UC_ARM_REG_PC) & ~1 == RETURN else None


def half(board, at):
    return int.from_bytes(board.mem_read(at, 2), "little")


def behind_it(board, places):
    """The state of its IT block behind each instruction of one, in which a copy goes on."""
    found = {}
    for at in places:
        state = half(board, at)
        if state & 0xFF00 != 0xBF00 or not state & 0xF:
            continue
        state, at = state & 0xFF, at + 2
        while state & 0xF:
            size = 4 if half(board, at) >> 11 >= 0x1D else 2
            state = 0 if state & 7 == 0 else state & 0xE0 | state << 1 & 0x1F
            found[at], at = state, at + size
    return found


class Login:
    """The attack on an end, from where its packet has come."""

    def __init__(self, program, end):
        self.program, self.end = program, end
        self.copy = program.board()
        self.trace = []
        board = self.ready(lambda *it: self.trace.append(it))
        self.trace.clear()
        program.call(board, f"attack_{end}")
        self.limit = 4 * len(self.trace) + 100000
        self.behind = behind_it(board, {at for at, _ in self.trace})
        self.moments = self.outside(self.trace)

    def ready(self, see):
        board = self.program.board(see)
        if self.program.call(board, f"ready_{self.end}") != 0:
            sys.exit(f"skips.py: {self.end} doesn't come to its attack")
        return board

    def outside(self, trace):
        """The moments that are outside of ciphers."""
        passed = {at: PASSED.search(self.program.function(at)) for at, _ in trace}
        return [n for n, (at, _) in enumerate(trace) if not passed[at]]

    def chosen(self, whole):
        """The moments that are tried: of what compares tags each place's last one too."""
        last = {self.trace[n][0]: n for n in self.moments if COMPARES.search(self.program.function(self.trace[n][0]))}
        return set(self.moments) if whole else {*self.moments[::STRIDE], *last.values()}

    def state(self, board, at):
        """What a copy goes on from, at this instruction."""
        behind = self.behind.get(at, 0)
        flags = board.reg_read(arm.UC_ARM_REG_XPSR) & ~0x0600FC00 | (behind & 0xFC) << 8 | (behind & 3) << 25
        registers = [(it, board.reg_read(it)) for it in REGISTERS]
        return bytes(board.mem_read(RAM, RAM_LEN)), [*registers, (arm.UC_ARM_REG_XPSR, flags)]

    def go_on(self, copy, state, at):
        """What comes of it where a copy goes on from that state at this instruction."""
        copy.context_restore(copy.clean)
        copy.mem_write(RAM, state[0])
        for it, value in state[1]:
            copy.reg_write(it, value)
        try:
            copy.emu_start(at | 1, RETURN, count=self.limit)
            if copy.reg_read(arm.UC_ARM_REG_PC) & ~1 != RETURN:
                return "hung"
            return KINDS.get(self.program.call(copy, "judge", self.limit), "refused")
        except UcError:
            return "crashed"

    def visit(self, wanted, each):
        """Runs the attack; at each of these moments `each` gets the board, the place and the size of its instruction."""
        now = iter(())

        def see(at, size):
            if next(now, None) in wanted:
                each(board, at, size)

        board = self.ready(see)
        now = iter(range(len(self.trace)))
        self.program.call(board, f"attack_{self.end}")


def single(login, whole):
    """How often each outcome came, in which functions one succeeds, and how often though nothing was left out."""
    came, succeeds, control = collections.Counter(), collections.Counter(), collections.Counter()

    def each(board, at, size):
        state = login.state(board, at)
        if sum(came.values()) % STRIDE == 0:
            control[login.go_on(login.copy, state, at)] += 1
        what = login.go_on(login.copy, state, at + size)
        came[what] += 1
        succeeds[login.program.function(at)] += what == SUCCEEDS

    login.visit(login.chosen(whole), each)
    return came, +succeeds, control


def listed(path, target):
    with open(path, encoding="utf-8") as it:
        rows = re.findall(r"^([^#\s]+) (\S+) (\S+) (\d+)", it.read(), re.M)
    return {(end, function): int(moments) for of, end, function, moments in rows if of == target}


def told(came):
    return ", ".join(f"{n} {what}" for what, n in came.most_common())


def singles(path, target, program, whole):
    """Whether as many succeed as the list says, and none where nothing is left out."""
    found, wanted, good = {}, listed(path, target), True
    for end in [*ENDS, *LATE]:
        login = Login(program, end)
        came, succeeds, control = single(login, whole)
        found.update({(end, function): moments for function, moments in succeeds.items()})
        print(f"{target} {end}: {sum(came.values())} of {len(login.moments)} moments: {told(came)}", flush=True)
        if set(control) != {"refused"}:
            print(f"{end}: with nothing left out {told(control)}")
            good = False
    for it in sorted(found.keys() | wanted.keys()):
        if found.get(it, 0) != wanted.get(it, 0):
            print(f"{target} {' '.join(it)}: {found.get(it, 0)} moments succeed, listed {wanted.get(it, 0)}")
    return good and found == wanted


def seconds(login, state, at, count):
    """What comes of it if a second one of what runs from here on is left out, drawn so often."""
    trace, wanted, came = [], set(), collections.Counter()

    def see(at, size):
        trace.append((at, size))
        if len(trace) - 1 in wanted:
            came[login.go_on(login.copy, login.state(board, at), at + size)] += 1

    board = login.program.board(see)
    login.go_on(board, state, at)
    login.behind.update(behind_it(board, {at for at, _ in trace}))
    moments = login.outside(trace)
    wanted.update(random.sample(moments, min(count, len(moments))))
    trace.clear()
    login.go_on(board, state, at)
    return came


def pairs(count, program, ends):
    for end in ends:
        login, came = Login(program, end), collections.Counter()
        firsts = set(random.sample(login.moments, int(count) // SECONDS))
        login.visit(firsts, lambda board, at, size: came.update(seconds(login, login.state(board, at), at + size, SECONDS)))
        print(f"{end}: {sum(came.values())} pairs: {told(came)}", flush=True)


def main(words):
    random.seed(1)
    if len(words) > 4 and words[0] == "pairs":
        return pairs(words[1], Program(words[2], words[3]), words[4:])
    if len(words) == 3 or words[3:] == ["whole"]:
        return not singles(words[0], words[1], Program(words[1], words[2]), len(words) == 4)
    sys.exit(__doc__)


if __name__ == "__main__":
    sys.exit(main(sys.argv[1:]))
