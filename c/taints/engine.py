"""What a function does with secrets, on all its paths: an interpretation of its instructions by values that are known in part.

A value is (taint, kind, lo, hi). The taint has a bit for each secret octet, from the lowest on. The kind says what it is: a
NUMBER, a place on the STACK (an offset from the entry) or in an object that the entry is handed (OBJECT and its number), a place
among SECRET octets, a place in a TABLE of constants, or ANY of these. Numbers and offsets lie from lo to hi, None being no bound.

A function with a contract is interpreted by itself, with what its contract says of its arguments, and must end as the contract
says. Where it is called, its arguments must be as the contract says, and what it leaves is.
"""

from typing import NamedTuple, Optional

NUMBER, STACK, SECRET, TABLE, ANY, OBJECT = "number", "stack", "secret", "table", "any", "object "
PIECES = "pieces"
ALL = 255
PUBLIC, TAINTED = (0, NUMBER, None, None), (ALL, NUMBER, None, None)
# The octets of stack that are looked at, below the entry and above it.
BELOW, ABOVE = 1 << 14, 1 << 11
# How often a block is joined before a bound that moves goes to a limit.
PATIENCE = 3


class Unread(Exception):
    """An instruction, an address or a call that isn't read."""


class Function:
    """Blocks of ops, by number, and the number of each label; `limits` are the numbers that its ops name."""

    def __init__(self, name):
        self.name, self.blocks, self.labels, self.limits = name, [[]], {}, {0}

    def label(self, name):
        if self.blocks[-1]:
            self.blocks.append([])
        self.labels[name] = len(self.blocks) - 1

    def add(self, ops):
        self.blocks[-1] += ops
        inner = [one for op in ops if op[0] == "when" for one in op[2]]
        self.limits.update(it for op in (*ops, *inner) for it in op if type(it) is int)
        if ops and ops[-1][0] in ("br", "retif", "jump", "ret", "tail"):
            self.blocks.append([])


class Param(NamedTuple):
    """An argument of a contract: a number ("n" of 8 octets, "b" of fewer), or the place of octets that are read ("r"), written in
    place ("w") or written whole ("o"), or of places and lengths of such ("p"); how many, if they lie together, of which those of
    `public`, by offset with their count and what they are (if known), depend on no secret."""

    kind: str
    size: Optional[int] = None
    public: tuple = ()
    known: Optional[int] = None

    def mask(self):
        return sum(octets(at, at + count) for at, count, _ in self.public)


class Contract(NamedTuple):
    """The arguments of a function, whether its result depends on no secret, and how many octets of the stack it copies at most
    where it doesn't tell how many."""

    params: list
    is_public: bool
    reach: Optional[int]


class Area:
    """The stack, or an object: a bit for each secret octet, and the values that stand there, by offset with their size."""

    def __init__(self, mask=0, words=None):
        self.mask, self.words = mask, words or {}

    def copy(self):
        return Area(self.mask, dict(self.words))


class State:
    """What is known before an op: registers; the stack and objects; the taint of the flags, and what was compared last."""

    def __init__(self, regs, areas=None):
        self.regs, self.areas, self.flags, self.compared = regs, areas or {STACK: Area()}, 0, None

    def copy(self):
        other = State(dict(self.regs), {kind: it.copy() for kind, it in self.areas.items()})
        other.flags, other.compared = self.flags, self.compared
        return other

    def get(self, name):
        return (0, NUMBER, name, name) if isinstance(name, int) else self.regs.get(name, PUBLIC)


def const(number):
    return (0, NUMBER, number, number)


def join(a, b):
    if a == b:
        return a
    taint, kind = a[0] | b[0], a[1] if a[1] == b[1] else ANY
    if kind in (SECRET, TABLE, PIECES, ANY):
        return (taint, kind, None, None)
    return (taint, kind, None if a[2] is None or b[2] is None else min(a[2], b[2]),
            None if a[3] is None or b[3] is None else max(a[3], b[3]))


def widen(old, new, limits):
    """A new value, each bound of which that has moved is the next limit."""
    taint, kind, lo, hi = new
    if lo != old[2]:
        lo = max((it for it in limits if lo is not None and it <= lo), default=None)
    if hi != old[3]:
        hi = min((it for it in limits if hi is not None and it >= hi), default=None)
    return (taint, kind, lo, hi)


def merge(old, new, limits):
    """Makes the old state one of both; whether it has become more."""
    changed = False
    for name in old.regs.keys() | new.regs.keys():
        a, b = old.regs.get(name, PUBLIC), new.regs.get(name, PUBLIC)
        both = join(a, b)
        if both != a:
            old.regs[name], changed = widen(a, both, limits) if limits else both, True
    for kind, area in old.areas.items():
        changed |= merge_area(area, new.areas[kind], limits)
    if old.flags | new.flags != old.flags:
        old.flags, changed = old.flags | new.flags, True
    if old.compared != new.compared:
        old.compared = None
    return changed


def merge_area(old, new, limits):
    words = {at: it for at, it in old.words.items() if at in new.words and new.words[at][0] == it[0]}
    for at, (size, value) in words.items():
        both = join(value, new.words[at][1])
        if both != value:
            words[at] = size, widen(value, both, limits) if limits else both
    changed = words != old.words or old.mask | new.mask != old.mask
    old.words, old.mask = words, old.mask | new.mask
    return changed


def octets(lo, hi):
    """The bits of the stack's octets from lo up to hi."""
    lo, hi = -BELOW if lo is None else max(lo, -BELOW), ABOVE if hi is None else min(hi, ABOVE)
    return ((1 << hi - lo) - 1) << lo + BELOW if hi > lo else 0


def added(a, b, sign=1):
    taint = ALL if a[0] or b[0] else 0
    if sign > 0 and a[1] == NUMBER:
        a, b = b, a
    _, kind, lo, hi = a
    _, other, low, high = b
    if other != NUMBER:
        return (taint, NUMBER if sign < 0 and kind == other else ANY, None, None)
    if kind in (SECRET, TABLE, PIECES, ANY):
        return (taint, kind, None, None)
    if sign < 0:
        low, high = None if high is None else -high, None if low is None else -low
    return (taint, kind, None if lo is None or low is None else lo + low, None if hi is None or high is None else hi + high)


def low_octets(size):
    return (1 << min(size, 8)) - 1


def is_known(value):
    return value[1] == NUMBER and value[2] is not None and value[2] == value[3]


def decided(state, condition):
    """Whether a branch is taken, if what was compared is known."""
    if state.flags or state.compared is None or not (is_known(state.compared[1]) and is_known(state.compared[2])):
        return None
    a, b = state.compared[1][2], state.compared[2][2]
    if not (0 <= a < 1 << 64 and 0 <= b < 1 << 64) or not state.compared[3] and condition not in ("eq", "ne"):
        return None
    return {"eq": a == b, "ne": a != b, "lo": a < b, "hs": a >= b, "hi": a > b, "ls": a <= b}.get(condition)


INVERSE = {"eq": "ne", "ne": "eq", "lo": "hs", "hs": "lo", "hi": "ls", "ls": "hi"}


def refine(state, condition):
    """What a comparison of a register with a number or a place that is known tells of the register."""
    if state.compared is None or condition not in INVERSE:
        return
    reg, value, other, is_full = state.compared
    if not is_full and condition not in ("eq", "ne"):
        return
    taint, kind, lo, hi = value
    if state.regs.get(reg) != value or other[1] != kind or other[2] is None or other[2] != other[3]:
        return
    number = other[2]
    if kind == NUMBER and condition in ("lo", "ls") and number >= 0:
        lo = max(lo or 0, 0)
    elif kind == NUMBER and condition not in ("eq", "ne") and (number < 0 or lo is None or lo < 0):
        return
    if condition == "eq":
        lo = hi = number
    elif condition == "ne":
        lo, hi = number + 1 if lo == number else lo, number - 1 if hi == number else hi
    elif condition in ("lo", "ls"):
        most = number - (condition == "lo")
        hi = most if hi is None else min(hi, most)
    else:
        least = number + (condition == "hi")
        lo = least if lo is None else max(lo, least)
    if lo is None or hi is None or lo <= hi:
        state.regs[reg] = (taint, kind, lo, hi)


class Machine:
    """Interprets functions; `found` has, by function and line, what depends on a secret, `ran` and `branches` what was seen."""

    def __init__(self, isa, functions, contracts):
        self.isa, self.functions, self.contracts, self.found, self.stack = isa, functions, contracts, {}, []
        self.ran, self.branches, self.public, self.sizes, self.reach = set(), set(), {}, {}, None

    def record(self, kind, where):
        self.found.setdefault((self.stack[-1], *where, kind))

    def enter(self, name, contract=None):
        """Interprets a function by its contract, or as one to which all octets behind its arguments are secret."""
        regs = {it: (0, SECRET, None, None) for it in self.isa.PASSED}
        regs.update({it: TAINTED for it in self.isa.VECTORS})
        regs[self.isa.SP] = (0, STACK, 0, 0)
        state, self.public, self.reach = State(regs), {}, contract and contract.reach
        places = list(self.places(contract)) if contract else []
        for number, (param, place) in enumerate(zip(contract.params if contract else [], places)):
            self.take(state, param, place, OBJECT + str(number))
        after = self.interpret(name, state)
        for number, param in enumerate(contract.params if contract else []):
            if param.kind in "wo" and param.size and after.areas[OBJECT + str(number)].mask & param.mask():
                self.found.setdefault((name, 0, name, f"argument {number + 1} as it is left"))
        if contract and contract.is_public and after.get(self.isa.RESULT)[0]:
            self.found.setdefault((name, 0, name, "result"))

    def places(self, contract):
        """Of each argument its registers, or its offset on the stack, by the ABI."""
        word, used, at = self.isa.WORD, 0, 0
        for it in contract.params:
            count = 2 if it.kind == "n" and word == 4 else 1
            used += count == 2 and used % 2
            if used + count <= len(self.isa.PASSED):
                yield self.isa.PASSED[used : used + count]
                used += count
            else:
                used, at = len(self.isa.PASSED), at + (at % 8 if count == 2 else 0)
                yield at
                at += word * count

    def take(self, state, param, place, kind):
        """What the contract says of an argument."""
        value = PUBLIC
        if param.kind == "p":
            value = (0, PIECES, None, None)
        elif param.kind in "rwo" and param.size is None:
            value = (0, SECRET, None, None)
        elif param.kind in "rwo":
            value, mask = (0, kind, 0, 0), octets(0, param.size)
            self.public[kind], self.sizes[kind] = param.mask(), param.size
            words = {at: (count, const(it)) for at, count, it in param.public if it is not None}
            state.areas[kind] = Area(mask if param.kind == "o" else mask & ~param.mask(), words)
        elif param.kind == "s":
            value = TAINTED
        elif param.known is not None:
            value = const(param.known)
        elif param.kind in "nb":
            value = (0, NUMBER, 0, param.size)
        if isinstance(place, int):
            state.areas[STACK].words[self.isa.PUSHED + place] = self.isa.WORD, value
            if param.kind == "n" and self.isa.WORD == 4:
                state.areas[STACK].words[place + 4] = 4, const(0) if is_known(value) else PUBLIC
        else:
            state.regs.update(zip(place, (value, const(0) if is_known(value) else PUBLIC)))

    def call(self, name, state, where, is_tail=False):
        if name in COPIES:
            getattr(self, COPIES[name])(state, where)
            return state
        if name in self.contracts:
            self.hand_over(name, state, where, is_tail)
            return state
        if name not in self.functions or name in self.stack:
            raise Unread(f"a call of {name}")
        kept = {it: state.get(it) for it in (*self.isa.KEPT, self.isa.SP)}
        inner = state.copy()
        inner.regs[self.isa.SP] = added(state.get(self.isa.SP), const(self.isa.PUSHED), -1)
        for it in self.isa.KEPT:
            inner.regs[it] = PUBLIC
        after = self.interpret(name, inner)
        after.regs.update(kept)
        after.compared = None
        return after

    def interpret(self, name, state):
        self.stack.append(name)
        self.ran.add(name)
        after = self.run(self.functions[name], state)
        self.stack.pop()
        return after

    def hand_over(self, name, state, where, is_tail):
        """A call of a function with contracts, one of which its arguments must meet, by what it leaves."""
        unmet = None
        for contract in self.contracts[name]:
            unmet, left = self.unmet(contract, state, is_tail)
            if not unmet:
                break
        if unmet:
            self.record(unmet, where)
        for param, value in sorted(left, key=lambda it: it[0].size is not None):
            if param.kind in "wo":
                self.leave(state, param, value)
        state.regs.update({it: TAINTED for it in state.regs if it not in self.isa.KEPT and it != self.isa.SP})
        state.regs[self.isa.RESULT] = PUBLIC if contract.is_public else TAINTED
        state.flags, state.compared = ALL, None

    def unmet(self, contract, state, is_tail):
        """What isn't as the contract says, and each argument's value."""
        base, left = state.get(self.isa.SP), []
        if base[1] != STACK or base[2] != base[3] or base[2] is None:
            raise Unread("a call from an unknown place of the stack")
        for param, place in zip(contract.params, self.places(contract)):
            if isinstance(place, int):
                at = base[2] + place + self.isa.PUSHED * is_tail
                left.append((param, self.load_area(state, STACK, at, at, self.isa.WORD)))
            else:
                left.append((param, state.get(place[0])))
        for number, (param, value) in enumerate(left, 1):
            behind = left[number][1] if number < len(left) else PUBLIC
            if param.kind != "s" and (value[0] or not self.is_met(state, param, value, behind)):
                return f"argument {number}", left
        return None, left

    def is_met(self, state, param, value, count):
        """Whether an argument is as the contract says; of pieces their count is the next one."""
        _, kind, lo, hi = value
        if param.kind in "nb":
            is_small = param.size is None or kind == NUMBER and None not in (lo, hi) and 0 <= lo <= hi <= param.size
            return is_small and (param.known is None or is_known(value) and lo == param.known)
        if param.kind == "p":
            return kind == PIECES or self.are_pieces(state, value, count)
        if not param.public:
            return True
        if kind not in state.areas or lo is None or lo != hi:
            return False
        mask = state.areas[kind].mask
        if param.kind != "o" and any(mask & octets(lo + at, lo + at + count) for at, count, _ in param.public):
            return False
        return all(it is None or self.load_area(state, kind, lo + at, lo + at, count) == const(it) for at, count, it in param.public)

    def are_pieces(self, state, value, count):
        _, kind, lo, hi = value
        if is_known(count) and count[2] == 0:
            return True
        if kind not in state.areas or lo is None or lo != hi or not is_known(count):
            return False
        word, places = self.isa.WORD, range(lo, lo + 16 * count[2], 16)
        return not any(state.areas[kind].mask & (octets(at, at + word) | octets(at + 8, at + 16)) for at in places)

    def leave(self, state, param, value):
        """What stands behind an argument after the call."""
        _, kind, lo, hi = value
        is_exact = kind in state.areas and lo is not None and lo == hi and param.size is not None
        if kind in (SECRET, TABLE, PIECES):
            return
        if not is_exact:
            self.smear(state, kind if kind in state.areas else None, lo, None)
            return
        if self.is_outside(kind, lo, lo + param.size):
            raise Unread(f"{kind} is too small for a call")
        area, left = state.areas[kind], octets(lo, lo + param.size) & ~sum(
            octets(lo + at, lo + at + count) for at, count, _ in param.public)
        self.forget(area, lo, lo + param.size)
        area.mask = area.mask & ~octets(lo, lo + param.size) | left

    def run(self, function, state):
        """The state at its returns."""
        entries, visits, work, last = {0: state}, {}, [0], None
        while work:
            number = work.pop(work.index(min(work)))
            for to, after in self.block(function, number, entries[number].copy()):
                if to is None and last is None:
                    last = after
                elif to is None:
                    merge(last, after, None)
                elif to not in entries:
                    entries[to] = after.copy()
                    work.append(to)
                else:
                    visits[to] = visits.get(to, 0) + 1
                    if merge(entries[to], after, function.limits if visits[to] > PATIENCE else None) and to not in work:
                        work.append(to)
        return last

    def block(self, function, number, state):
        """The blocks behind it, None behind a return, and the state with which each is entered."""
        for op in function.blocks[number]:
            kind, *words = op
            if kind in ("br", "retif"):
                condition, to, where = words if kind == "br" else (words[0], None, words[1])
                self.branches.add(where)
                if state.flags:
                    self.record("branch", where)
                is_taken = decided(state, condition)
                if is_taken:
                    yield to and function.labels[to], state
                    return
                if is_taken is False:
                    continue
                taken = state.copy()
                refine(taken, condition)
                refine(state, INVERSE.get(condition))
                yield to and function.labels[to], taken
            elif kind == "jump":
                yield function.labels[words[0]], state
                return
            elif kind in ("ret", "tail"):
                yield None, self.call(words[0], state, words[1], True) if kind == "tail" else state
                return
            elif kind == "when":
                state = self.when(state, *words)
            else:
                state = self.step(state, op)
        yield number + 1, state

    def step(self, state, op):
        kind, *words = op
        if kind == "call":
            return self.call(words[0], state, words[1])
        getattr(self, "op_" + kind)(state, *words)
        written = () if kind in ("cmp", "zero", "flags", "store") else words[0] if kind == "gen" else words[:1]
        if state.compared and state.compared[0] in written:
            state.compared = None
        return state

    def when(self, state, condition, ops, where):
        """What is done by the flags, or not. By a secret it may only compute."""
        is_so = decided(state, condition)
        if is_so is False:
            return state
        after = state.copy()
        for op in ops:
            after = self.step(after, op)
        if is_so:
            return after
        if state.flags:
            if any(op[0] in ("load", "store", "call") for op in ops):
                self.record("branch", where)
            after.regs.update({name: (ALL, *it[1:]) for name, it in after.regs.items() if it != state.regs.get(name)})
        merge(state, after, None)
        return state

    # --- memory ---

    def address(self, state, address, where):
        base, index, scale, offset, table = address
        value = (0, TABLE, None, None) if table else state.get(base if base else 0)
        if index:
            value = added(value, shifted(state.get(index), scale.bit_length() - 1))
        value = added(value, const(offset)) if offset else value
        if value[0]:
            self.record("address", where)
        return value

    def load(self, state, address, size, where):
        taint, kind, lo, hi = self.address(state, address, where)
        if kind == TABLE:
            return (ALL if taint else 0, NUMBER, None, None)
        if kind == PIECES:
            return (ALL if taint else 0, ANY, None, None)
        if kind not in state.areas:
            return (low_octets(size), NUMBER, None, None)
        value = self.load_area(state, kind, lo, hi, size)
        return (ALL, *value[1:]) if taint else value

    def load_area(self, state, kind, lo, hi, size):
        area = state.areas[kind]
        part = area.mask & octets(lo, None if hi is None else hi + size)
        if lo is None or lo != hi:
            return (low_octets(size) if part else 0, NUMBER, None, None)
        taint = part >> lo + BELOW
        at, value = area.words.get(lo, (0, PUBLIC))
        if lo >= 0 and not at and kind == STACK:  # (an argument of the entry)
            return (taint, SECRET, None, None)
        return (taint, *(value[1:] if at == size else PUBLIC[1:]))

    def store(self, state, address, size, value, where):
        _, kind, lo, hi = self.address(state, address, where)
        if kind in (SECRET, TABLE, PIECES):
            return
        is_secret = value[0] & low_octets(size)
        if kind in state.areas and lo is not None and lo == hi:
            if self.is_outside(kind, lo, lo + size):
                return
            area = state.areas[kind]
            self.forget(area, lo, lo + size)
            area.mask &= ~octets(lo, lo + size)
            area.mask |= is_secret << lo + BELOW
            area.words[lo] = size, value
        elif is_secret:
            self.smear(state, kind if kind in state.areas else None, lo, None if hi is None else hi + size)
        else:
            self.forget_all(state, kind if kind in state.areas else None, lo, None if hi is None else hi + size)

    def is_outside(self, kind, low, high):
        """Whether this would be written outside of an object, which the source is proved not to do: there is no such path."""
        return kind != STACK and (low < 0 or high > self.sizes[kind])

    def smear(self, state, kind, low, high):
        """Secrets come to octets that aren't known, but to none that an object's contract has as public."""
        self.forget_all(state, kind, low, high)
        for it, area in state.areas.items():
            if kind in (None, it):
                area.mask |= octets(low, high) & ~self.public.get(it, 0) if kind else octets(None, None) & ~self.public.get(it, 0)

    def forget_all(self, state, kind, low, high):
        for it, area in state.areas.items():
            if kind in (None, it):
                self.forget(area, low if kind else None, high if kind else None, self.public.get(it, 0))

    def forget(self, area, low, high, public=0):
        """Forgets the values that stand there."""
        near = area.words if low is None or high is None or high - low > 64 else range(low - 7, high)
        for at in [it for it in near if it in area.words and not public & octets(it, it + 1)]:
            if (high is None or at < high) and (low is None or at + area.words[at][0] > low):
                del area.words[at]

    def moved(self, state, where):
        """memcpy and memmove."""
        to, source, size = (state.get(it) for it in self.isa.PASSED[:3])
        self.move(state, to, source, size, where)
        state.regs[self.isa.PASSED[0]] = to

    def move(self, state, to, source, size, where):
        for it, kind in ((to, "address"), (source, "address"), (size, "length")):
            if it[0]:
                self.record(kind, where)
        exact, length = is_known(size), size[3] if size[1] == NUMBER else None
        length = self.reach if length is None or length >> 31 else length
        part, words = None, {}
        if source[1] in state.areas and source[2] is not None and source[2] == source[3] and length is not None:
            area, start = state.areas[source[1]], source[2]
            part = (area.mask & octets(start, start + length)) >> start + BELOW
            words = {at - start: it for at, it in area.words.items() if start <= at and at + it[0] <= start + length}
        elif source[1] == TABLE:
            part = 0
        if to[1] in (SECRET, TABLE, PIECES):
            return
        if exact and to[1] in state.areas and to[2] is not None and to[2] == to[3]:
            area, low, high = state.areas[to[1]], to[2], to[2] + length
            if self.is_outside(to[1], low, high):
                return
            self.forget(area, low, high)
            area.mask &= ~octets(low, high)
            area.words.update({low + at: it for at, it in words.items()})
            area.mask |= octets(low, high) if part is None else part << low + BELOW
            return
        low, high = (to[2], None if to[3] is None or length is None else to[3] + length) if to[1] in state.areas else (None, None)
        kind = to[1] if to[1] in state.areas else None
        (self.forget_all if part == 0 else self.smear)(state, kind, low, high)

    def filled(self, state, where):
        """memset."""
        to, octet, size = (state.get(it) for it in self.isa.PASSED[:3])
        self.fill(state, to, octet, size, where)
        state.regs[self.isa.PASSED[0]] = to

    def filled_by(self, state, where):
        """The run-time ABI's memset, whose size comes before the octet."""
        to, size, octet = (state.get(it) for it in self.isa.PASSED[:3])
        self.fill(state, to, octet, size, where)

    def cleared(self, state, where):
        """The run-time ABI's memset of 0."""
        to, size = (state.get(it) for it in self.isa.PASSED[:2])
        self.fill(state, to, const(0), size, where)

    def fill(self, state, to, octet, size, where):
        source = (0, SECRET, None, None) if octet[0] else (0, TABLE, None, None)
        self.move(state, to, source, size, where)

    # --- ops ---

    def op_load(self, state, to, address, size, where):
        state.regs[to] = self.load(state, address, size, where)

    def op_store(self, state, source, address, size, where):
        self.store(state, address, size, state.get(source), where)

    def op_mov(self, state, to, source):
        state.regs[to] = state.get(source)

    def op_low(self, state, to, source):
        """The lowest octet alone."""
        above, (taint, kind, lo, hi) = state.get(to), state.get(source)
        if kind != NUMBER or not is_known(above) or above[2] >> 8 or lo is None or hi is None or lo < 0 or hi > 255:
            lo = hi = None
        state.regs[to] = (above[0] & ~1 | taint & 1, NUMBER, lo, hi)

    def op_set(self, state, to, condition):
        """1 or 0, by the flags."""
        is_so = decided(state, condition)
        state.regs[to] = (ALL if state.flags else 0, NUMBER, int(is_so or 0), int(is_so is None or is_so))

    def op_cut(self, state, to, source, size):
        """So many octets, and 0 above."""
        taint, kind, lo, hi = state.get(source)
        most = (1 << 8 * size) - 1
        if kind != NUMBER or lo is None or hi is None or lo < 0 or hi > most:
            lo, hi = 0, most
        state.regs[to] = (taint & low_octets(size), NUMBER, lo, hi)

    def op_place(self, state, to, address):
        base, index, scale, offset, table = address
        value = (0, TABLE, None, None) if table else state.get(base if base else 0)
        if index:
            value = added(value, shifted(state.get(index), scale.bit_length() - 1))
        state.regs[to] = added(value, const(offset))

    def op_sum(self, state, to, a, b, sign):
        state.regs[to] = added(state.get(a), state.get(b), sign)

    def op_and(self, state, to, a, number):
        taint, kind, lo, hi = state.get(a)
        if number >= 0:
            hi = number if kind != NUMBER or lo is None or lo < 0 or hi is None else min(hi, number)
            state.regs[to] = (ALL if taint & low_octets(-(-number.bit_length() // 8)) else 0, NUMBER, 0, hi)
        else:
            lo = None if lo is None else lo + number + 1
            state.regs[to] = (ALL if taint else 0, kind, lo, hi)

    def op_or(self, state, to, a, number):
        """A number or'd in: to a place it is added, whose lowest bits are 0."""
        value = state.get(a)
        is_place = value[1] == STACK or value[1] in state.areas
        state.regs[to] = added(value, const(number)) if is_place else (ALL if value[0] else 0, NUMBER, None, None)

    def op_align(self, state, to):
        """A place of the stack that becomes aligned, which moves none of what is on it; of others no more is known."""
        taint, kind, lo, hi = state.get(to)
        state.regs[to] = (taint, kind, lo, hi) if kind == STACK else (taint, ANY, None, None)

    def op_shift(self, state, to, a, by):
        state.regs[to] = shifted(state.get(a), by)

    def op_gen(self, state, to, sources, flags=False):
        """What is computed of these, and of the flags."""
        secret = flags and state.flags or any(state.get(it)[0] for it in sources)
        state.regs.update({it: TAINTED if secret else PUBLIC for it in to})

    def op_gen8(self, state, to, sources, flags=False):
        """The same of lowest octets."""
        secret = flags and state.flags or any(state.get(it)[0] & 1 for it in sources)
        state.regs[to] = (state.get(to)[0] & ~1 | bool(secret), NUMBER, None, None)

    def op_pick(self, state, to, a, b):
        """One or the other, by the flags."""
        value = join(state.get(a), state.get(b))
        state.regs[to] = (ALL, *value[1:]) if state.flags else value

    def op_flags(self, state, sources, size, flags=False):
        taint = state.flags if flags else 0
        for it in sources:
            taint |= state.get(it)[0] & low_octets(size)
        state.flags, state.compared = taint, None

    def op_cmp(self, state, a, b, size):
        value, other = state.get(a), state.get(b)
        state.flags = (value[0] | other[0]) & low_octets(size)
        known = size == 8 or value[2] is not None and value[3] is not None and 0 <= value[2] <= value[3] < 1 << 8 * size
        state.compared = (a, value, other, True) if known else None

    def op_zero(self, state, a, size):
        """Whether it is zero, and no other flag."""
        self.op_cmp(state, a, 0, size)
        state.compared = state.compared and (*state.compared[:3], False)


def shifted(value, by):
    taint, kind, lo, hi = value
    if not by:
        return value
    if kind != NUMBER or lo is None or hi is None or by < 0 and lo < 0:
        return (ALL if taint else 0, NUMBER, None, None)
    return (ALL if taint else 0, NUMBER, lo << by if by >= 0 else lo >> -by, hi << by if by >= 0 else hi >> -by)


COPIES = {"memcpy": "moved", "memmove": "moved", "memset": "filled"}
COPIES.update({f"__aeabi_{name}{align}": kind for align in ("", "4", "8") for name, kind in
               (("memcpy", "moved"), ("memmove", "moved"), ("memset", "filled_by"), ("memclr", "cleared"))})
