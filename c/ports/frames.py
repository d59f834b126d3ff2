"""How deep the calls of the library go into the stack at most: by the frames that the compilers tell (-fstack-usage), or, for
x86-64 and 64-bit Arm, those that the code makes, along all calls that the objects name (there are none by address). ROOM is
left for the functions of the C library, with the 128 octets below the stack of x86-64.
"""

import os
import re
import subprocess

ROOM = 1024
HEAD = re.compile(r"^Relocation section '\.rela?\.text\.(.+)' at offset", re.M)
NAMED = re.compile(r"^[0-9a-f]+ +[0-9a-f]+ (?:R_\w+) +[0-9a-f]+ +(.+?)(?: [+-] [0-9a-f]+)?$", re.M)
# Of an object's code: where a function begins, the room that an instruction makes, of any size too, calls by a pointer, and the
# names of addresses.
OF_CODE = re.compile(r"^[0-9a-f]+ <(.+)>:$", re.M)
ROOM_MADE = re.compile(r"\t(?:sub +\$|sub\tsp, sp, #|st[rp]\t.*\[sp, #-)(\w+)(?:,%rsp|\]!|(?:, lsl #(\d+))?$)", re.M)
OF_ANY_SIZE = re.compile(r"\tsub(?: +%\w+,%rsp|\tsp, [sx]\w+, x\w+)")
BY_POINTER = re.compile(r"\t(?:callq? +\*.*|blr\t.*)")
ADDRESS = re.compile(r": R_\w+\t(.+?)(?:[+-]0x[0-9a-f]+)?$", re.M)
# (gcc's names for parts and copies of a function)
PART = re.compile(r"\.(?:part|isra|constprop|cold)\b.*$")
# What calls itself does so for each method of an end, of which there are two.
AGAIN = 3
# Of machine.c: its room is what it clears.
CLEARS = "clear_room"
# Of border.c: it calls by a pointer what its callers name.
CALLS_GIVEN = "report_by"
BY_METHODS = re.compile(
    r"(?:eap_method::(?:peer|server)_objects::(?:call_(?:peer|server)_method|start_each|offer_method)"
    r"|(?:peer|server)_machine::machine::(?:object_of|has_object)"
    r"|login_setup::soundness::are_distinct|end_objects::constructors::add_(?:peer|server)s)(?:::<.*>)?"
)
FUNCTION = re.compile(r'^define [^@\n]*@("?)([^"(\n]+)\1\(.*?\n}\n', re.S | re.M)


class Unbounded(Exception):
    """Why there is no bound, or which call passes it."""


def frames_of(path):
    """The octets of each function's frame."""
    found = {}
    with open(path, encoding="utf-8") as it:
        for line in it:
            where, size, kind = line.rstrip("\n").rsplit("\t", 2)
            name = PART.sub("", re.sub(r"^.*?\.(?:ll|c|h)(?::\d+:\d+)?:", "", where))
            if kind == "dynamic" and name != CLEARS:
                raise Unbounded(f"the frame of {name} has no fixed size")
            found[name] = max(int(size), found.get(name, 0))
    return found


def calls_of(path):
    """The functions that each function names."""
    said = subprocess.run(["readelf", "-rW", path], capture_output=True, text=True, check=True).stdout
    _, *parts = HEAD.split(said)
    found = {}
    for name, text in zip(parts[::2], parts[1::2]):
        text = re.split(r"^Relocation section", text, maxsplit=1, flags=re.M)[0]
        named = {PART.sub("", re.sub(r"^\.text\.", "", it)) for it in NAMED.findall(text)}
        found.setdefault(PART.sub("", name), set()).update(it for it in named if not it.startswith("."))
    return found


def refuse_again(module):
    """Refuses a module, as text, with calls by address, or in which something else calls itself."""
    by_address = re.search(r"call [^@\n]*%[\w.]+\(", module)
    if by_address:
        raise Unbounded(f"the module has a `{by_address[0]}`")
    for found in FUNCTION.finditer(module):
        body = found[0].split("\n", 1)[1]
        if not BY_METHODS.fullmatch(found[2]) and re.search(rf'@"?{re.escape(found[2])}"?\(', body):
            raise Unbounded(f"{found[2]} calls itself")


def deepest(frames, calls):
    """Of each function how deep it and what it calls go."""
    known = {}

    def depth(name, above):
        if name in above:
            raise Unbounded(f"{name} calls itself")
        if name not in known:
            below = (depth(it, (*above, name)) for it in calls.get(name, ()) if it != name and it in frames)
            known[name] = frames[name] * (AGAIN if BY_METHODS.fullmatch(name) else 1) + max(below, default=0)
        return known[name]

    return {name: depth(name, ()) for name in frames}


def exported(frames, calls):
    """Of each call of the library how deep it goes."""
    if not frames or not any(calls.values()):
        raise Unbounded("no frames or no calls are known")
    found = deepest(frames, calls)
    return {name: found[name] for name in found if name.startswith("tuv_") and not name.startswith("tuv_clear_stack")}


def bounds(parts, renamed):
    """Of each call of the library how deep it goes. Parts are objects with their frames beside them (.su), the module first;
    its calls that a file of C stands before are the renamed ones."""
    frames, calls = {}, {}
    for n, path in enumerate(parts):
        def known(name):
            return f"proved_{name}" if n == 0 and name in renamed else name
        for name, size in frames_of(f"{os.path.splitext(path)[0]}.su").items():
            frames[known(name)] = size
        for name, named in calls_of(path).items():
            calls[known(name)] = {known(it) for it in named}
    return exported(frames, calls)


def bounds_of_code(archive, objdump):
    """The same of an archive for x86-64 or 64-bit Arm, by its code: each instruction of a function that makes room counts, and
    each address that it names."""
    said = subprocess.run([*objdump, "-drw", "--no-show-raw-insn", archive], capture_output=True, text=True, check=True).stdout
    on_x86 = "file format elf64-x86-64" in said
    _, *parts = OF_CODE.split(said)
    frames, calls = {}, {}
    for name, text in zip(parts[::2], parts[1::2]):
        name = PART.sub("", name)
        if (by_pointer := BY_POINTER.search(text)) and name != CALLS_GIVEN:
            raise Unbounded(f"{name} has a `{by_pointer[0].strip()}`")
        if OF_ANY_SIZE.search(text) and name != CLEARS:
            raise Unbounded(f"the frame of {name} has no fixed size")
        sizes = [int(size, 0) << int(shift or 0) for size, shift in ROOM_MADE.findall(text)]
        frames[name] = frames.get(name, 0) + sum(sizes) + 8 * (on_x86 + len(re.findall(r"\tpush\b", text)))
        named = {re.sub(r"^\.text\.", "", PART.sub("", it)) for it in ADDRESS.findall(text)}
        if name in named and not BY_METHODS.fullmatch(name):
            raise Unbounded(f"{name} calls itself")
        calls.setdefault(name, set()).update(it for it in named if not it.startswith("."))
    given = {it for named in calls.values() if CALLS_GIVEN in named for it in named}
    calls.get(CALLS_GIVEN, set()).update(given - {CALLS_GIVEN})
    return exported(frames, calls)
