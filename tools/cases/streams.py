"""The program over streams that cut, fail and count, where cases/ has whole files: reads of some octets each, an input that
fails or that has more behind what decides, an output that is full at some octet, closed, or takes little at once. What is
wanted is what the examples have, of which examples/README.md says where it comes from, up to the line that came whole, and
the statuses of docs/TEXTS.md.

A socket of packets gives a packet a read, and takes one a write. One whose other end was closed with something unread fails
behind its last octet. A file that may have no more octets takes what fits, and then fails."""

from __future__ import annotations

import fcntl
import os
import re
import resource
import shutil
import socket
import subprocess
import tempfile
from contextlib import ExitStack, closing, suppress
from itertools import product
from pathlib import Path
from typing import IO, Iterator, NamedTuple, Optional, Sequence, Union

from cases.lib.small import Run, holds

READ_FAULT, WRITE_FAULT = 3, 4
# (one that doesn't end fails; a busy machine takes its time)
SECONDS = 900
Stream = Union[int, IO[bytes], socket.socket]
Env = Optional[dict[str, str]]


class Text(NamedTuple):
    """Words, an example that they read, and what they write of it."""

    words: str
    given: bytes
    written: bytes
    status: int = 0


def texts() -> list[Text]:
    rows = [line.split() for line in (
        "replay gpsk-login.scenario gpsk-login.trace", "decode packets.hex packets.out", "keys keys.txt keys.out",
        "check login.capture login.findings", "radius login.radius login.replies", "peer gpsk-login.peer gpsk-login.peer-told",
        "server gpsk-login.server gpsk-login.server-told", "pcap login.pcap pcap.findings",
        "check altered.capture altered.findings 7", "replay bad-choice.scenario bad-choice.trace 2")]
    found = [Text(words, octets_of(given), octets_of(written), *map(int, more)) for words, given, written, *more in rows]
    key = next(it for it in found[3].given.splitlines() if it.startswith(b"user ")).decode().partition(" ")[2]
    return [it._replace(words=f"pcap {key}") if it.words == "pcap" else it for it in found]


def octets_of(example: str) -> bytes:
    return Path("examples", example).read_bytes()


# Each conversation comes of its number.
BULK = Text("bulk 1 100", b"", octets_of("bulk-1-100.out"))
# A packet whose line has over 2,048 octets.
LONG = Text("decode", b"0201040501" + b"61" * 1024,
            b"1 response 1 type 1 length 1029 padding 0 identity " + b"61" * 1024 + b"\npackets 1 malformed 0\n")


# ---- Streams.


def packets(stack: ExitStack, pieces: Sequence[bytes]) -> tuple[socket.socket, socket.socket]:
    """An input that gives each of these by a read, and where more could come from; it gives what fits at once."""
    near, far = (stack.enter_context(closing(it)) for it in socket.socketpair(socket.AF_UNIX, socket.SOCK_SEQPACKET))
    for piece in pieces:
        near.send(piece)
    return near, far


def failing(stack: ExitStack, octets: bytes) -> socket.socket:
    """An input that gives these octets, and fails behind them."""
    near, far = (stack.enter_context(closing(it)) for it in socket.socketpair(socket.AF_UNIX, socket.SOCK_STREAM))
    near.sendall(octets)
    far.send(b"unread")
    near.close()
    return far


def file_of(stack: ExitStack, octets: bytes) -> IO[bytes]:
    file = stack.enter_context(tempfile.TemporaryFile())
    file.write(octets)
    file.seek(0)
    return file


def started(words: str, given: Stream, out: Stream, most: int = -1, env: Env = None) -> subprocess.Popen[bytes]:
    """The program over these streams, where no file may have more octets than `most`."""
    was = resource.getrlimit(resource.RLIMIT_FSIZE)
    if most >= 0:
        resource.setrlimit(resource.RLIMIT_FSIZE, (most, was[1]))
    try:
        # (a file over its limit is a signal too, which Python ignores, and so does what it starts if no signal is restored)
        return subprocess.Popen([os.environ["EAP_LOGIN"], *words.split()], stdin=given, stdout=out, stderr=subprocess.DEVNULL,
                                restore_signals=most < 0, env={**os.environ, **(env or {})})
    finally:
        resource.setrlimit(resource.RLIMIT_FSIZE, was)


def status_of(program: subprocess.Popen[bytes]) -> int:
    """The status; that of a signal, if the program doesn't end."""
    try:
        return program.wait(SECONDS)
    except subprocess.TimeoutExpired:
        program.kill()
        return program.wait()


def answered(words: str, given: Stream, most: int = -1, env: Env = None) -> tuple[int, bytes]:
    """The status, and what is written to a file."""
    with tempfile.TemporaryFile() as out:
        status = status_of(started(words, given, out, most, env))
        out.seek(0)
        return status, out.read()


def wrong(what: str, found: tuple[int, bytes], wanted: tuple[int, bytes]) -> Optional[str]:
    return holds(found == wanted, f"{what}: wanted {wanted}, found {found}")


# ---- What is answered to the front of an input.


def frames_in(octets: bytes) -> tuple[int, bool]:
    """How many records are whole in the front of a file with the least significant octet first, and whether no more came."""
    at, count = 24, 0
    while len(octets) >= at + 16 and len(octets) >= (end := at + 16 + int.from_bytes(octets[at + 8 : at + 12], "little")):
        at, count = end, count + 1
    return count, len(octets) == at


def answer_to(text: Text, octets: bytes) -> bytes:
    """What is written of the front of an example before more is read: the answers to each whole line."""
    form, lines = text.words.split()[0], octets.decode("latin-1").split("\n")[:-1]
    lines = [it for it in lines if it and it[0] != "#"]
    told = text.written.splitlines(keepends=True)
    if form == "pcap":
        count = frames_in(octets)[0]
    elif form == "radius":
        count = sum(it.split()[0] in ("request", "reply", "read") for it in lines)
    else:
        start = {"check": "packets", "replay": "events", "peer": "events", "server": "events"}.get(form)
        begun = start is None or start in lines
        behind = lines[lines.index(start) + 1 :] if start in lines else lines
        count = len([it for it in behind if it != "end"]) if begun else -1
    if form in ("keys", "radius"):
        return b"".join(told[:count])
    header = told[: form == "replay"]
    numbered = [it for it in told[len(header) :] if it.split()[0].isdigit() and int(it.split()[0]) <= count]
    return b"".join(header + (numbered if told[len(header) :][: len(numbered)] == numbered else []))


def answer_so_far(text: Text, octets: bytes) -> tuple[int, bytes]:
    """The status and the output where the input fails behind these octets: a line that is refused ends it before."""
    refused = text.written.rpartition(b"refused line ")[2].split() if text.status == 2 else []
    if refused and octets.count(b"\n") >= int(refused[0]):
        return text.status, text.written
    return READ_FAULT, answer_to(text, octets)


def places(octets: bytes) -> list[int]:
    """Where an input or an output is cut: before and behind the end of each line, and at each 101st octet."""
    ends = [at + more for at, octet in enumerate(octets) if octet == 10 for more in (0, 1)]
    return sorted({*range(0, len(octets), 101), *ends, len(octets)})


# ---- Reads.

# Inputs of `decode`, and the same with CRs: one before LF is dropped, and no other.
ENDS = ("03020004\n\n04020004\n|03020004\r\n\r\n04020004\r\n", "03020004\n0\n|03020004\r\n04020004\r\r\n",
        "03020004\n0\n|03020004\n0402\r0004\n", "03020004\n0|03020004\r\n04020004\r")


def case_pieces(run: Run) -> Iterator[Optional[str]]:
    """Whatever a read gives, the same is written."""
    for text in texts():
        for size in (1, 7, 100, 4096):
            with ExitStack() as stack, tempfile.TemporaryFile() as out:
                near, far = packets(stack, [])
                program = started(text.words, far, out)
                far.close()
                # (if the program has ended, its status and its output say why)
                with suppress(ConnectionError):
                    for at in range(0, len(text.given), size):
                        near.send(text.given[at : at + size])
                near.close()
                status = status_of(program)
                out.seek(0)
                yield wrong(f"{text.words} by {size} octets", (status, out.read()), (text.status, text.written))


def case_ends_of_lines(run: Run) -> Iterator[Optional[str]]:
    for plain, given in (it.encode().split(b"|") for it in ENDS):
        with ExitStack() as stack:
            wanted = answered("decode", file_of(stack, plain))
        for size in (1, 2, 7, 4096):
            with ExitStack() as stack:
                near, far = packets(stack, [given[at : at + size] for at in range(0, len(given), size)])
                near.close()
                yield wrong(f"decode of {given!r} by {size} octets", answered("decode", far), wanted)


def case_most_octets(run: Run) -> Iterator[Optional[str]]:
    """An input has at most 16,777,216 octets, here of lines of 64: the next one is too much, also if it is LF."""
    with ExitStack() as stack:
        found = answered("decode", file_of(stack, (b"#" * 63 + b"\n") * 262_144 + b"\n"))
    yield wrong("16,777,217 octets", found, (6, b"refused line 262145 TooMuch\n"))


def case_read_fails(run: Run) -> Iterator[Optional[str]]:
    """Where the input fails, each line that came whole before is answered, and nothing more is written."""
    for text in texts():
        for place in places(text.given):
            with ExitStack() as stack:
                found = answered(text.words, failing(stack, text.given[:place]))
            yield wrong(f"{text.words} fails behind {place} octets", found, answer_so_far(text, text.given[:place]))


def case_file_ends(run: Run) -> Iterator[Optional[str]]:
    """A file of captured frames that ends early: the records that are whole, and which one is cut, if one is."""
    text = next(it for it in texts() if it.words.startswith("pcap"))
    is_end = lambda place: any(frames_in(text.given[:it])[1] for it in (place - 1, place, place + 1))
    for place in {*range(25), *range(25, len(text.given), 13), *filter(is_end, range(len(text.given)))}:
        count, is_whole = frames_in(text.given[:place])
        front = text.written.splitlines(keepends=True)[:count]
        last = f"records {count} eap {count} findings 0\n" if is_whole else f"refused record {count + (place > 24)} CutFile\n"
        with ExitStack() as stack:
            found = answered(text.words, file_of(stack, text.given[:place]))
        yield wrong(f"a file of {place} octets", found, (0 if is_whole else 2, b"".join(front) + last.encode()))


# The words, the status, and an input of which `;` stands for LF and `*` for 4,096 octets `#`. Behind it comes more, which isn't
# read: a line that is refused decides with its last octet, a line that is too long with octet 4,097, and a whole input, which
# a point ends, with the read that gives nothing.
DECIDED = """\
decode|2|0g;
keys|2|aes 00;
check|2|eap-capture 1;events;
check|2|eap-capture 1;packets;< 0g;
radius|2|eap-radius 1;read 00;
peer|2|eap-end 2;
server|2|eap-end 1;idle;
replay|2|eap-scenario 3;
replay|2|eap-scenario 1;mode sideways;
decode|6|*#
keys|6|name -;*#
check|6|eap-capture 1;*#
radius|6|eap-radius 1;*#
peer|6|eap-end 1;*#
replay|6|eap-scenario 1;*#
decode|0|03020004;.
keys|0|name -;.
check|0|eap-capture 1;packets;end;.
radius|0|eap-radius 1;secret 00;end;.
bulk 0 1|0|
nothing|1|
pcap alice|1|
\udcff|8|"""


def decided_by(line: str) -> list[bytes]:
    """The octets of an input, one a read; those of a long line by two, and the end by none."""
    kinds = {";": b"\n", "*": b"#" * 4096, ".": b""}
    return [kinds.get(it, it.encode()) for it in line]


def unread(words: str, pieces: Sequence[bytes]) -> tuple[int, list[bytes], bytes]:
    """The status of a run over an input behind which more comes, what it left unread, and what it wrote."""
    with ExitStack() as stack, tempfile.TemporaryFile() as out:
        near, far = packets(stack, [*pieces, b"more", b"still"])
        near.close()
        status = status_of(started(words, far, out))
        out.seek(0)
        return status, list(iter(lambda: far.recv(8192), b"")), out.read()


def case_nothing_more_is_read(run: Run) -> Iterator[Optional[str]]:
    for line in DECIDED.splitlines():
        words, wanted, given = line.split("|")
        status, left, _ = unread(words, decided_by(given))
        yield holds((status, left) == (int(wanted), [b"more", b"still"]), f"{line[:40]}: {status}, and {left} is unread")


MAGIC, HEADER = bytes.fromhex("a1b23c4d"), bytes.fromhex("a1b2c3d4000200040000000000000000" "0000ffff00000001")
# A record whose frame has 262,145 octets.
RECORD = bytes.fromhex("0000000000000000" "00040001")


def case_files_that_are_refused(run: Run) -> Iterator[Optional[str]]:
    """A file is refused by a header of 24 octets, and by a record's length once that is read."""
    for given, word in ((MAGIC + HEADER[4:], "0 BadMagic"), (HEADER + RECORD, "1 BadRecord")):
        for pieces in ([given], [given[at : at + 1] for at in range(len(given))]):
            found = unread("pcap", pieces)
            wanted = (2, [b"more", b"still"], f"refused record {word}\n".encode())
            yield holds(found == wanted, f"wanted {wanted}, found {found}")


def case_no_input(run: Run) -> Iterator[Optional[str]]:
    """Standard input that is closed, or where a read would wait, fails; what reads none doesn't look at it."""
    for text in texts():
        header = answer_to(text, b"")
        with ExitStack() as stack:
            _, far = packets(stack, [])
            far.setblocking(False)
            yield wrong(f"{text.words} would wait", answered(text.words, far), (READ_FAULT, header))
        closed = subprocess.run(f'exec "$EAP_LOGIN" {text.words} <&-', shell=True, stdout=subprocess.PIPE)
        yield wrong(f"{text.words} without input", (closed.returncode, closed.stdout), (READ_FAULT, header))
    bulk = subprocess.run(f'exec "$EAP_LOGIN" {BULK.words} <&-', shell=True, stdout=subprocess.PIPE)
    yield wrong("bulk without input", (bulk.returncode, bulk.stdout), (0, BULK.written))


# ---- Writes.


def case_write_fails(run: Run) -> Iterator[Optional[str]]:
    """An output that takes some octets alone has these, and the status says that a write failed."""
    for text in [*texts(), LONG]:
        for most in [1023, 1024, 1025, 2048] if text == LONG else places(text.written):
            with ExitStack() as stack:
                found = answered(text.words, file_of(stack, text.given), most)
            status = text.status if most == len(text.written) else WRITE_FAULT
            yield wrong(f"{text.words} may write {most} octets", found, (status, text.written[:most]))


def case_no_output(run: Run) -> Iterator[Optional[str]]:
    """Standard output that is full or closed, a pipe that nobody reads, or where a write would wait."""
    for text in [*texts(), Text("bulk 1 1", b"", b""), Text("nothing", b"", b"")]:
        for out in (">/dev/full", ">&-"):
            done = subprocess.run(f'exec "$EAP_LOGIN" {text.words} {out}', shell=True, input=text.given)
            yield holds(done.returncode == WRITE_FAULT, f"{text.words} {out} ends with {done.returncode}")
        with ExitStack() as stack:
            reads, writes = os.pipe()
            stack.callback(os.close, writes)
            os.close(reads)
            status = status_of(started(text.words, file_of(stack, text.given), writes))
            yield holds(status == WRITE_FAULT, f"{text.words} to a pipe that nobody reads ends with {status}")
            status = status_of(started(text.words, file_of(stack, text.given), full_pipe(stack)))
            yield holds(status == WRITE_FAULT, f"{text.words} to a pipe that is full ends with {status}")


def full_pipe(stack: ExitStack) -> int:
    """A pipe that is full, and that a write doesn't wait for."""
    reads, writes = os.pipe()
    stack.callback(os.close, reads)
    stack.callback(os.close, writes)
    fcntl.fcntl(writes, fcntl.F_SETFL, fcntl.fcntl(writes, fcntl.F_GETFL) | os.O_NONBLOCK)
    for size in (1 << 20, 1):
        try:
            while True:
                os.write(writes, b"x" * size)
        except BlockingIOError:
            pass
    return writes


def case_lines_are_writes(run: Run) -> Iterator[Optional[str]]:
    """A line is one write; one of over 1,024 octets is written by 1,024, and the next by itself."""
    for text in [*texts(), BULK, LONG]:
        with ExitStack() as stack:
            near, far = packets(stack, [])
            program = started(text.words, file_of(stack, text.given), far)
            far.close()
            found = list(iter(lambda: near.recv(1 << 16), b""))
            wanted = [it[at : at + 1024] for it in text.written.splitlines(keepends=True) for at in range(0, len(it), 1024)]
            yield holds((status_of(program), found) == (text.status, wanted), f"{text.words} writes {found}")


# ---- Calls that take little, or fail for a reason.


def built(folder: str, name: str) -> Optional[str]:
    """What of lib/ stands in the place of calls of libc; None without a compiler."""
    compiler = shutil.which("cc") or shutil.which("gcc")
    if compiler:
        subprocess.run([compiler, "-shared", "-fPIC", "-o", f"{folder}/{name}.so", f"tools/cases/lib/{name}.c"], check=True)
    return f"{folder}/{name}.so" if compiler else None


def case_little_at_once(run: Run) -> Iterator[Optional[str]]:
    """Reads and writes that take few octets. A write that takes none fails, and so does a call that is interrupted, which isn't
    made again."""
    with tempfile.TemporaryDirectory() as folder:
        shared = built(folder, "cutting")
        rows = ("MOST_READ=1 MOST_WRITE=1", "MOST_READ=7 MOST_WRITE=7", "MOST_READ=100 INTERRUPTED_READ=2",
                "MOST_WRITE=100 INTERRUPTED_WRITE=2", "MOST_WRITE=0") if shared else ()
        for text, row in product(texts(), rows):
            env = dict(it.split("=") for it in row.split())
            with ExitStack() as stack:
                found = answered(text.words, file_of(stack, text.given), env={**env, "LD_PRELOAD": shared or ""})
            wanted = text.status, text.written
            if "INTERRUPTED_READ" in env:
                wanted = answer_so_far(text, text.given[:100])
            elif "INTERRUPTED_WRITE" in env or env["MOST_WRITE"] == "0":
                wanted = WRITE_FAULT, text.written[: min(int(env["MOST_WRITE"]), text.written.index(b"\n") + 1)]
            yield wrong(f"{text.words} {row}", found, wanted)


def case_no_memory(run: Run) -> Iterator[Optional[str]]:
    """Without memory for the words nothing is read or written. (AddressSanitizer has its own malloc.)"""
    with tempfile.TemporaryDirectory() as folder, ExitStack() as stack:
        env = {**os.environ, "LD_PRELOAD": built(folder, "counting") or "", "FAILING": "1"}
        near, far = packets(stack, [b"more"])
        near.close()
        done = subprocess.run([os.environ["EAP_LOGIN"], "decode"], stdin=far, capture_output=True, env=env, timeout=SECONDS)
        if re.search(b"malloced by [1-9]", done.stderr):
            yield holds((done.returncode, done.stdout, far.recv(8)) == (5, b"", b"more"), f"without memory: {done}")
