"""The fields of EAP packets by their names and places: RFC 3748 section 4, RFC 5433 section 9, RFC 4764 section 5.

A packet that is short or odd gives the fields that it has, and what is wrong with it in words."""

from __future__ import annotations

from dataclasses import dataclass, field
from functools import cached_property, lru_cache
from typing import Callable, Optional

from lib.texts import shown
from lib.words import tables_of

CODES = {1: "Request", 2: "Response", 3: "Success", 4: "Failure"}
TYPES = {1: "Identity", 2: "Notification", 3: "Nak", 4: "MD5-Challenge", 13: "EAP-TLS", 47: "EAP-PSK", 51: "EAP-GPSK"}
TYPES.update({6: "EAP-GTC", 18: "EAP-SIM", 21: "EAP-TTLS", 23: "EAP-AKA", 25: "PEAP", 26: "EAP-MSCHAPv2", 43: "EAP-FAST",
              50: "EAP-AKA'", 52: "EAP-pwd", 55: "TEAP", 254: "Expanded Types"})
OP_CODES = {1: "GPSK-1", 2: "GPSK-2", 3: "GPSK-3", 4: "GPSK-4", 5: "GPSK-Fail", 6: "GPSK-Protected-Fail"}
FAILURES = {1: "PSK Not Found", 2: "Authentication Failure", 3: "Authorization Failure"}
# The octets of the MAC by the suites of RFC 5433 section 6.
MAC_SIZES = {1: 16, 2: 32}
MOST_SUITES, MOST_NAME, MOST_OCTETS = 20, 253, 1500
# The field with the name of the end that a message names first.
NAMING = {"Identity": "Type-Data", "GPSK-1": "ID_Server", "GPSK-2": "ID_Peer", "GPSK-3": "ID_Server", "PSK-1": "ID_S",
          "PSK-2": "ID_P"}
KIND_OF = {"GPSK": "51", "PSK": "47"}
FIRST, SECOND, THIRD, LAST = ("GPSK-1", "PSK-1"), ("GPSK-2", "PSK-2"), ("GPSK-3", "PSK-3"), ("GPSK-4", "PSK-4")


@dataclass
class Field:
    """A field: its name, the place of its first octet, its octets, and what they say."""

    name: str
    at: int
    octets: bytes
    note: str = ""


@dataclass
class Reading:
    """A packet's name, its fields in their order, and what is wrong with it."""

    name: str = "no packet"
    fields: list[Field] = field(default_factory=list)
    faults: list[str] = field(default_factory=list)

    @cached_property
    def message(self) -> str:
        """The name of the message, whatever form it has."""
        return self.name.removeprefix("Expanded ")

    def get(self, name: str) -> Optional[bytes]:
        return next((it.octets for it in self.fields if it.name == name), None)

    def note(self, name: str) -> str:
        return next((it.note for it in self.fields if it.name == name), "")

    @cached_property
    def number(self) -> dict[str, int]:
        return {it.name: int.from_bytes(it.octets, "big") for it in self.fields}

    @cached_property
    def kind(self) -> str:
        """The method whose message it is."""
        return KIND_OF.get(self.message.split("-")[0], "")

    @property
    def user(self) -> str:
        """The name of an end that the message names."""
        return (self.get(NAMING.get(self.message, "")) or b"").decode("latin-1")

    @cached_property
    def identity(self) -> str:
        """The same, as it is shown."""
        return shown(self.user, 60)

    def hex(self, *names: str) -> str:
        """The octets of fields as the program reads them."""
        return " ".join((self.get(it) or b"").hex() or "-" for it in names)

    def key_request(self, key: str) -> str:
        """The line for `keys` that a GPSK-2 or a PSK-2 decides, since it has the nonce of the peer."""
        if self.message == "PSK-2":
            return f"psk {key} {self.hex('RAND_P')}"
        suite = self.number.get("CSuite_Sel", 0) & 0xFF
        return f"gpsk {suite} {key} {self.hex('RAND_Peer', 'ID_Peer', 'RAND_Server', 'ID_Server')}"

    @property
    def desired(self) -> str:
        """What a Nak desires, in its plain form or its expanded one."""
        listed = [it.note for it in self.fields if it.name == "Vendor-Type"][1:]
        return ", ".join(listed) or self.note("Type-Data").replace("desired: ", "") or "no method"

    @cached_property
    def called(self) -> str:
        """The message with what it names: `GPSK-2 of alice`, `Nak, desired: EAP-PSK`."""
        if self.message == "Nak":
            return f"{self.name}, desired: {self.desired}"
        if "Failure-Code" in self.number:
            return f"{self.name}, {self.note('Failure-Code')}"
        return f"{self.name} of {self.identity}" if self.identity else self.name

    @cached_property
    def label(self) -> str:
        """The same behind the Code and the Identifier: `Response 1, GPSK-2 of alice`."""
        code, identifier = self.note("Code"), self.number.get("Identifier")
        if identifier is None:
            return self.called
        return f"{code} {identifier}, {self.called}" if self.called != code else f"{code} {identifier}"


Note = Callable[[bytes], str]


def named(names: dict[int, str]) -> Note:
    """Says a number by its name, where it has one."""
    return lambda octets: names.get(int.from_bytes(octets, "big"), f"{int.from_bytes(octets, 'big')}")


def text_of(octets: bytes) -> str:
    """The plain characters that octets spell, in quotes; nothing where they aren't plain."""
    return f'"{octets.decode()}"' if octets and all(0x20 <= it <= 0x7E for it in octets) else ""


def suites_of(octets: bytes) -> str:
    suites = [(int.from_bytes(octets[at : at + 4], "big"), octets[at + 4 : at + 6]) for at in range(0, len(octets), 6)]
    return ", ".join(f"suite {int.from_bytes(it, 'big')}" + (f" of vendor {vendor}" if vendor else "") for vendor, it in suites)


class Short(Exception):
    """The packet ends within a field."""


class Reader:
    """Takes one field after the other."""

    def __init__(self, octets: bytes) -> None:
        self.octets, self.end, self.at, self.reading = octets, len(octets), 0, Reading()

    def left(self) -> int:
        return self.end - self.at

    def take(self, name: str, count: int, note: Optional[Note] = None) -> bytes:
        """A field of so many octets. What it says is the note's value at them."""
        there = self.octets[self.at : min(self.at + count, self.end)]
        said = note(there) if note and len(there) == count else ""
        if there or count == 0:
            self.reading.fields.append(Field(name, self.at, there, said))
        self.at += len(there)
        if len(there) < count:
            self.fault(f"the packet ends within {name}: {len(there)} of {count} octets are there")
            raise Short
        return there

    def fault(self, text: str) -> None:
        self.reading.faults.append(text)

    def number(self, name: str, count: int, note: Note = named({})) -> int:
        return int.from_bytes(self.take(name, count, note), "big")

    def rest(self, name: str, note: Optional[Note] = None) -> bytes:
        return self.take(name, self.left(), note)


# The fields of each message, with their sizes, and those that an earlier one brought.
MESSAGES, ECHOES = tables_of("packets.txt").values()
NOTES: dict[str, Note] = {
    "ID_Server": text_of, "ID_Peer": text_of, "ID_S": text_of, "ID_P": text_of, "CSuite_List": suites_of, "CSuite_Sel": suites_of,
    "Failure-Code": named(FAILURES), "PCHANNEL Nonce": named({}), "PCHANNEL R, E, Reserved": lambda _: "encrypted",
}


def fault_of(name: str, octets: bytes) -> str:
    """What is wrong with a field of a message, which is whole."""
    size = len(octets)
    if name.startswith("ID_") and size > MOST_NAME:
        return f"{name} has over {MOST_NAME} octets"
    if name == "CSuite_List" and (size == 0 or size % 6):
        return f"CSuite_List has {size} octets, and six for each suite are wanted"
    if name == "CSuite_List" and size > 6 * MOST_SUITES:
        return f"CSuite_List has over {MOST_SUITES} suites"
    if name == "CSuite_Sel" and int.from_bytes(octets, "big") not in MAC_SIZES:
        return f"CSuite_Sel is no suite of RFC 5433: {suites_of(octets)}"
    if name == "MAC" and size not in MAC_SIZES.values():
        return f"the MAC has {size} octets, and suite 1 has 16, suite 2 has 32"
    return ""


def read_message(reader: Reader, message: str) -> None:
    suite = 0
    for name, size in (it.rsplit(" ", 1) for it in MESSAGES[message]):
        if size.isdigit():
            count = int(size)
        elif size == "sized":
            count = reader.number(f"length({name})", 2)
        else:
            count = MAC_SIZES.get(suite, reader.left()) if size == "suite" else reader.left()
        octets = reader.take(name, count, NOTES.get(name))
        suite = int.from_bytes(octets, "big") if name == "CSuite_Sel" else suite
        if fault := fault_of(name, octets):
            reader.fault(fault)


def read_gpsk(reader: Reader) -> None:
    op = reader.number("OP-Code", 1, named(OP_CODES))
    reader.reading.name = OP_CODES.get(op, f"EAP-GPSK with OP-Code {op}")
    if op not in OP_CODES:
        reader.fault(f"OP-Code {op} is none of 1 to 6")
    else:
        read_message(reader, OP_CODES[op])


def read_psk(reader: Reader) -> None:
    flags = reader.number("Flags", 1, lambda it: f"T = {it[0] >> 6}")
    reader.reading.name = f"PSK-{(flags >> 6) + 1}"
    read_message(reader, reader.reading.name)


# The packet: RFC 3748 section 4.


def read_expanded(reader: Reader) -> None:
    """Type 254 (section 5.7): of the IETF's Types the data of the Type inside, or the list of a Nak (section 5.3.2)."""
    vendor = reader.number("Vendor-Id", 3)
    kind = reader.number("Vendor-Type", 4, named(TYPES if vendor == 0 else {}))
    if vendor != 0 or kind in (0, 254) or kind > 255:
        reader.rest("Vendor data")
    elif kind == 3:
        while reader.left() >= 8:
            reader.number("Type", 1)
            reader.number("Vendor-Id", 3)
            reader.number("Vendor-Type", 4, named(TYPES))
        if reader.left():
            reader.rest("Type-Data")
            reader.fault("an entry of an Expanded Nak has 8 octets")
        reader.reading.name = "Expanded Nak"
    else:
        read_data(reader, kind)
        reader.reading.name = f"Expanded {reader.reading.name}"


def desired_of(octets: bytes) -> str:
    """What a Nak desires; 0 is for no other method (RFC 3748 section 5.3.1)."""
    return "desired: " + (", ".join(TYPES.get(it, f"Type {it}") for it in octets if it) or "no method")


def read_data(reader: Reader, kind: int) -> None:
    """The Type-Data of a Type."""
    reader.reading.name = TYPES.get(kind, f"Type {kind}")
    if kind in (47, 51, 254):
        {47: read_psk, 51: read_gpsk, 254: read_expanded}[kind](reader)
    elif kind == 3:
        if not reader.rest("Type-Data", desired_of):
            reader.fault("a Nak desires no method")
    else:
        reader.rest("Type-Data", text_of)


def read_header(reader: Reader) -> int:
    """Code, Identifier and Length; gives the Code."""
    code = reader.number("Code", 1, named(CODES))
    reader.number("Identifier", 1)
    length, there = reader.number("Length", 2), len(reader.octets)
    reader.reading.name = CODES.get(code, f"Code {code}")
    if code not in CODES:
        reader.fault(f"Code {code} is none of 1 to 4")
    elif length < 4:
        reader.fault(f"Length is {length}, under the 4 octets of the header")
    elif length > there:
        reader.fault(f"Length is {length}, and {there} octets are there")
    elif length > MOST_OCTETS:
        reader.fault(f"Length is {length}, and {MOST_OCTETS} are the most")
    reader.end = max(4, min(length, there))
    return code


@lru_cache(maxsize=4096)
def read(octets: bytes) -> Reading:
    """The fields of a packet; who is given them changes nothing."""
    reader = Reader(octets)
    try:
        code = read_header(reader)
        if code in (1, 2):
            kind = reader.number("Type", 1, named(TYPES))
            if (code, kind) == (1, 3):
                reader.fault("a Nak is no Request")
            read_data(reader, kind)
    except Short:
        pass
    if reader.left():
        reader.fault(f"octets past the last field: {reader.left()}")
        reader.rest("(past the last field)")
    if reader.end < len(octets):
        reader.reading.fields.append(Field("(padding)", reader.end, octets[reader.end :], "past Length"))
    return reader.reading
