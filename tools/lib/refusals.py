"""Why the program refuses words, a text or a file: what is wrong with the very line, what is allowed there, the rule."""

from __future__ import annotations

import difflib
import re
from pathlib import Path
from typing import Iterable, Optional

from lib import frames, words
from lib.texts import shown
from lib.words import FAULTS, METHODS, PCAP_FAULTS, TEXTS, Field

PACKED = {b"\x1f\x8b": "gzip -dc", b"\xfd7zXZ": "xz -dc", b"(\xb5/\xfd": "zstd -dc", b"BZh": "bzip2 -dc", b"\4\"M\x18": "lz4 -dc",
          b"PK\3\4": "unzip -p"}
NUMBER = re.compile("0|[1-9][0-9]*")
HEX = re.compile("[0-9a-fA-F]*")
PASSPHRASE = "of a passphrase whose octets are the key, `printf %s PASS | xxd -p -c 64` writes the hex"


def named(form: str) -> str:
    """What an input of a form is."""
    return words.OTHER_INPUTS.get(form) or TEXTS[form].named


# ---- Words.


def is_of_hex(word: str) -> str:
    """What keeps a word from being hex."""
    if word == "" or word == "-":
        return "it is empty"
    if word[:2] in ("0x", "0X"):
        return "it begins with 0x, and hex is written without"
    if ":" in word and HEX.fullmatch(word.replace(":", "")):
        return "it has colons, and hex is written without"
    if not HEX.fullmatch(word):
        sign = next(it for it in word if not HEX.fullmatch(it))
        return f"it has other signs than the digits 0 to 9 and a to f, as {shown(sign)!a}; {PASSPHRASE}"
    return f"it has {len(word)} digits, and each octet takes two" if len(word) % 2 else ""


def of_key(kind: str, key: str) -> str:
    """What keeps a word from being a key for a method."""
    wrong = is_of_hex(key)
    if wrong or kind not in METHODS:
        return wrong
    size = len(key) // 2
    if words.is_key_size(kind, size):
        return ""
    fits = "".join(f"; it is a key for {it}" for it in METHODS if words.is_key_size(it, size))
    return f"it has {size} octets ({len(key)} digits), and a key for {kind} ({METHODS[kind]}) has {words.key_size(kind)}{fits}"


def of_method(word: str) -> str:
    names = {"gpsk": "51", "eap-gpsk": "51", "psk": "47", "eap-psk": "47"}
    if word in METHODS:
        return ""
    meant = names.get(word.lower())
    return f"{meant} is meant" if meant else "it is 47 (EAP-PSK) or 51 (EAP-GPSK)"


def of_users(given: list[str]) -> list[str]:
    """What keeps words from being the users of `pcap`, in a line each."""
    found, seen = [], set()
    if len(given) % 3:
        found.append(f"words: {len(given)}, and each user has three: NAME KIND HEX")
    if len(given) > 3 * words.MOST_USERS:
        found.append(f"users: {len(given) // 3}, and {words.MOST_USERS} are the most")
    for at in range(0, len(given) - 2, 3):
        name, kind, key = given[at : at + 3]
        octets = name.encode("utf-8", "surrogateescape")
        if is_of_hex(key) and not of_key(kind, name):
            found.append(f"words: NAME KIND HEX is their order, and here the key stands before `{shown(key, 60)}`")
            continue
        if not octets or any(not 0x21 <= it <= 0x7E for it in octets):
            found.append(f"NAME '{shown(octets.decode('latin-1'), 60)}': it has 1 to 253 octets from 21 to 7e (! to ~)"
                         + "; the program's words and texts are in ASCII, so that another name can't be given a key" * (max(octets, default=0) > 0x7F))
        elif len(octets) > words.MOST_NAME:
            found.append(f"NAME: it has {len(octets)} octets, and {words.MOST_NAME} are the most")
        if of_method(kind):
            found.append(f"KIND {kind[:20]!a}: {of_method(kind)}")
        if of_key(kind, key):
            found.append(f"HEX of {shown(name, 60)}: {of_key(kind, key)}")
        if (name, kind) in seen:
            found.append(f"{shown(name, 60)} {kind}: this user stands twice")
        seen.add((name, kind))
    return found


def of_number(word: str, least: int, most: int) -> str:
    if not NUMBER.fullmatch(word):
        has_zero = len(word) > 1 and word.isdigit()
        return f"{shown(word, 40)!a} has a leading zero" if has_zero else f"{shown(word, 40)!a} isn't decimal digits"
    if int(word[:20]) < least:
        return f"{word} is under {least}"
    return f"{word[:20]} is over {most}" if int(word[:20]) > most else ""


def of_bulk(given: list[str]) -> list[str]:
    """What keeps words from being those of `bulk`."""
    found = [] if len(given) == 2 else [f"words: {len(given)}, and two are wanted: N K"]
    for word, field in zip(given, words.BULK_WORDS):
        if wrong := of_number(word, field.least, field.most):
            found.append(f"{field.name} {word!a}: it is a number of {field.range}, in decimal digits: {wrong}")
    return found


def nearest(word: str, known: Iterable[str]) -> str:
    near = difflib.get_close_matches(word.lower(), known, 1)
    return f"; is `{near[0]}` meant?" if near else ""


def of_words(given: list[str]) -> list[str]:
    """What keeps words from being the program's; without words, its forms."""
    form, rest = (given[0], given[1:]) if given else ("", [])
    forms = {it.words.split(" ")[0]: it for it in words.FORMS}
    found = []
    if form == "":
        return [f"eap_login {it.words}{f' < {it.input}' if it.input else ''}: {it.does}" for it in words.FORMS]
    if form == "pcap":
        found = of_users([it for it in rest if not Path(it).is_file()])
    elif form == "bulk":
        found = of_bulk(rest)
    elif form in forms and rest and not (form == "replay" and rest == ["names"]):
        found = ["replay takes no word but names" if form == "replay" else f"{form} takes no words"]
    elif form not in forms and not Path(form).is_file():
        found = [f"`{shown(form, 40)}` is none of {', '.join(forms)}" + nearest(form, forms)]
    files = [it for it in given if Path(it).is_file()]
    return found + [f"{shown(it, 60)} is a file, and input is redirected: ./eap_login {form if form in forms else 'WORDS'} < {it}"
                    for it in files]


# ---- A line.


def wrong_word(field: Field, word: str, before: list[str], fault: str) -> str:
    """What is wrong with a word, of this fault."""
    said = shown(word, 40)
    if fault == "BadChoice" and field.spelling == "choice" and word not in field.choices:
        return f"`{said}` is none of {', '.join(f'`{it}`' for it in field.choices)}"
    if fault == "BadNumber":
        if field.spelling == "number":
            return of_number(word, field.least, field.most)
        if field.spelling in ("method", "methods"):
            return "" if word in (*METHODS, "-") else f"`{said}` is no method: {of_method(word)}"
        if field.spelling == "suites" and word not in words.SUITES:
            return f"`{said}` is no suite: 1 or 2"
    if fault in ("BadHex", "BadSize") and field.spelling == "key":
        kind = next((it for it in reversed(before) if it in METHODS), "")
        wrong = of_key(kind, word)
        return f"`{said}`: {wrong}" if wrong else ""
    if field.spelling == "hex" and fault == "BadHex" and not (word == "-" and field.least == 0):
        return f"`{said}`: {is_of_hex(word)}" if is_of_hex(word) else ""
    if fault == "BadSize" and field.spelling in ("hex", "name"):
        size = 0 if word == "-" and field.spelling == "hex" else len(word) // (2 if field.spelling == "hex" else 1)
        if not field.least <= size <= field.most:
            return f"`{said}` has {size} octets, and {field.range.replace(' octets', '')} are wanted"
    return ""


class Refusal:
    """A text that is refused: its lines, the number of the one that is, and the fault."""

    def __init__(self, form: str, octets: bytes, number: int, fault: str) -> None:
        self.form, self.text, self.number, self.fault, self.octets = form, TEXTS[form], number, fault, octets
        self.lines = [it.removesuffix("\r") for it in octets.decode("latin-1").split("\n")]
        if self.lines[-1] == "":
            del self.lines[-1]
        self.line = self.lines[number - 1] if number <= len(self.lines) else ""
        self.words = self.line.split(" ")
        self.is_later = self.lines[:1] == ["eap-scenario 2"]
        self.known = {it.keyword: it for it in self.text.lines + (self.text.later if self.is_later else ())}
        self.row = self.known.get(self.words[0])
        # (the lines before it, behind the header, that say something)
        before = enumerate(self.lines[1 : number - 1], 2)
        self.before = [(at, line.split(" ")) for at, line in before if line and not line.startswith("#")]

    def other(self) -> str:
        """What the whole input is, where it is of another form."""
        if frames.is_file(self.octets):
            return "it is a file of captured frames: `tools/why FILE NAME KIND HEX ..` reads it, and `eap_login pcap` most of them"
        if is_odd := odd(self.octets):
            return is_odd
        first = self.lines[0].strip() if self.lines else ""
        for form, text in TEXTS.items():
            if first in text.headers and first not in self.text.headers:
                reader = "peer` or `eap_login server" if form in ("peer", "server") else form
                return f"it is the header of {named('end' if form == 'peer' else form)}: `eap_login {reader}` reads it"
        return ""

    def specific(self) -> str:
        """What is wrong here, in a sentence."""
        ways = {"NoHeader": self.header, "BadWord": self.word, "BadCount": self.count, "Repeated": self.repeated,
                "Missing": self.missing, "Order": self.order, "TooMuch": self.much}
        if other := self.other():
            return other
        if self.fault in ways:
            return ways[self.fault]()
        if self.form == "decode":
            over = f"it has {len(self.line) // 2} octets, and {words.MOST_OCTETS:,} are the most"
            return is_of_hex(self.line) if self.fault == "BadHex" else over
        given = self.words[1:]
        fields = self.row.fields * (len(given) if self.row.is_list else 1) if self.row else ()
        wrong = (wrong_word(field, word, given[:at], self.fault) for at, (field, word) in enumerate(zip(fields, given)))
        return next(filter(None, wrong), "")

    def header(self) -> str:
        if not self.lines:
            return "there is no line"
        first, wanted = self.lines[0], " or ".join(f"`{it}`" for it in self.text.headers)
        if first.startswith("\xef\xbb\xbf"):
            return "a mark of UTF-8 (ef bb bf) stands before it: `tail -c +4 FILE` leaves it out"
        if first.strip() in self.text.headers:
            return f"a space or another sign stands beside it: line 1 is just {wanted}"
        return "nothing stands before the header: " * (first == "" or first.startswith("#")) + f"line 1 is {wanted}"

    def word(self) -> str:
        for at, sign in enumerate(self.line, 1):
            if not " " <= sign <= "~":
                what = "a tab, and one space parts words" if sign == "\t" else f"{shown(sign)}, outside 20 to 7e"
                return f"octet {at} is {what}"
        first = self.words[0]
        if first == "":
            return "it begins with a space"
        if first in {it.keyword for it in TEXTS["replay"].later}:
            other = "" if self.form == "replay" else f", and this is {self.text.named}"
            return f"`{first}` is a word of `eap-scenario 2`{other}"
        for form, text in TEXTS.items():
            if form != self.form and first in {it.keyword for it in text.lines} | set(text.parts) - {"end"}:
                return f"`{shown(first, 40)}` is a word of {text.named}, and this is {self.text.named}"
        return f"`{shown(first, 40)}` is no word of it" + nearest(first, [*self.known, *self.text.parts])

    def count(self) -> str:
        first, given = self.words[0], len(self.words) - 1
        if self.form == "decode":
            return f"{given + 1} words stand here: each line is one packet"
        many = 1 + sum(line[0] == first for _, line in self.before)
        if first in words.MANY and many > words.MOST_USERS and (first == "user" or self.is_later):
            return f"it is line {many} that begins with `{first}`, and {words.MOST_USERS} are the most"
        least = len(self.row.fields) if self.row else 0
        wanted = f"{least} or 2" if self.row and self.row.is_list else f"{least}"
        said = f"`{first}` takes {wanted} word{'' if wanted == '1' else 's'} behind it, and {given} stand here"
        if self.line.endswith(" "):
            return said + ": a space stands at its end"
        return said + (": two spaces make an empty word" if "  " in self.line else "")

    def repeated(self) -> str:
        if self.row and self.row.is_list and len(set(self.words[1:])) < len(self.words[1:]):
            return f"`{self.words[1]}` stands twice in this line"
        key = self.words[: {"peer-psk": 2, "user": 3}.get(self.words[0], 1)]
        number = next((number for number, line in self.before if line[: len(key)] == key), 0)
        return f"`{' '.join(key)}` stands in line {number} too" if number else ""

    def missing(self) -> str:
        lines = [line for _, line in self.before]
        has = {line[0] for line in lines}
        if not self.text.settings or self.words[0] != "events" or self.number > len(self.lines):
            return "missing: " + ("`end`" if self.text.parts[0] in has else f"`{self.text.parts[0]}` and `end`")
        missing = [it.keyword for it in self.text.settings if it.needed.startswith("needed") and it.keyword not in has
                   and it.keyword != "peer-psk"]
        methods: list[str] = next((line[1:] for line in lines if line[0] == "peer-methods"), [])
        has_key = {line[1] for line in lines if line[0] == "peer-psk" and len(line) > 1}
        missing += [f"peer-psk {it}" for it in methods if it != "-" and it not in has_key]
        return "missing: " + ", ".join(f"`{it}`" for it in missing)

    def order(self) -> str:
        places = {line[0]: number for number, line in self.before}
        part = self.text.parts[0]
        if part not in places:
            return f"no line `{part}` comes before it"
        return f"`{part}` stands in line {places[part]}" + (f", `end` in line {places['end']}" if "end" in places else "")

    def much(self) -> str:
        if len(self.line) > words.MOST_LINE:
            return f"the line has {len(self.line)} octets, and {words.MOST_LINE:,} are the most"
        if sum(len(it) + 1 for it in self.lines) > words.MOST_INPUT:
            return f"the input has over {words.MOST_INPUT:,} octets"
        return f"it is over {words.MOST_EVENTS:,} lines between `events` and `end`"

    def allowed(self) -> str:
        """What may stand there."""
        if self.form == "decode":
            return "allowed here: one packet in hex, of 0 to 2,000 octets, `-` for none"
        if self.fault == "NoHeader":
            return f"allowed here: {' or '.join(self.text.headers)}"
        if self.row and self.fault not in ("Missing", "Order"):
            return f"allowed here: `{self.row.form}`: {self.row.said}"
        known = f"the first words that are known: {' '.join([*self.text.parts, *sorted(self.known)])}"
        return known if self.fault == "BadWord" else ""

    def told(self) -> list[str]:
        where = shown(self.line) if self.number <= len(self.lines) else "(after the last line)"
        rule = f"{self.fault}: {FAULTS.get(self.fault, words.TOO_MUCH)}"
        return list(filter(None, (f"line {self.number}: {where}", self.specific(), self.allowed(), rule)))


def odd(octets: bytes) -> str:
    """What octets are that are neither a text nor a file of frames."""
    front = octets[:8]
    if packed := next((command for magic, command in PACKED.items() if octets.startswith(magic)), ""):
        return f"it is packed: `{packed} FILE | ..`"
    if front[:2] in (b"\xff\xfe", b"\xfe\xff") or any(front[it::2] == bytes(4) and all(front[1 - it :: 2]) for it in (0, 1)):
        return "it has octets 00, as text in UTF-16 has: `iconv -f UTF-16 -t ASCII FILE` makes plain text of it"
    if re.match(rb"[0-9a-fA-F]{4,}[: ] ?([0-9a-fA-F]{2,4} ){4}", octets):
        return "it is a hex dump: `text2pcap -F pcap IN OUT` makes a file of it"
    if frames.is_file(octets) or not re.match(rb"[^\n]*\0", octets):
        return ""
    return "it has octets 00, so it is no text, nor a file of pcap, pcapng or snoop: `editcap -F pcap IN OUT` may make one of it"


# ---- A file of frames.


def of_file(octets: bytes, number: int, fault: str) -> list[str]:
    """Why `pcap` refuses a file, and what reads it."""
    where = "the header of the file" if number == 0 else f"record {number}"
    return list(filter(None, (where, file_help(octets, fault), f"{fault}: {PCAP_FAULTS[fault][1]}")))


def file_help(octets: bytes, fault: str) -> str:
    plain = "`tools/why FILE NAME KIND HEX` reads it, and `tools/capture-of -w OUT FILE` makes a plain pcap file of it"
    magic = octets[:4].hex()
    if fault == "BadMagic":
        if magic == frames.PCAPNG:
            return f"it is a pcapng file: {plain}; `editcap -F pcap IN OUT` does too"
        if magic in frames.MAGICS:
            return f"its times are in nanoseconds: {plain}; `editcap -F pcap IN OUT` does too"
        return odd(octets) or file_of_text(octets)
    if fault == "BadLink" and len(octets) >= 24:
        link = int.from_bytes(octets[20:24], "big" if magic.startswith("a1") else "little")
        if link in (frames.COOKED, frames.COOKED_2):
            return f"it was captured on a cooked link, as by `tcpdump -i any`: {plain}"
        return (f"it was captured on a link of the type {link}, and Ethernet, which is 1, is read: capture at the "
                "interface of the station or of the access point, and not in monitor mode")
    if fault == "TooMuch":
        return "`editcap -c 10000 -F pcap IN OUT` parts it, and `tools/by-station` does it by station"
    return "it was cut: what stands before is judged" if fault == "CutFile" and octets else ""


def file_of_text(octets: bytes) -> str:
    """What a text is that stands in the place of a file of frames."""
    first = octets.split(b"\n")[0].decode("latin-1").strip()
    for form, text in TEXTS.items():
        if first in text.headers:
            return f"it is {text.named}: `eap_login {form}` reads it"
    return "it isn't what `tcpdump -w` writes"


def refusal_of(form: str, octets: bytes, last: str) -> Optional[list[str]]:
    """What is said of a line `refused line N WORD` or `refused record N WORD`."""
    found = re.fullmatch(r"refused (line|record) (\d+) (\w+)", last)
    if not found:
        return None
    if found[1] == "record":
        return of_file(octets, int(found[2]), found[3])
    return Refusal(form, octets, int(found[2]), found[3]).told()
