"""The page of a crate, made from its sources."""

from __future__ import annotations

import re
import textwrap
from typing import Iterator, Optional

from lib import rattle
from lib.common import Refused
from lib.sources import Call, Item, Repository, exports_of

# A proved function above the crate that a reader looks at first.
CALLERS = {
    "octet_lists": "login_keys::master_key",
    "octet_io": "command_driver::drive",
    "login_setup": "eap_method::key_for",
    "aes_block": "cmac_mac::CmacKey::new",
    "cmac_mac": "eap_method::mac_s",
    "hmac_mac": "login_keys::hmac_tag",
    "eax_mode": "psk_ends::seal",
    "login_keys": "gpsk_ends::Initial::keys",
    "eap_packet": "access_point::name_in",
    "gpsk_messages": "gpsk_ends::is_tagged",
    "psk_messages": "psk_ends::write_psk1",
    "radius_carry": "access_point::AccessPoint::from_server",
    "eapol_frame": "supplicant::Supplicant::frame_step",
    "eapol_capture": "capture_commands::judge_file",
    "login_policy": "peer_machine::PeerMachine::first_request",
    "eap_method": "own_method::Counted::handle",
    "capture_check": "capture_commands::Check::new",
    "psk_ends": "eap_login_main::run_over_boxes",
    "gpsk_ends": "eap_login_main::run_over_boxes",
    "end_objects": "tuvaddri_c::tuv_peer_method_begin",
    "peer_machine": "supplicant::Supplicant::deliver",
    "server_machine": "login_server::Session::answer",
    "pass_through": "access_point::AccessPoint::from_station",
    "tag_book": "eap_world::World::tags",
    "eap_world": "trace_text::write_end",
    "scenario_text": "world_commands::Replay::new",
    "end_pipe": "end_commands::End::new",
    "command_driver": "capture_commands::check_capture",
    "eap_login": "eap_login_main::run_over_boxes",
}


def sentence_of(comment: str) -> str:
    """The first sentence of a comment, without links."""
    return re.split(r"(?<=[^.][.])\s+(?=[A-Z`])", without_links(comment), maxsplit=1)[0]


def without_links(comment: str) -> str:
    return re.sub(r"\[(`[^`]*`)\](?:\([^)]*\))?", r"\1", comment).strip()


def calls_of(repository: Repository, crate: str) -> list[Call]:
    """What a crate gives to others; a call that is written for a trait is the trait's, and stands there."""
    return sorted((it for it in repository.exported if it.crate == crate and not (it.of_trait and not it.comment)),
                  key=lambda it: (it.file, it.line))


def types_of(repository: Repository, crate: str) -> list[Item]:
    """The types, traits and constants that a crate gives to others, in the order of its files."""
    names = exports_of(repository.sources.get(f"crates/{crate}/src/lib.rt"))
    found = {(it.file, it.name): it for (of, name), items in repository.of.items() if of == crate and name in names
             for it in items if it.file.endswith(".rt") and not isinstance(it, Call) and is_declared(repository, it)}
    return sorted(found.values(), key=lambda it: (it.file, it.line))


def is_declared(repository: Repository, item: Item) -> bool:
    return bool(re.match(r"pub (struct|enum|type|const|static|trait)\b", head_line(repository, item)))


def head_line(repository: Repository, item: Item) -> str:
    """The line of a type's or a trait's name."""
    lines = repository.sources[item.file].lines
    return next((lines[it - 1] for it in sorted(item.lines) if not re.match(r"\s*(//|#\[)", lines[it - 1])), "")


def declaration_of(repository: Repository, item: Item) -> list[str]:
    """A type as its source declares it: what is said of it, its derives, its open fields or its variants; a trait without its
    calls."""
    source, head = repository.sources[item.file], head_line(repository, item)
    if head.startswith("pub trait"):
        return [source.lines[it - 1] for it in sorted(item.lines)] + ["    ..", "}"]
    begin, end = next(it[1:] for it in rattle.types_in(rattle.blanked(source.text)) if it[0] == item.name)
    kept: list[str] = []
    for line in (source.lines[it - 1] for it in sorted(source.lines_at(begin, end))):
        if head.startswith("pub struct") and re.match(r"    (?:pub\(crate\) )?\w+: ", line):
            while re.match(r"    (///|#\[)", kept[-1]):
                kept.pop()
        else:
            kept.append(line)
    if kept[-1] == "}" and kept[-2].endswith("{"):
        kept[-2:] = [kept[-2] + " .. }"]
    return kept


def links_of(repository: Repository, call: Call) -> str:
    """The definitions that a call's clauses name, each with its place."""
    words = set(re.findall(r"[\w'◌-]+", " ".join(it.text for it in call.contract.clauses)))
    items = [it for it in repository.named_by(call.contract)[0] if it.file.endswith(".antt") and it.name in words]
    found = {it.name: place_of(repository, call.crate, it) for it in sorted(items, key=lambda it: it.name)}
    return ", ".join(f"[`{name}`]({place})" for name, place in found.items())


def place_of(repository: Repository, crate: str, item: Item) -> str:
    """Where the name of a definition stands, from the page of a crate."""
    lines, front = repository.sources[item.file].lines, "" if item.crate == crate else f"../{item.crate}/"
    line = next(it for it in sorted(item.lines) if not lines[it - 1].lstrip().startswith("--"))
    return f"{front}{item.file.split('/', 2)[2]}#L{line}"


def signature_of(call: Call) -> Iterator[str]:
    """A call's signature and its clauses."""
    yield from textwrap.dedent("\n".join(call.front.rstrip().splitlines())).splitlines()
    yield from (f"    {it.text}" for it in call.contract.clauses)


def entry_of(repository: Repository, call: Call) -> Iterator[str]:
    yield from ("", f"### `{call.name}`", "", without_links(call.comment or call.contract.comment), "", "```rust")
    yield from signature_of(call)
    yield "```"
    if links := links_of(repository, call):
        yield from ("", f"Definitions: {links}.")


def caller_of(repository: Repository, crate: str, callers: dict[str, str]) -> Optional[Call]:
    """The proved function that is named as the crate's caller."""
    if crate not in callers:
        return None
    found = next((it for it in repository.calls if it.place == callers[crate]), None)
    if found is None:
        raise Refused(f"the caller of {crate}, {callers[crate]}, isn't there")
    return found


def passed_on(repository: Repository, crate: str) -> dict[str, list[str]]:
    """The names that a crate gives on from those below it, by crate."""
    source = repository.sources.get(f"crates/{crate}/src/lib.rt")
    found = re.findall(r"^pub use (\w+)::(?:\{([^}]*)\}|(\w+));", source.text, re.M) if source else []
    return {of: re.findall(r"\w+", names or name) for of, names, name in found if of in repository.crates}


def page_of(repository: Repository, crate: str, callers: dict[str, str] = CALLERS) -> Iterator[str]:
    yield from (f"# {crate}", "", repository.heading(crate), "")
    below, above = repository.below[crate], repository.above(crate)
    yield f"Built on: {', '.join(below) or 'the kit alone'}. Used by: {', '.join(above) or 'none'}."
    if names := passed_on(repository, crate):
        facade = "" if calls_of(repository, crate) else " It is a facade: no crate here stands on it but its test."
        yield from ("", "## What it re-exports", "", *([facade.strip(), ""] if facade else []))
        yield from (f"- of [{of}](../{of}/README.md): {', '.join(f'`{it}`' for it in given)}" for of, given in names.items())
    caller = caller_of(repository, crate, callers)
    if caller:
        head, _, rest = caller.code.partition("\n")
        yield from ("", f"## A caller: `{caller.place}`", "", "```rust", head.strip(), textwrap.dedent(rest), "```")
    types, calls = types_of(repository, crate), calls_of(repository, crate)
    if types:
        yield from ("", "## Its types", "", "```rust")
        yield "\n\n".join("\n".join(declaration_of(repository, it)) for it in types)
        yield "```"
    for head, entries in (("Its calls", [it for it in calls if not it.is_law]), ("Its laws", [it for it in calls if it.is_law])):
        if entries:
            yield from ("", f"## {head}")
        for it in entries:
            yield from entry_of(repository, it)
