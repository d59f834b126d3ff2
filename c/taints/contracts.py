"""What functions are handed, by which c/taint reads each by itself.

A contract has a word for each argument, behind it its `public` octets (OFFSET+COUNT, or OFFSET+COUNT=NUMBER where it is known), and
`= b` behind them where the result is public. `| 16`: where a copy to the stack doesn't tell how many octets, it is of 16 at most.

    n, b        a public number of eight octets, or of fewer; n64 one up to 64, b=1 one that is known
    s           a secret number, of fewer than eight octets
    r, rSIZE    the place of octets that are read
    w, wSIZE    of octets that are written in place
    oSIZE       of octets that are all written
    p           of places and lengths of octets that are read

What isn't public is secret. A function with two contracts is read by each, and a call must meet one.
"""

import re

from .engine import Contract, Param

HASH, HMAC, CMAC = "104/96+8", "r216/0+1=1,104+8,208+8", "r216/0+1=0"
KEYS = "232/32+8,200+8,224+8"
TEXTS = {
    "aes_block::Aes128::new": ["o176 r"],
    "cmac_mac::key::CmacKey::new": ["o208 r"],
    "sha2::block256::Core256::update": [f"w{HASH} r n"],
    "octet_lists::octets::Octets::append::<=64>": ["w72/64+8 r n"],
    "octet_lists::octets::Octets::put::<=16>": ["w24/16+8 r n"],
    "hmac_mac::HmacKey::new": ["o208/96+8,200+8 r n"],
    "hmac_mac::key_block": ["o64 r n"],
    "hmac_mac::keyed_hash": [f"o{HASH} r64 b"],
    "hmac_mac::digest_after": [f"o32 r{HASH} r n"],
    "cmac_mac::taken::ChainState::update": ["w40/32+8 r r n"],
    "cmac_mac::key::CmacKey::tag": ["o16 r r n p n"],
    "cmac_mac::key::CmacKey::tag_whole": ["o16 r r n | 16"],
    "login_keys::gpsk::mac_key::hmac_tag": ["o32 r208/96+8,200+8 r n p n"],
    "login_keys::gpsk::mac_key::cmac_tag": ["o16 r r n p n"],
    "login_keys::gpsk::master_key": ["o40/32+8 b=1 r r n", "o40/32+8 b=0 r r n"],
    "login_keys::gpsk::derivation::derive": [f"b=1 n {HMAC} w n p n w200/192+8", f"b=0 n {CMAC} w n p n w200/192+8"],
    "login_keys::gpsk::cut_keys": [f"o{KEYS} b=1 r40/32+8 r n", f"o{KEYS} b=0 r40/32+8 r n"],
    "login_keys::gpsk::derive_keys": [f"o{KEYS} b=1 r40/32+8 {HMAC} w n", f"o{KEYS} b=0 r40/32+8 {CMAC} w n"],
    "login_keys::gpsk::gpsk_keys": [f"o{KEYS} b={suite} r n64 r32 r n253 r32 r n253 | 16" for suite in (1, 0)],
    "eax_mode::tag_over": ["o16 r r16 r n r"],
    "psk_ends::channel::open": ["r r n r"],
    "psk_ends::keys::long_keys": ["o32 r72/64+8 | 16"],
    "psk_ends::peer::login::Keys::of": ["w r72/64+8 r"],
}
# These are functions of their own on some targets alone.
INLINED = ("octet_lists::octets::Octets::put::<=16>", "octet_lists::octets::Octets::append::<=64>", "hmac_mac::HmacKey::new")
WORD = re.compile(r"([nbsrwop])(\d*)(?:=(\d+))?(?:/(\S+))?")
OCTETS = re.compile(r"(\d+)\+(\d+)(?:=(\d+))?")


def param(text):
    kind, size, known, public = WORD.fullmatch(text).groups()
    found = [OCTETS.fullmatch(it).groups() for it in public.split(",")] if public else []
    octets = tuple((int(at), int(count), None if it is None else int(it)) for at, count, it in found)
    return Param(kind, int(size) if size else None, octets, int(known) if known else None)


def contract(text):
    front, _, reach = text.partition(" | ")
    front, _, result = front.partition(" = ")
    return Contract([param(it) for it in front.split()], bool(result), int(reach) if reach else None)


CONTRACTS = {name: [contract(it) for it in texts] for name, texts in TEXTS.items()}
