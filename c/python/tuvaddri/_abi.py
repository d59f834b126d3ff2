"""The structs and calls of tuvaddri.h, for ctypes, and the shared object."""

from __future__ import annotations

import ctypes
import os
import sys
from ctypes import POINTER, Structure, c_bool, c_char_p, c_size_t, c_uint8, c_uint32, c_void_p
from pathlib import Path
from typing import Any, List

VERSION = 2
PACKET_MAX, NAME_MAX, KEY_MAX, NONCE_LEN, RAND_MAX, SESSION_ID_MAX, FRAME_MAX = 1500, 253, 64, 32, 32, 33, 1504
NAME = f"libtuvaddri.so.{VERSION}"


def _fields(kind: Any, names: str) -> List[Any]:
    return [(name, kind) for name in names.split()]


class End(Structure):
    _fields_ = [("at", c_void_p)]


class Octets(Structure):
    _fields_ = [("at", c_void_p), ("len", c_size_t)]


class Settings(Structure):
    _fields_ = [
        ("size", c_size_t),
        *_fields(Octets, "name other psk_key gpsk_key"),
        *_fields(c_uint8 * 2, "methods suites"),
        *_fields(c_uint8, "expanded barred"),
    ]


class Turn(Structure):
    _fields_ = [*_fields(c_bool, "sends discards misplaced"), *_fields(c_uint8, "cause state")]


class MethodTurn(Structure):
    _fields_ = [*Turn._fields_, ("decision", c_uint8)]


class Report(Structure):
    _fields_ = [
        ("size", c_size_t),
        *_fields(c_uint8, "method suite peer_length server_length"),
        *_fields(c_uint8 * NAME_MAX, "peer server"),
        *_fields(c_uint8 * 64, "msk emsk"),
        ("rand_length", c_uint8),
        *_fields(c_uint8 * RAND_MAX, "peer_rand server_rand"),
    ]


class SupplicantTurn(Structure):
    _fields_ = [*_fields(c_bool, "sends discards misplaced took_nonce authorized"), *_fields(c_uint8, "cause state")]


class PortTurn(Structure):
    _fields_ = [
        *_fields(c_bool, "to_station to_server discards misplaced authorized awaits_server"),
        *_fields(c_uint8, "cause state"),
    ]

    @property
    def sends(self) -> bool:
        return bool(self.to_station or self.to_server)


class SupplicantLimits(Structure):
    _fields_ = [*_fields(c_uint32, "start_period max_start auth_period held_period"), ("port_valid", c_uint8)]


class PortLimits(Structure):
    _fields_ = [*_fields(c_uint32, "quiet_period server_timeout retrans_period re_auth_period"), ("re_auth_max", c_uint8)]


class Failure(Structure):
    _fields_ = _fields(c_uint8, "reason code")


# The calls by what they answer, with what they take behind the end.
_END, _TOLD, _ROOM = POINTER(End), POINTER(Settings), POINTER(c_uint8)
_PACKET = [_ROOM, c_size_t]
_CALLS: List[Any] = [
    (Turn, [_END], "server_start server_timeout peer_idle peer_alt_accept peer_alt_reject pass_start pass_restart"),
    (Turn, [_END], "pass_timeout pass_aaa_timeout pass_aaa_noreq"),
    (Turn, [_END, *_PACKET], "end_deliver pass_from_peer pass_from_backend"),
    (Turn, [_END, _ROOM], "end_restart"),
    (MethodTurn, [_END, *_PACKET], "peer_method_handle"),
    (MethodTurn, [_END, *_PACKET, c_uint8], "server_method_handle"),
    (c_uint8, [_END, _TOLD, _ROOM], "peer_begin backend_begin peer_method_begin"),
    (c_uint8, [_END, _TOLD, _ROOM, c_uint8, c_uint8], "server_begin"),
    (c_uint8, [_END, _TOLD, _ROOM, c_uint8], "server_method_begin"),
    (c_uint8, [_END, c_uint8, c_uint8], "pass_begin"),
    (c_uint8, [_END, _TOLD], "server_set_user server_method_user"),
    (c_uint8, [_END, _TOLD, POINTER(SupplicantLimits)], "supplicant_begin"),
    (SupplicantTurn, [_END, *_PACKET, _ROOM], "supplicant_frame"),
    (SupplicantTurn, [_END, c_uint8], "supplicant_link supplicant_logoff supplicant_control"),
    (SupplicantTurn, [_END], "supplicant_second"),
    (c_uint8, [_END, c_uint8, c_uint8, POINTER(PortLimits)], "port_begin"),
    (PortTurn, [_END, *_PACKET], "port_frame"),
    (PortTurn, [_END, c_uint8, *_PACKET], "port_answer"),
    (PortTurn, [_END, c_uint8], "port_link port_control"),
    (PortTurn, [_END], "port_second port_aaa_timeout port_reauthenticate"),
    (c_size_t, [_END, *_PACKET], "end_packet end_last_packet"),
    (c_size_t, [_END, _ROOM], "end_session_id end_session_id_wpa"),
    (c_size_t, [*_PACKET, _ROOM], "request_name response_name"),
    (c_size_t, [], "end_size"),
    (c_bool, [_END], "end_new"),
    (c_bool, [_END, POINTER(Report)], "end_report"),
    (c_bool, [], "cpu_supported"),
    (Failure, [_END], "end_failure"),
    (None, [_END], "end_close end_free"),
    (None, [], "clear_stack"),
    (c_char_p, [c_uint8], "cause_word state_word supplicant_word port_word refusal_word failure_word"),
    (c_uint32, [], "version"),
]


def _path() -> str:
    """The shared object that TUVADDRI_LIBRARY names; else the one that lies in this package, or was installed or built
    together with it; else the loader finds it."""
    named = os.environ.get("TUVADDRI_LIBRARY")
    if named:
        return named
    here = Path(__file__).resolve().parent
    near = [here / it / NAME for it in (".", "../../..", "../../out", "../../out/dist", "../../out/unchecked")]
    prefix = [Path(sys.prefix, it, NAME) for it in ("lib", "lib64")]
    return next((str(it) for it in near + prefix if it.is_file()), NAME)


def _load() -> Any:
    path = _path()
    try:
        library = ctypes.CDLL(path)
        version = library.tuv_version
    except (OSError, AttributeError) as fault:
        raise ImportError(f"the library for C can't be loaded: {fault}; c/library builds it, tools/install installs it, and "
                          "TUVADDRI_LIBRARY names it where it is elsewhere") from None
    version.restype = c_uint32
    if version() != VERSION:
        raise ImportError(f"{path} has version {version()} of the interface, and this package is for version {VERSION}")
    for answer, words, names in _CALLS:
        for name in names.split():
            call = getattr(library, f"tuv_{name}", None)
            if call is None:
                raise ImportError(f"{path} is an earlier library of version {VERSION}: it has no tuv_{name}")
            call.restype, call.argtypes = answer, words
    return library


library = _load()
ident = ctypes.string_at(ctypes.addressof(ctypes.c_char.in_dll(library, "tuv_ident"))).decode()
