"""EAP logins by shared keys: the ends of Tuvaddri's library for C.

Peer, Server, Backend and PassThrough are the ends of RFC 4137, Supplicant and Port those of IEEE 802.1X-2004 over them, Method is
one method alone. Each is a context manager: at
the end of the block the end is closed, and its block and the stack are cleared. README.md beside this package shows a
login; tuvaddri.h says what each call does.

A name is octets or a text, which is written as UTF-8. A key is octets: what the package copies of it is cleared before
the call ends, what the program holds is the program's, and only a bytearray can be cleared. A nonce is 32 octets that
were never used before; where none is given, the system's random source gives them.
"""

from __future__ import annotations

import ctypes
import hmac
import os
import threading
from contextlib import contextmanager, nullcontext
from types import TracebackType
from typing import Any, ContextManager, Dict, Iterator, List, NamedTuple, NoReturn, Optional, Sequence, Tuple, Type, TypeVar, Union

from . import _abi
from ._abi import library as _library

__all__ = ["PSK", "GPSK", "CMAC", "HMAC", "AUTO", "FORCE_AUTHORIZED", "FORCE_UNAUTHORIZED", "ACCESS_ACCEPT", "ACCESS_CHALLENGE",
           "ACCESS_REJECT", "Backend", "Closed", "Error", "Failure", "Method", "MethodTurn", "Misplaced", "PassThrough", "Peer",
           "Port", "PortTurn", "Refused", "Report", "Server", "Supplicant", "SupplicantTurn", "Turn", "Unsupported", "ident",
           "request_name", "response_name"]

PSK, GPSK = 47, 51  # the methods
CMAC, HMAC = 1, 2  # the suites of EAP-GPSK
FORCE_UNAUTHORIZED, AUTO, FORCE_AUTHORIZED = 1, 2, 3  # portControl
ACCESS_ACCEPT, ACCESS_REJECT, ACCESS_CHALLENGE = 2, 3, 11  # the Codes of a RADIUS server's answer

Octets = Union[bytes, bytearray, memoryview]
Name = Union[str, Octets]
_Self = TypeVar("_Self", bound="_Cleared")

ident = _abi.ident


class Error(Exception):
    """What this package raises."""


# What a begin refuses, by the library's word.
_REFUSALS = {
    "BadSize": "the library knows no settings of this size",
    "NoMethod": "a method isn't PSK or GPSK, or stands twice; or there is neither a method nor a key",
    "NoSuite": "a suite isn't CMAC or HMAC, or stands twice",
    "BadName": "the end's own name has 1 to 253 octets",
    "BadOther": "the other end's name has at most 253 octets",
    "BadKey": "psk_key has 16 octets and gpsk_key 32 to 64; a peer has one for each of its methods, a user one at least, and "
    "without a user there is none",
    "ManyRetries": "max_retrans is at most 10",
    "NoMemory": "there is no memory",
    "WrongEnd": "this end takes no user",
}


class Refused(Error, ValueError):
    """The settings are refused. `answer` is the library's number, `word` its word, as tuv_refusal_word has it."""

    def __init__(self, answer: int) -> None:
        self.answer = answer
        self.word: str = _library.tuv_refusal_word(answer).decode()
        super().__init__(f"{self.word}: {_REFUSALS.get(self.word, 'the library refuses it')}")


class Misplaced(Error):
    """The call has no place where the end stands; nothing is changed."""


class Closed(Error, ValueError):
    """The end was closed."""


class Unsupported(Error):
    """The processor lacks what the library was built for."""


class Turn(NamedTuple):
    """What a call came to."""

    packet: Optional[bytes]  # to be sent
    cause: Optional[str]  # why what came is discarded, as BadTag
    state: str  # of RFC 4137, as SUCCESS


class MethodTurn(NamedTuple):
    """What a call of a method alone came to; methodState and decision as RFC 4137 section 4.2 has them."""

    packet: Optional[bytes]
    cause: Optional[str]
    state: str
    decision: str


class SupplicantTurn(NamedTuple):
    """What a call of a supplicant came to."""

    frame: Optional[bytes]  # to be sent to the authenticator, behind the header of Ethernet
    cause: Optional[str]  # why what came is discarded, as BadTag
    state: str  # of the Supplicant PAE, as AUTHENTICATED
    authorized: bool  # the port is open
    took_nonce: bool  # a login began with the nonce


class PortTurn(NamedTuple):
    """What a call of a port came to."""

    frame: Optional[bytes]  # to be sent to the station, behind the header of Ethernet
    packet: Optional[bytes]  # to be sent to the server, in an Access-Request
    cause: Optional[str]
    state: str  # of the Authenticator PAE, as AUTHENTICATED
    authorized: bool  # the port is open
    awaits_server: bool  # if false, an outstanding Access-Request is given up


class Failure(NamedTuple):
    """Why a login has failed, as far as this end can know: a word, as UnknownUser, or None if it hasn't; and EAP-GPSK's
    Failure-Code (RFC 5433 section 9.3), 0 if there is none."""

    reason: Optional[str]
    code: int


_METHOD_STATES = ("NONE", "INIT", "CONT", "MAY_CONT", "DONE")
_DECISIONS = ("FAIL", "COND_SUCC", "UNCOND_SUCC")


class _Cleared:
    """What has keys, until close."""

    def __enter__(self: _Self) -> _Self:
        return self

    def __exit__(self, kind: Optional[Type[BaseException]], fault: Optional[BaseException], where: Optional[TracebackType]) -> None:
        self.close()

    def __del__(self) -> None:
        self.close()

    def __reduce_ex__(self, protocol: object) -> NoReturn:
        raise TypeError(f"a {type(self).__name__} has keys, and is neither copied nor pickled")

    def close(self) -> None:
        raise NotImplementedError


class Report(_Cleared):
    """What an end holds after a method that succeeded. Close it after use, which clears the keys; they are bytearrays. Two
    are equal if all that they hold is."""

    __hash__ = None  # type: ignore[assignment]

    def __init__(self, told: _abi.Report) -> None:
        self.msk, self.emsk = bytearray(told.msk), bytearray(told.emsk)
        self.method: int = told.method
        self.suite: int = told.suite  # 0 for EAP-PSK
        self.peer = bytes(told.peer[: told.peer_length])
        self.server = bytes(told.server[: told.server_length])
        self.peer_rand = bytes(told.peer_rand[: told.rand_length])
        self.server_rand = bytes(told.server_rand[: told.rand_length])

    def close(self) -> None:
        for key in (self.msk, self.emsk):
            key[:] = bytes(len(key))

    def __eq__(self, other: object) -> bool:
        if not isinstance(other, Report):
            return NotImplemented
        same = [hmac.compare_digest(one, another) for one, another in ((self.msk, other.msk), (self.emsk, other.emsk))]
        return all(same) and {**vars(self), "msk": 0, "emsk": 0} == {**vars(other), "msk": 0, "emsk": 0}

    def __repr__(self) -> str:
        return f"<tuvaddri.Report method {self.method} suite {self.suite} peer {self.peer!r} server {self.server!r}>"


def _number(named: str, value: int) -> int:
    if not 0 <= value <= 255:
        raise ValueError(f"{named} is 0 to 255, and not {value}")
    return value


def _seconds(**named: int) -> List[int]:
    """Times and counts, as a struct of limits takes them."""
    for name, value in named.items():
        if not 0 <= value < 1 << 32:
            raise ValueError(f"{name} is 0 to 4294967295, and not {value}")
    return list(named.values())


def _room(octets: Octets) -> Any:
    """A copy that the library may read; of no octets one that has a place all the same."""
    view = memoryview(octets)
    return (ctypes.c_uint8 * max(view.nbytes, 1)).from_buffer_copy(view.cast("B") if view.nbytes else b"\0")


def _sized(octets: Octets) -> Tuple[Any, int]:
    """A copy with its length, as calls take octets."""
    return _room(octets), memoryview(octets).nbytes


def _nonce(nonce: Optional[Octets]) -> Any:
    octets = os.urandom(_abi.NONCE_LEN) if nonce is None else nonce
    if memoryview(octets).nbytes != _abi.NONCE_LEN:
        raise ValueError(f"a nonce has {_abi.NONCE_LEN} octets, and not {memoryview(octets).nbytes}")
    return _room(octets)


@contextmanager
def _told(name: Name = b"", other: Name = b"", psk_key: Octets = b"", gpsk_key: Octets = b"", methods: Sequence[int] = (),
          suites: Sequence[int] = (), expanded: bool = False, barred: bool = False) -> Iterator[Any]:
    """The settings for a call; at the end of the block what was copied for them is cleared."""
    settings = _abi.Settings(size=ctypes.sizeof(_abi.Settings), expanded=bool(expanded), barred=bool(barred))
    for field, numbers in (("methods", methods), ("suites", suites)):
        if len(numbers) > 2:
            raise ValueError(f"{field} are at most 2, and not {len(numbers)}")
        for at, number in enumerate(numbers):
            getattr(settings, field)[at] = _number(f"one of {field}", number)
    given: Dict[str, Any] = {"name": name, "other": other, "psk_key": psk_key, "gpsk_key": gpsk_key}
    rooms: List[Any] = []
    try:
        for field, octets in given.items():
            if isinstance(octets, str) and not field.endswith("key"):
                octets = octets.encode()
            try:
                length = memoryview(octets).nbytes
            except TypeError:
                raise TypeError(f"{field} is octets, and not {type(octets).__name__}") from None
            rooms.append(_room(octets))
            setattr(settings, field, _abi.Octets(ctypes.addressof(rooms[-1]), length))
        yield ctypes.byref(settings)
    finally:
        for room in rooms:
            ctypes.memset(room, 0, ctypes.sizeof(room))


class _End(_Cleared):
    """A handle. Calls from several threads come one after the other."""

    def __init__(self, begin: str, told: Optional[ContextManager[Any]], *words: Any) -> None:
        """Begins by this call; an end that is refused, or whose call fails, is closed."""
        self._lock = threading.RLock()
        self._state = ""
        self._end = _abi.End()
        with told or nullcontext() as settings:
            if not _library.tuv_cpu_supported():
                raise Unsupported("the processor has no SSSE3, SSE4.1, SSE4.2 or POPCNT")
            if not _library.tuv_end_new(self._end):
                raise MemoryError
            try:
                self._accept(begin, *([settings] if told else []), *words)
            except BaseException:
                self.close()
                raise

    def _call(self, name: str, *words: Any) -> Any:
        """A call of the library; the stack on which it has left octets of keys is cleared behind it."""
        with self._lock:
            if not self._end.at:
                raise Closed(f"the {type(self).__name__} is closed")
            answer = getattr(_library, f"tuv_{name}")(self._end, *words)
            _library.tuv_clear_stack()
            return answer

    def _accept(self, name: str, *words: Any) -> None:
        """A call that may refuse what it is told."""
        answer = self._call(name, *words)
        if answer:
            raise Refused(answer)

    def _turn(self, name: str, *words: Any) -> Turn:
        with self._lock:
            turn, packet, cause = self._taken(name, *words)
            self._state = _library.tuv_state_word(turn.state).decode()
            return Turn(packet, cause, self._state)

    def _taken(self, name: str, *words: Any) -> Tuple[Any, Optional[bytes], Optional[str]]:
        """A call that has a place here, the packet that it sends, and why it discards."""
        turn = self._call(name, *words)
        if turn.misplaced:
            word = name.partition("_")[2]
            raise Misplaced(f"{word} has no place at a {type(self).__name__}{self._state and ' in ' + self._state}; nothing is changed")
        packet = self._packet("end_packet") if turn.sends else None
        return turn, packet, _library.tuv_cause_word(turn.cause).decode() if turn.discards else None

    def _packet(self, name: str) -> Optional[bytes]:
        room = (ctypes.c_uint8 * _abi.FRAME_MAX)()
        length = self._call(name, room, _abi.FRAME_MAX)
        return bytes(room[:length]) if length else None

    @property
    def closed(self) -> bool:
        return not self._end.at

    def close(self) -> None:
        """Closes the end and gives it back, with its block and the stack cleared; a second time it does nothing."""
        if not hasattr(self, "_end"):
            return
        with self._lock:
            if self._end.at:  # (one call, which no interrupt cuts in two)
                _library.tuv_end_free(self._end)

    def __repr__(self) -> str:
        return f"<tuvaddri.{type(self).__name__} {'closed' if self.closed else self._state or 'begun'}>"

    def again(self) -> Optional[bytes]:
        """The packet that was sent last, whatever came since; None if there was none since the begin or a restart."""
        return self._packet("end_last_packet")

    def report(self) -> Optional[Report]:
        """What the end holds; None before a method has succeeded. A login has succeeded if the state is SUCCESS too."""
        told = _abi.Report(size=ctypes.sizeof(_abi.Report))
        try:
            return Report(told) if self._call("end_report", told) else None
        finally:
            ctypes.memset(ctypes.byref(told), 0, ctypes.sizeof(told))
            _library.tuv_clear_stack()

    def session_id(self, as_wpa: bool = False) -> Optional[bytes]:
        """The Session-Id (RFC 5247), or the one that wpa_supplicant and hostapd 2.10 derive; None before a method has
        succeeded."""
        room = (ctypes.c_uint8 * _abi.SESSION_ID_MAX)()
        length = self._call("end_session_id_wpa" if as_wpa else "end_session_id", room)
        return bytes(room[:length]) if length else None

    def failure(self) -> Failure:
        told = self._call("end_failure")
        return Failure(_library.tuv_failure_word(told.reason).decode() if told.reason else None, told.code)


class _Machine(_End):
    """An end with a machine of its own, but the pass-through."""

    def deliver(self, octets: Octets) -> Turn:
        """Octets come, as one packet."""
        return self._turn("end_deliver", *_sized(octets))

    def restart(self, nonce: Optional[Octets] = None) -> Turn:
        """A new conversation begins, with the settings that the end has."""
        return self._turn("end_restart", _nonce(nonce))


class Peer(_Machine):
    """The peer (RFC 4137 section 4). `server` is the one that it accepts, any if none is given; `methods` those that it
    allows, in the order of its Nak, or those for which there is a key."""

    def __init__(self, name: Name, server: Name = b"", *, psk_key: Octets = b"", gpsk_key: Octets = b"", methods: Sequence[int] = (),
                 suites: Sequence[int] = (), expanded: bool = False, nonce: Optional[Octets] = None) -> None:
        super().__init__("peer_begin", _told(name, server, psk_key, gpsk_key, methods, suites, expanded), _nonce(nonce))

    def idle(self) -> Turn:
        """The lower layer is idle."""
        return self._turn("peer_idle")

    def alt_accept(self) -> Turn:
        """The lower layer reports success."""
        return self._turn("peer_alt_accept")

    def alt_reject(self) -> Turn:
        """The lower layer reports failure."""
        return self._turn("peer_alt_reject")


class _WithUser(_Machine):
    def give_user(self, user: Name, *, psk_key: Octets = b"", gpsk_key: Octets = b"", barred: bool = False) -> None:
        """Gives the end its one user, in place of the one that it had, from the next Response on."""
        with _told(b"", user, psk_key, gpsk_key, barred=barred) as told:
            self._accept("server_set_user", told)


class Server(_WithUser):
    """The stand-alone server (section 5). `user` is its one user; without one it knows none, until give_user."""

    def __init__(self, name: Name, user: Name = b"", *, psk_key: Octets = b"", gpsk_key: Octets = b"", barred: bool = False,
                 methods: Sequence[int] = (), suites: Sequence[int] = (), expanded: bool = False, first_id: int = 0,
                 max_retrans: int = 4, nonce: Optional[Octets] = None) -> None:
        told = _told(name, user, psk_key, gpsk_key, methods, suites, expanded, barred)
        super().__init__("server_begin", told, _nonce(nonce), _number("first_id", first_id), _number("max_retrans", max_retrans))

    def start(self) -> Turn:
        """The first Request is made."""
        return self._turn("server_start")

    def timeout(self) -> Turn:
        """The retransmission timer ends."""
        return self._turn("server_timeout")


class Backend(_WithUser):
    """A backend behind a pass-through (section 6), which begins when the Identity Response has come, and then gets it."""

    def __init__(self, name: Name, user: Name = b"", *, psk_key: Octets = b"", gpsk_key: Octets = b"", barred: bool = False,
                 methods: Sequence[int] = (), suites: Sequence[int] = (), expanded: bool = False,
                 nonce: Optional[Octets] = None) -> None:
        super().__init__("backend_begin", _told(name, user, psk_key, gpsk_key, methods, suites, expanded, barred), _nonce(nonce))


class PassThrough(_End):
    """The pass-through (section 7). What its calls send goes to the peer, but after from_peer to the backend."""

    def __init__(self, *, first_id: int = 0, max_retrans: int = 4) -> None:
        super().__init__("pass_begin", None, _number("first_id", first_id), _number("max_retrans", max_retrans))

    def start(self) -> Turn:
        return self._turn("pass_start")

    def restart(self) -> Turn:
        return self._turn("pass_restart")

    def from_peer(self, octets: Octets) -> Turn:
        return self._turn("pass_from_peer", *_sized(octets))

    def from_backend(self, octets: Octets) -> Turn:
        return self._turn("pass_from_backend", *_sized(octets))

    def timeout(self) -> Turn:
        """In IDLE and IDLE2."""
        return self._turn("pass_timeout")

    def aaa_timeout(self) -> Turn:
        """In AAA_IDLE: the backend doesn't answer."""
        return self._turn("pass_aaa_timeout")

    def aaa_noreq(self) -> Turn:
        """In AAA_IDLE: the backend has no Request to send."""
        return self._turn("pass_aaa_noreq")


class Supplicant(_End):
    """The supplicant of IEEE 802.1X-2004 (clauses 8.2.11 and 8.2.12) over a peer, without a link, under AUTO. The times are in
    seconds."""

    def __init__(self, name: Name, server: Name = b"", *, psk_key: Octets = b"", gpsk_key: Octets = b"", methods: Sequence[int] = (),
                 suites: Sequence[int] = (), expanded: bool = False, start_period: int = 30, max_start: int = 3,
                 auth_period: int = 30, held_period: int = 60, port_valid: bool = False) -> None:
        times = _seconds(start_period=start_period, max_start=max_start, auth_period=auth_period, held_period=held_period)
        limits = _abi.SupplicantLimits(*times, bool(port_valid))
        super().__init__("supplicant_begin", _told(name, server, psk_key, gpsk_key, methods, suites, expanded), limits)

    def _step(self, name: str, *words: Any) -> SupplicantTurn:
        with self._lock:
            turn, frame, cause = self._taken(name, *words)
            self._state = _library.tuv_supplicant_word(turn.state).decode()
            return SupplicantTurn(frame, cause, self._state, turn.authorized, turn.took_nonce)

    def link(self, port_enabled: bool) -> SupplicantTurn:
        """The link comes up, or is lost."""
        return self._step("supplicant_link", bool(port_enabled))

    def frame(self, octets: Octets, nonce: Optional[Octets] = None) -> SupplicantTurn:
        """The octets of a frame come, behind the header of Ethernet."""
        return self._step("supplicant_frame", *_sized(octets), _nonce(nonce))

    def second(self) -> SupplicantTurn:
        """A second has gone by."""
        return self._step("supplicant_second")

    def logoff(self, user_logoff: bool) -> SupplicantTurn:
        """The user logs off, or on again."""
        return self._step("supplicant_logoff", bool(user_logoff))

    def control(self, port_control: int) -> SupplicantTurn:
        """AUTO, FORCE_AUTHORIZED or FORCE_UNAUTHORIZED."""
        return self._step("supplicant_control", _number("port_control", port_control))


class Port(_End):
    """The port of an authenticator of IEEE 802.1X-2004 (clauses 8.2.4, 8.2.8 and 8.2.9) over a pass-through, for one station,
    without a link, under AUTO. The times are in seconds."""

    def __init__(self, *, first_id: int = 0, max_retrans: int = 4, quiet_period: int = 60, server_timeout: int = 30,
                 retrans_period: int = 3, re_auth_period: int = 3600, re_auth_max: int = 2) -> None:
        times = _seconds(quiet_period=quiet_period, server_timeout=server_timeout, retrans_period=retrans_period,
                         re_auth_period=re_auth_period)
        limits = _abi.PortLimits(*times, _number("re_auth_max", re_auth_max))
        super().__init__("port_begin", None, _number("first_id", first_id), _number("max_retrans", max_retrans), limits)

    def _step(self, name: str, *words: Any) -> PortTurn:
        with self._lock:
            turn, sent, cause = self._taken(name, *words)
            self._state = _library.tuv_port_word(turn.state).decode()
            frame, packet = (sent, None) if turn.to_station else (None, sent)
            return PortTurn(frame, packet, cause, self._state, turn.authorized, turn.awaits_server)

    def link(self, port_enabled: bool) -> PortTurn:
        """The link comes up, or goes down."""
        return self._step("port_link", bool(port_enabled))

    def frame(self, octets: Octets) -> PortTurn:
        """The octets of a frame of the station come, behind the header of Ethernet."""
        return self._step("port_frame", *_sized(octets))

    def second(self) -> PortTurn:
        """A second has gone by."""
        return self._step("port_second")

    def answer(self, code: int, octets: Octets) -> PortTurn:
        """The server's answer comes, whose authenticators are good: ACCESS_.., and the EAP packet that it carries."""
        return self._step("port_answer", _number("code", code), *_sized(octets))

    def aaa_timeout(self) -> PortTurn:
        """No answer of the server comes any more."""
        return self._step("port_aaa_timeout")

    def control(self, port_control: int) -> PortTurn:
        """AUTO, FORCE_AUTHORIZED or FORCE_UNAUTHORIZED."""
        return self._step("port_control", _number("port_control", port_control))

    def reauthenticate(self) -> PortTurn:
        """A station that is in logs in again."""
        return self._step("port_reauthenticate")


class Method(_End):
    """One method alone, for a program with machines of its own: Method.of_peer or Method.of_server makes it."""

    _is_server: bool

    def __init__(self) -> None:
        raise TypeError("a Method is made by Method.of_peer or Method.of_server")

    @classmethod
    def _of(cls, is_server: bool, told: ContextManager[Any], *words: Any) -> Method:
        made = cls.__new__(cls)
        made._is_server = is_server
        _End.__init__(made, "server_method_begin" if is_server else "peer_method_begin", told, *words)
        return made

    @classmethod
    def of_peer(cls, name: Name, server: Name = b"", *, method: int, psk_key: Octets = b"", gpsk_key: Octets = b"",
                suites: Sequence[int] = (), expanded: bool = False, nonce: Optional[Octets] = None) -> Method:
        return cls._of(False, _told(name, server, psk_key, gpsk_key, (method,), suites, expanded), _nonce(nonce))

    @classmethod
    def of_server(cls, name: Name, user: Name = b"", *, method: int, psk_key: Octets = b"", gpsk_key: Octets = b"",
                  barred: bool = False, suites: Sequence[int] = (), expanded: bool = False, first_id: int = 0,
                  nonce: Optional[Octets] = None) -> Method:
        """`again` has the first Request, with this Identifier, at once."""
        told = _told(name, user, psk_key, gpsk_key, (method,), suites, expanded, barred)
        return cls._of(True, told, _nonce(nonce), _number("first_id", first_id))

    def give_user(self, user: Name, *, psk_key: Octets = b"", gpsk_key: Octets = b"", barred: bool = False) -> None:
        """Gives a server's method its one user."""
        with _told(b"", user, psk_key, gpsk_key, barred=barred) as told:
            self._accept("server_method_user", told)

    def handle(self, octets: Octets, next_id: Optional[int] = None) -> MethodTurn:
        """A whole Request comes to a peer's method, a whole Response to a server's, whose next Request has the Identifier
        `next_id`, or the one after the Response's."""
        room, length = _sized(octets)
        if not self._is_server and next_id is not None:
            raise ValueError("a peer's method sends no Request: it takes no next_id")
        name, words = "peer_method_handle", [room, length]
        if self._is_server:
            follows = (room[1] + 1) % 256 if length > 1 else 0
            name, words = "server_method_handle", [room, length, follows if next_id is None else _number("next_id", next_id)]
        with self._lock:
            turn, packet, cause = self._taken(name, *words)
            self._state = _METHOD_STATES[turn.state]
            return MethodTurn(packet, cause, self._state, _DECISIONS[turn.decision])


def request_name(octets: Octets) -> Optional[bytes]:
    """The name of the server in a whole PSK-1 or GPSK-1, which have no tag; None in any other octets."""
    return _name(_library.tuv_request_name, octets)


def response_name(octets: Octets) -> Optional[bytes]:
    """The name of the peer in a whole PSK-2 or GPSK-2, of which no tag was checked; None in any other octets."""
    return _name(_library.tuv_response_name, octets)


def _name(call: Any, octets: Octets) -> Optional[bytes]:
    room = (ctypes.c_uint8 * _abi.NAME_MAX)()
    length = call(*_sized(octets), room)
    return bytes(room[:length]) if length else None
