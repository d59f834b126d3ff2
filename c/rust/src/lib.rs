#![doc = include_str!("../README.md")]
#![deny(unsafe_op_in_unsafe_fn)]
#![warn(missing_docs)]

use std::ffi::CStr;
use std::os::raw::c_char;
use std::{fmt, io, mem, ptr};

#[allow(missing_docs)]
#[doc(hidden)]
pub mod sys;

/// A method: EAP-PSK (RFC 4764) or EAP-GPSK (RFC 5433).
#[derive(Clone, Copy, PartialEq, Eq, Debug)]
#[repr(u8)]
pub enum Kind {
    /// EAP-PSK.
    Psk = 47,
    /// EAP-GPSK.
    Gpsk = 51,
}

/// A ciphersuite of EAP-GPSK.
#[derive(Clone, Copy, PartialEq, Eq, Debug)]
#[repr(u8)]
pub enum Suite {
    /// AES-128 and CMAC.
    Cmac = 1,
    /// HMAC-SHA256.
    Hmac = 2,
}

fn word_of(word: unsafe extern "C" fn(u8) -> *const c_char, number: u8) -> &'static str {
    // SAFETY: the words are C strings that stay.
    unsafe { CStr::from_ptr(word(number)) }.to_str().unwrap_or("?")
}

// A number of the header with a word; those that a program asks for have a name.
macro_rules! numbers {
    ($(#[$doc:meta])* $name:ident by $word:ident: $($known:ident = $number:literal),*) => {
        $(#[$doc])*
        #[derive(Clone, Copy, PartialEq, Eq, Hash)]
        pub struct $name(u8);

        #[allow(missing_docs)]
        impl $name {
            $(pub const $known: $name = $name($number);)*
            #[doc(hidden)]
            pub const KNOWN: &'static [(&'static str, $name)] = &[$((stringify!($known), $name::$known)),*];
        }

        impl $name {
            /// The number, as `tuvaddri.h` has it.
            pub fn number(self) -> u8 {
                self.0
            }

            /// The word for a log.
            pub fn word(self) -> &'static str {
                word_of(sys::$word, self.0)
            }
        }

        impl fmt::Display for $name {
            fn fmt(&self, f: &mut fmt::Formatter<'_>) -> fmt::Result {
                f.write_str(self.word())
            }
        }

        impl fmt::Debug for $name {
            fn fmt(&self, f: &mut fmt::Formatter<'_>) -> fmt::Result {
                f.write_str(self.word())
            }
        }
    };
}

numbers!(
    /// A state of RFC 4137; those in which an end stands between two calls have a name.
    State by tuv_state_word:
    INITIALIZE = 0, IDLE = 1, SUCCESS = 10, FAILURE = 11, TIMEOUT_FAILURE = 19, AAA_IDLE = 23, IDLE2 = 26, SUCCESS2 = 30,
    FAILURE2 = 31, TIMEOUT_FAILURE2 = 32
);
numbers!(
    /// A state of the Supplicant PAE (IEEE 802.1X-2004 clause 8.2.11).
    SupplicantState by tuv_supplicant_word:
    DISCONNECTED = 1, LOGOFF = 2, CONNECTING = 3, AUTHENTICATING = 4, AUTHENTICATED = 5, HELD = 7, S_FORCE_AUTH = 9,
    S_FORCE_UNAUTH = 10
);
numbers!(
    /// A state of the Authenticator PAE (IEEE 802.1X-2004 clause 8.2.4).
    PortState by tuv_port_word:
    INITIALIZE = 1, AUTHENTICATING = 4, AUTHENTICATED = 5, HELD = 7, FORCE_AUTH = 8, FORCE_UNAUTH = 9
);
numbers!(
    /// Why a packet is discarded.
    Cause by tuv_cause_word: BAD_TAG = 28
);
numbers!(
    /// Why settings are refused.
    Refusal by tuv_refusal_word:
    BAD_SIZE = 1, NO_METHOD = 2, NO_SUITE = 3, BAD_NAME = 4, BAD_OTHER = 5, BAD_KEY = 6, MANY_RETRIES = 7, NO_MEMORY = 8, WRONG_END = 9
);
numbers!(
    /// Why a login has failed, as far as an end can know.
    Reason by tuv_failure_word:
    NONE = 0, UNKNOWN_USER = 1, BARRED_USER = 2, REFUSED = 3, NO_METHOD = 4, TIMEOUT = 5, ENDED = 6
);

impl Refusal {
    fn sentence(self) -> &'static str {
        match self {
            Refusal::BAD_SIZE => "the library knows no settings of this size",
            Refusal::NO_METHOD => "a method stands twice, or there is neither a method nor a key",
            Refusal::NO_SUITE => "a suite stands twice",
            Refusal::BAD_NAME => "the end's own name has 1 to 253 octets",
            Refusal::BAD_OTHER => "the other end's name has at most 253 octets",
            Refusal::BAD_KEY => {
                "psk_key has 16 octets and gpsk_key 32 to 64; a peer has one for each of its methods, a user one at least, \
                 and without a user there is none"
            }
            Refusal::MANY_RETRIES => "max_retrans is at most 10",
            Refusal::NO_MEMORY => "there is no memory",
            Refusal::WRONG_END => "this end takes no user",
            _ => "the library refuses it",
        }
    }
}

/// Why a call came to nothing; the end stays as it was.
#[derive(Clone, Copy, PartialEq, Eq, Debug)]
#[non_exhaustive]
pub enum Error {
    /// The settings are refused.
    Refused(Refusal),
    /// The call has no place where the end stands.
    Misplaced,
    /// There is no memory for an end.
    NoMemory,
    /// The processor lacks what the library was built for.
    Processor,
    /// The library has this version of the interface, and the crate is for another.
    Version(u32),
}

impl fmt::Display for Error {
    fn fmt(&self, f: &mut fmt::Formatter<'_>) -> fmt::Result {
        match self {
            Error::Refused(it) => write!(f, "{it}: {}", it.sentence()),
            Error::Misplaced => f.write_str("the call has no place where the end stands; nothing is changed"),
            Error::NoMemory => f.write_str("there is no memory for an end"),
            Error::Processor => f.write_str("the processor has no SSSE3, SSE4.1, SSE4.2 or POPCNT"),
            Error::Version(it) => write!(f, "the library has version {it} of the interface, and the crate is for {}", sys::VERSION),
        }
    }
}

impl std::error::Error for Error {}

/// 32 octets that were never used before, by any end, and that a begin or a restart takes.
#[derive(Debug)]
pub struct Nonce([u8; sys::NONCE_LEN]);

impl Nonce {
    /// From the system's random source, getrandom(2).
    pub fn fresh() -> io::Result<Nonce> {
        let mut octets = [0; sys::NONCE_LEN];
        // SAFETY: the room is there, and has this length.
        let got = unsafe { sys::getrandom(octets.as_mut_ptr().cast(), octets.len(), 0) };
        if got == octets.len() as isize { Ok(Nonce(octets)) } else { Err(io::Error::last_os_error()) }
    }
}

impl From<[u8; sys::NONCE_LEN]> for Nonce {
    /// The caller answers for it that they are fresh.
    fn from(octets: [u8; sys::NONCE_LEN]) -> Nonce {
        Nonce(octets)
    }
}

/// What an end is told. What is empty has the default of `tuvaddri.h`. It is copied; the keys stay the caller's to clear.
#[derive(Clone, Copy, Default)]
pub struct Settings<'a> {
    /// The end's own name, of 1 to 253 octets.
    pub name: &'a [u8],
    /// At a peer the one server that it accepts, or any; at a server its one user, or none.
    pub other: &'a [u8],
    /// The key for EAP-PSK, 16 octets; none: no login by that method.
    pub psk_key: &'a [u8],
    /// The key for EAP-GPSK, 32 to 64 octets.
    pub gpsk_key: &'a [u8],
    /// The methods: a peer's that it allows, a server's in the order in which it proposes them.
    pub methods: &'a [Kind],
    /// The suites of EAP-GPSK: a peer's that it allows, a server's in the order of its list.
    pub suites: &'a [Suite],
    /// Whether Expanded Types (RFC 3748 section 5.7) are read, and a server asks in them.
    pub expanded: bool,
    /// Whether a server's user is barred.
    pub barred: bool,
}

impl fmt::Debug for Settings<'_> {
    fn fmt(&self, f: &mut fmt::Formatter<'_>) -> fmt::Result {
        let (name, other) = (String::from_utf8_lossy(self.name), String::from_utf8_lossy(self.other));
        f.debug_struct("Settings").field("name", &name).field("other", &other).finish_non_exhaustive()
    }
}

// One that is over makes the first stand twice, which is refused as it would be.
fn two_of<T: Copy>(numbers: &[T], of: fn(T) -> u8) -> [u8; 2] {
    match *numbers {
        [] => [0, 0],
        [one] => [of(one), 0],
        [one, other] => [of(one), of(other)],
        [one, ..] => [of(one), of(one)],
    }
}

fn octets(of: &[u8]) -> sys::Octets {
    sys::Octets { at: of.as_ptr(), len: of.len() }
}

impl Settings<'_> {
    fn told(&self) -> sys::Settings {
        sys::Settings {
            size: mem::size_of::<sys::Settings>(),
            name: octets(self.name),
            other: octets(self.other),
            psk_key: octets(self.psk_key),
            gpsk_key: octets(self.gpsk_key),
            methods: two_of(self.methods, |it| it as u8),
            suites: two_of(self.suites, |it| it as u8),
            expanded: self.expanded.into(),
            barred: self.barred.into(),
        }
    }
}

/// What a call came to.
#[derive(Clone, PartialEq, Eq, Debug)]
pub struct Turn {
    /// What is to be sent.
    pub packet: Option<Vec<u8>>,
    /// Why what came is discarded.
    pub cause: Option<Cause>,
    /// The state after it.
    pub state: State,
}

/// portControl of a supplicant, AuthControlledPortControl of a port.
#[derive(Clone, Copy, PartialEq, Eq, Debug)]
#[allow(missing_docs)]
#[repr(u8)]
pub enum Control {
    ForceUnauthorized = 1,
    Auto = 2,
    ForceAuthorized = 3,
}

/// The Code of a RADIUS server's answer (RFC 2865 section 3).
#[derive(Clone, Copy, PartialEq, Eq, Debug)]
#[allow(missing_docs)]
#[repr(u8)]
pub enum Code {
    AccessAccept = 2,
    AccessReject = 3,
    AccessChallenge = 11,
}

/// The timers of a supplicant, in seconds, and its count; the standard's defaults are [`SupplicantLimits::default`].
#[derive(Clone, Copy, PartialEq, Eq, Debug)]
pub struct SupplicantLimits {
    /// Between two EAPOL-Starts.
    pub start_period: u32,
    /// The EAPOL-Starts that go unanswered.
    pub max_start: u32,
    /// Without a packet amid a login.
    pub auth_period: u32,
    /// After a failure.
    pub held_period: u32,
    /// Whether the port opens **without a login** if no authenticator answers.
    pub port_valid: bool,
}

impl Default for SupplicantLimits {
    fn default() -> SupplicantLimits {
        SupplicantLimits { start_period: 30, max_start: 3, auth_period: 30, held_period: 60, port_valid: false }
    }
}

/// The times of a port, in seconds, and its bound; the standard's defaults are [`PortLimits::default`].
#[derive(Clone, Copy, PartialEq, Eq, Debug)]
pub struct PortLimits {
    /// In HELD.
    pub quiet_period: u32,
    /// For an answer of the server.
    pub server_timeout: u32,
    /// After which a Request is sent again.
    pub retrans_period: u32,
    /// After which a station logs in again; 0: never.
    pub re_auth_period: u32,
    /// The rounds of a login that don't shut the port.
    pub re_auth_max: u8,
}

impl Default for PortLimits {
    fn default() -> PortLimits {
        PortLimits { quiet_period: 60, server_timeout: 30, retrans_period: 3, re_auth_period: 3600, re_auth_max: 2 }
    }
}

/// What a call of a supplicant came to.
#[derive(Clone, PartialEq, Eq, Debug)]
pub struct SupplicantTurn {
    /// What is to be sent to the authenticator, behind the header of Ethernet.
    pub frame: Option<Vec<u8>>,
    /// Why what came is discarded.
    pub cause: Option<Cause>,
    /// The state after it.
    pub state: SupplicantState,
    /// Whether the port is open.
    pub authorized: bool,
    /// Whether a login began with the nonce.
    pub took_nonce: bool,
}

/// What a call of a port came to.
#[derive(Clone, PartialEq, Eq, Debug)]
pub struct PortTurn {
    /// What is to be sent to the station, behind the header of Ethernet.
    pub frame: Option<Vec<u8>>,
    /// What is to be sent to the server, in an Access-Request.
    pub packet: Option<Vec<u8>>,
    /// Why what came is discarded.
    pub cause: Option<Cause>,
    /// The state after it.
    pub state: PortState,
    /// Whether the port is open.
    pub authorized: bool,
    /// If false, an outstanding Access-Request is given up.
    pub awaits_server: bool,
}

/// methodState of RFC 4137 section 4.2.
#[derive(Clone, Copy, PartialEq, Eq, Debug)]
#[allow(missing_docs)]
pub enum MethodState {
    None,
    Init,
    Cont,
    MayCont,
    Done,
}

/// The decision of RFC 4137 section 4.2.
#[derive(Clone, Copy, PartialEq, Eq, Debug)]
#[allow(missing_docs)]
pub enum Decision {
    Fail,
    CondSucc,
    UncondSucc,
}

/// What a call of a method alone came to.
#[derive(Clone, PartialEq, Eq, Debug)]
pub struct MethodTurn {
    /// What is to be sent.
    pub packet: Option<Vec<u8>>,
    /// Why what came is discarded.
    pub cause: Option<Cause>,
    /// methodState after it.
    pub state: MethodState,
    /// The decision after it.
    pub decision: Decision,
}

/// Why a login has failed.
#[derive(Clone, Copy, PartialEq, Eq, Debug)]
pub struct Failure {
    /// The reason, [`Reason::NONE`] if it hasn't.
    pub reason: Reason,
    /// The Failure-Code of EAP-GPSK (RFC 5433 section 9.3), 0 if there is none.
    pub code: u8,
}

/// MSK or EMSK. It is cleared when it is dropped, and is on the heap, so that no move leaves a copy.
pub struct Key(Box<[u8; 64]>);

impl Key {
    fn of(octets: &[u8; 64]) -> Key {
        let mut key = Key(Box::new([0; 64]));
        key.0.copy_from_slice(octets);
        key
    }

    /// The octets.
    pub fn octets(&self) -> &[u8; 64] {
        &self.0
    }
}

impl fmt::Debug for Key {
    fn fmt(&self, f: &mut fmt::Formatter<'_>) -> fmt::Result {
        f.write_str("Key(..)")
    }
}

impl Drop for Key {
    fn drop(&mut self) {
        // SAFETY: the octets are the key's own.
        unsafe { sys::explicit_bzero(self.0.as_mut_ptr().cast(), self.0.len()) }
    }
}

/// What an end holds after a method that succeeded.
#[derive(Debug)]
pub struct Report {
    /// The method.
    pub method: Kind,
    /// The suite of EAP-GPSK.
    pub suite: Option<Suite>,
    /// The names of both ends.
    pub peer: Vec<u8>,
    /// The server's.
    pub server: Vec<u8>,
    /// The link's keys.
    pub msk: Key,
    /// What stays at the end.
    pub emsk: Key,
    /// RAND_P or RAND_Peer.
    pub peer_rand: Vec<u8>,
    /// RAND_S or RAND_Server.
    pub server_rand: Vec<u8>,
}

fn front(of: &[u8], len: u8) -> Vec<u8> {
    of[..of.len().min(len.into())].to_vec()
}

impl Report {
    fn of(told: &sys::Report) -> Report {
        Report {
            method: if told.method == Kind::Psk as u8 { Kind::Psk } else { Kind::Gpsk },
            suite: [Suite::Cmac, Suite::Hmac].into_iter().find(|it| *it as u8 == told.suite),
            peer: front(&told.peer, told.peer_length),
            server: front(&told.server, told.server_length),
            msk: Key::of(&told.msk),
            emsk: Key::of(&told.emsk),
            peer_rand: front(&told.peer_rand, told.rand_length),
            server_rand: front(&told.server_rand, told.rand_length),
        }
    }
}

type Room = unsafe extern "C" fn(*mut sys::End, *mut u8, usize) -> usize;
type Begin = unsafe extern "C" fn(*mut sys::End, *const sys::Settings, *const u8) -> u8;
type Step = unsafe extern "C" fn(*mut sys::End) -> sys::Turn;
type Hear = unsafe extern "C" fn(*mut sys::End, *const u8, usize) -> sys::Turn;

/// A handle. Its octets are the library's; handles share nothing, so one may go to another thread, but no two threads use
/// one at once.
struct End(sys::End);

// SAFETY: no call looks at the thread that it is made in.
unsafe impl Send for End {}

impl End {
    fn new() -> Result<End, Error> {
        let mut at = ptr::null_mut();
        // SAFETY: these have no condition but that of `at`, which is there.
        unsafe {
            if sys::tuv_version() != sys::VERSION {
                Err(Error::Version(sys::tuv_version()))
            } else if !sys::tuv_cpu_supported() {
                Err(Error::Processor)
            } else if !sys::tuv_end_new(&mut at) {
                Err(Error::NoMemory)
            } else {
                Ok(End(sys::End { at }))
            }
        }
    }

    /// A call; the stack on which it has left octets of keys is cleared behind it.
    #[inline(never)]
    fn ask<T>(&mut self, call: impl FnOnce(*mut sys::End) -> T) -> T {
        let answer = call(&mut self.0);
        // SAFETY: it has no condition.
        unsafe { sys::tuv_clear_stack() };
        answer
    }

    fn begun(mut self, begin: impl FnOnce(*mut sys::End) -> u8) -> Result<End, Error> {
        taken(self.ask(begin)).map(|()| self)
    }

    fn by_settings(begin: Begin, told: &Settings, nonce: Nonce) -> Result<End, Error> {
        // SAFETY: the end is new, the settings' octets are lent, the nonce has 32.
        End::new()?.begun(|end| unsafe { begin(end, &told.told(), nonce.0.as_ptr()) })
    }

    fn packet(&mut self, of: Room) -> Option<Vec<u8>> {
        let mut room = [0; sys::FRAME_MAX];
        // SAFETY: the room is there, and has this length.
        let len = self.ask(|end| unsafe { of(end, room.as_mut_ptr(), room.len()) });
        room.get(..len).filter(|it| !it.is_empty()).map(<[u8]>::to_vec)
    }

    fn told(&mut self, turn: sys::Turn) -> Result<Turn, Error> {
        let (packet, cause) = self.came_to(turn.sends, turn.discards, turn.misplaced, turn.cause)?;
        Ok(Turn { packet, cause, state: State(turn.state) })
    }

    fn came_to(&mut self, sends: bool, discards: bool, misplaced: bool, cause: u8) -> Result<(Option<Vec<u8>>, Option<Cause>), Error> {
        if misplaced {
            return Err(Error::Misplaced);
        }
        let packet = if sends { self.packet(sys::tuv_end_packet) } else { None };
        Ok((packet, Some(Cause(cause)).filter(|_| discards)))
    }

    fn step(&mut self, step: Step) -> Result<Turn, Error> {
        // SAFETY: the end is one of tuv_end_new.
        let turn = self.ask(|end| unsafe { step(end) });
        self.told(turn)
    }

    fn hear(&mut self, hear: Hear, octets: &[u8]) -> Result<Turn, Error> {
        // SAFETY: the octets are lent.
        let turn = self.ask(|end| unsafe { hear(end, octets.as_ptr(), octets.len()) });
        self.told(turn)
    }

    fn restart(&mut self, restart: unsafe extern "C" fn(*mut sys::End, *const u8) -> sys::Turn, nonce: Nonce) -> Result<Turn, Error> {
        // SAFETY: the nonce has 32 octets.
        let turn = self.ask(|end| unsafe { restart(end, nonce.0.as_ptr()) });
        self.told(turn)
    }

    fn method_told(&mut self, turn: sys::MethodTurn) -> Result<MethodTurn, Error> {
        let (packet, cause) = self.came_to(turn.sends, turn.discards, turn.misplaced, turn.cause)?;
        let state = match turn.state {
            1 => MethodState::Init,
            2 => MethodState::Cont,
            3 => MethodState::MayCont,
            4 => MethodState::Done,
            _ => MethodState::None,
        };
        let decision = match turn.decision {
            1 => Decision::CondSucc,
            2 => Decision::UncondSucc,
            _ => Decision::Fail,
        };
        Ok(MethodTurn { packet, cause, state, decision })
    }

    fn supplicant_told(&mut self, turn: sys::SupplicantTurn) -> Result<SupplicantTurn, Error> {
        let (frame, cause) = self.came_to(turn.sends, turn.discards, turn.misplaced, turn.cause)?;
        let state = SupplicantState(turn.state);
        Ok(SupplicantTurn { frame, cause, state, authorized: turn.authorized, took_nonce: turn.took_nonce })
    }

    fn port_told(&mut self, turn: sys::PortTurn) -> Result<PortTurn, Error> {
        let (sent, cause) = self.came_to(turn.to_station || turn.to_server, turn.discards, turn.misplaced, turn.cause)?;
        let (frame, packet) = if turn.to_station { (sent, None) } else { (None, sent) };
        let state = PortState(turn.state);
        Ok(PortTurn { frame, packet, cause, state, authorized: turn.authorized, awaits_server: turn.awaits_server })
    }

    fn user(&mut self, give: unsafe extern "C" fn(*mut sys::End, *const sys::Settings) -> u8, told: &Settings) -> Result<(), Error> {
        // SAFETY: the settings' octets are lent.
        taken(self.ask(|end| unsafe { give(end, &told.told()) }))
    }

    fn report(&mut self) -> Option<Report> {
        // SAFETY: a report is numbers, and 0 is one of each.
        let mut told: sys::Report = unsafe { mem::zeroed() };
        told.size = mem::size_of::<sys::Report>();
        // SAFETY: the room is there, and its size says so.
        let held = self.ask(|end| unsafe { sys::tuv_end_report(end, &mut told) });
        let report = held.then(|| Report::of(&told));
        // SAFETY: the octets are this call's own.
        unsafe { sys::explicit_bzero((&mut told as *mut sys::Report).cast(), mem::size_of::<sys::Report>()) };
        report
    }

    fn session_id(&mut self, of: unsafe extern "C" fn(*mut sys::End, *mut u8) -> usize) -> Option<Vec<u8>> {
        let mut room = [0; sys::SESSION_ID_MAX];
        // SAFETY: the room has the octets that such an Id may have.
        let len = self.ask(|end| unsafe { of(end, room.as_mut_ptr()) });
        room.get(..len).filter(|it| !it.is_empty()).map(<[u8]>::to_vec)
    }

    fn failure(&mut self) -> Failure {
        // SAFETY: the end is one of tuv_end_new.
        let told = self.ask(|end| unsafe { sys::tuv_end_failure(end) });
        Failure { reason: Reason(told.reason), code: told.code }
    }
}

fn taken(answer: u8) -> Result<(), Error> {
    if answer == 0 { Ok(()) } else { Err(Error::Refused(Refusal(answer))) }
}

impl Drop for End {
    fn drop(&mut self) {
        // SAFETY: the block is tuv_end_new's, and nothing uses it from here on.
        unsafe { sys::tuv_end_free(&mut self.0) }
    }
}

// What every end has.
macro_rules! an_end {
    ($($name:ident),*) => {$(
        impl $name {
            /// The packet that was sent last, whatever came since; none if there was none since the begin or a restart.
            pub fn again(&mut self) -> Option<Vec<u8>> {
                self.0.packet(sys::tuv_end_last_packet)
            }

            /// What the end holds; none before a method has succeeded. A login has succeeded if the state is SUCCESS too.
            pub fn report(&mut self) -> Option<Report> {
                self.0.report()
            }

            /// The Session-Id (RFC 5247); none before a method has succeeded.
            pub fn session_id(&mut self) -> Option<Vec<u8>> {
                self.0.session_id(sys::tuv_end_session_id)
            }

            /// The same as wpa_supplicant and hostapd 2.10 derive it.
            pub fn session_id_wpa(&mut self) -> Option<Vec<u8>> {
                self.0.session_id(sys::tuv_end_session_id_wpa)
            }

            /// Why the login has failed.
            pub fn failure(&mut self) -> Failure {
                self.0.failure()
            }
        }

        impl fmt::Debug for $name {
            fn fmt(&self, f: &mut fmt::Formatter<'_>) -> fmt::Result {
                f.write_str(concat!(stringify!($name), "(..)"))
            }
        }
    )*};
}

// What an end with a machine has, but the pass-through.
macro_rules! a_machine {
    ($($name:ident: $deliver:ident, $restart:ident;)*) => {$(
        impl $name {
            /// Octets come, as one packet.
            pub fn deliver(&mut self, octets: &[u8]) -> Result<Turn, Error> {
                self.0.hear(sys::$deliver, octets)
            }

            /// A new conversation begins, with the settings that the end has.
            pub fn restart(&mut self, nonce: Nonce) -> Result<Turn, Error> {
                self.0.restart(sys::$restart, nonce)
            }
        }
    )*};
}

// Calls that hand nothing in.
macro_rules! steps {
    ($name:ident: $($(#[$doc:meta])* $step:ident = $call:ident;)*) => {
        impl $name {
            $($(#[$doc])*
            pub fn $step(&mut self) -> Result<Turn, Error> {
                self.0.step(sys::$call)
            })*
        }
    };
}

/// The peer (RFC 4137 section 4).
pub struct Peer(End);

/// The stand-alone server (section 5).
pub struct Server(End);

/// A backend behind a pass-through (section 6), which begins when the Identity Response has come, and then gets it.
pub struct Backend(End);

/// The pass-through (section 7). What its calls send goes to the peer, but after `from_peer` to the backend.
pub struct PassThrough(End);

/// The supplicant of IEEE 802.1X-2004 (clauses 8.2.11 and 8.2.12), over a peer.
pub struct Supplicant(End);

/// The port of an authenticator of IEEE 802.1X-2004 (clauses 8.2.4, 8.2.8 and 8.2.9), over a pass-through, for one station.
pub struct Port(End);

/// A peer's method alone, for a program with machines of its own.
pub struct PeerMethod(End);

/// A server's method alone.
pub struct ServerMethod(End);

an_end!(Peer, Server, Backend, PassThrough, Supplicant, Port, PeerMethod, ServerMethod);
a_machine! {
    Peer: tuv_peer_deliver, tuv_peer_restart;
    Server: tuv_server_deliver, tuv_server_restart;
    Backend: tuv_server_deliver, tuv_server_restart;
}
steps!(Peer:
    /// The lower layer is idle.
    idle = tuv_peer_idle;
    /// The lower layer reports success.
    alt_accept = tuv_peer_alt_accept;
    /// The lower layer reports failure.
    alt_reject = tuv_peer_alt_reject;
);
steps!(Server:
    /// The first Request is made.
    start = tuv_server_start;
    /// The retransmission timer ends.
    timeout = tuv_server_timeout;
);
steps!(PassThrough:
    /// The first Request is made.
    start = tuv_pass_start;
    /// A new conversation begins.
    restart = tuv_pass_restart;
    /// The retransmission timer ends.
    timeout = tuv_pass_timeout;
    /// The backend doesn't answer.
    aaa_timeout = tuv_pass_aaa_timeout;
    /// The backend has no Request to send.
    aaa_noreq = tuv_pass_aaa_noreq;
);

impl Peer {
    /// Begins.
    pub fn begin(told: &Settings, nonce: Nonce) -> Result<Peer, Error> {
        End::by_settings(sys::tuv_peer_begin, told, nonce).map(Peer)
    }
}

impl Server {
    /// Begins. `first_id` is the Identifier of the first Request, which is sent again at most `max_retrans` times, 0 to 10.
    pub fn begin(told: &Settings, nonce: Nonce, first_id: u8, max_retrans: u8) -> Result<Server, Error> {
        // SAFETY: as in by_settings.
        let begin = |end| unsafe { sys::tuv_server_begin(end, &told.told(), nonce.0.as_ptr(), first_id, max_retrans) };
        End::new()?.begun(begin).map(Server)
    }

    /// Gives it its one user: `other`, the keys and `barred`, in place of the one that it had, from the next Response on.
    pub fn give_user(&mut self, told: &Settings) -> Result<(), Error> {
        self.0.user(sys::tuv_server_set_user, told)
    }
}

impl Backend {
    /// Begins.
    pub fn begin(told: &Settings, nonce: Nonce) -> Result<Backend, Error> {
        End::by_settings(sys::tuv_backend_begin, told, nonce).map(Backend)
    }

    /// Gives it its one user, as [`Server::give_user`].
    pub fn give_user(&mut self, told: &Settings) -> Result<(), Error> {
        self.0.user(sys::tuv_server_set_user, told)
    }
}

impl PassThrough {
    /// Begins, as [`Server::begin`].
    pub fn begin(first_id: u8, max_retrans: u8) -> Result<PassThrough, Error> {
        // SAFETY: the end is new.
        End::new()?.begun(|end| unsafe { sys::tuv_pass_begin(end, first_id, max_retrans) }).map(PassThrough)
    }

    /// Octets come from the peer.
    pub fn from_peer(&mut self, octets: &[u8]) -> Result<Turn, Error> {
        self.0.hear(sys::tuv_pass_from_peer, octets)
    }

    /// Octets come from the backend.
    pub fn from_backend(&mut self, octets: &[u8]) -> Result<Turn, Error> {
        self.0.hear(sys::tuv_pass_from_backend, octets)
    }
}

impl Supplicant {
    /// Begins without a link, under [`Control::Auto`].
    pub fn begin(told: &Settings, limits: SupplicantLimits) -> Result<Supplicant, Error> {
        let SupplicantLimits { start_period, max_start, auth_period, held_period, port_valid } = limits;
        let limits = sys::SupplicantLimits { start_period, max_start, auth_period, held_period, port_valid: port_valid.into() };
        // SAFETY: as in by_settings; the limits are lent.
        End::new()?.begun(|end| unsafe { sys::tuv_supplicant_begin(end, &told.told(), &limits) }).map(Supplicant)
    }

    /// The link comes up, or is lost.
    pub fn link(&mut self, port_enabled: bool) -> Result<SupplicantTurn, Error> {
        self.by_number(sys::tuv_supplicant_link, port_enabled.into())
    }

    /// The octets of a frame come, behind the header of Ethernet. A Request that begins a login takes the nonce.
    pub fn frame(&mut self, octets: &[u8], nonce: Nonce) -> Result<SupplicantTurn, Error> {
        // SAFETY: the octets are lent, the nonce has 32.
        let frame = |end| unsafe { sys::tuv_supplicant_frame(end, octets.as_ptr(), octets.len(), nonce.0.as_ptr()) };
        let turn = self.0.ask(frame);
        self.0.supplicant_told(turn)
    }

    /// A second has gone by.
    pub fn second(&mut self) -> Result<SupplicantTurn, Error> {
        // SAFETY: the end is one of tuv_end_new.
        let turn = self.0.ask(|end| unsafe { sys::tuv_supplicant_second(end) });
        self.0.supplicant_told(turn)
    }

    /// The user logs off, or on again.
    pub fn logoff(&mut self, user_logoff: bool) -> Result<SupplicantTurn, Error> {
        self.by_number(sys::tuv_supplicant_logoff, user_logoff.into())
    }

    /// The management sets portControl.
    pub fn control(&mut self, port_control: Control) -> Result<SupplicantTurn, Error> {
        self.by_number(sys::tuv_supplicant_control, port_control as u8)
    }

    fn by_number(&mut self, call: unsafe extern "C" fn(*mut sys::End, u8) -> sys::SupplicantTurn, number: u8) -> Result<SupplicantTurn, Error> {
        // SAFETY: the end is one of tuv_end_new.
        let turn = self.0.ask(|end| unsafe { call(end, number) });
        self.0.supplicant_told(turn)
    }
}

impl Port {
    /// Begins without a link, under [`Control::Auto`]; the numbers are those of [`PassThrough::begin`].
    pub fn begin(first_id: u8, max_retrans: u8, limits: PortLimits) -> Result<Port, Error> {
        let PortLimits { quiet_period, server_timeout, retrans_period, re_auth_period, re_auth_max } = limits;
        let limits = sys::PortLimits { quiet_period, server_timeout, retrans_period, re_auth_period, re_auth_max };
        // SAFETY: the end is new, the limits are lent.
        End::new()?.begun(|end| unsafe { sys::tuv_port_begin(end, first_id, max_retrans, &limits) }).map(Port)
    }

    /// The link comes up, or goes down.
    pub fn link(&mut self, port_enabled: bool) -> Result<PortTurn, Error> {
        // SAFETY: the end is one of tuv_end_new.
        self.by(|end| unsafe { sys::tuv_port_link(end, port_enabled.into()) })
    }

    /// The octets of a frame of the station come, behind the header of Ethernet.
    pub fn frame(&mut self, octets: &[u8]) -> Result<PortTurn, Error> {
        // SAFETY: the octets are lent.
        self.by(|end| unsafe { sys::tuv_port_frame(end, octets.as_ptr(), octets.len()) })
    }

    /// A second has gone by.
    pub fn second(&mut self) -> Result<PortTurn, Error> {
        // SAFETY: the end is one of tuv_end_new.
        self.by(|end| unsafe { sys::tuv_port_second(end) })
    }

    /// The server's answer comes, whose authenticators are good, and the EAP packet that it carries.
    pub fn answer(&mut self, code: Code, octets: &[u8]) -> Result<PortTurn, Error> {
        // SAFETY: the octets are lent.
        self.by(|end| unsafe { sys::tuv_port_answer(end, code as u8, octets.as_ptr(), octets.len()) })
    }

    /// No answer of the server comes any more.
    pub fn aaa_timeout(&mut self) -> Result<PortTurn, Error> {
        // SAFETY: the end is one of tuv_end_new.
        self.by(|end| unsafe { sys::tuv_port_aaa_timeout(end) })
    }

    /// The management sets AuthControlledPortControl.
    pub fn control(&mut self, port_control: Control) -> Result<PortTurn, Error> {
        // SAFETY: the end is one of tuv_end_new.
        self.by(|end| unsafe { sys::tuv_port_control(end, port_control as u8) })
    }

    /// A station that is in logs in again.
    pub fn reauthenticate(&mut self) -> Result<PortTurn, Error> {
        // SAFETY: the end is one of tuv_end_new.
        self.by(|end| unsafe { sys::tuv_port_reauthenticate(end) })
    }

    fn by(&mut self, call: impl FnOnce(*mut sys::End) -> sys::PortTurn) -> Result<PortTurn, Error> {
        let turn = self.0.ask(call);
        self.0.port_told(turn)
    }
}

impl PeerMethod {
    /// Begins.
    pub fn begin(told: &Settings, nonce: Nonce) -> Result<PeerMethod, Error> {
        End::by_settings(sys::tuv_peer_method_begin, told, nonce).map(PeerMethod)
    }

    /// A whole Request of the method's Type comes.
    pub fn handle(&mut self, octets: &[u8]) -> Result<MethodTurn, Error> {
        // SAFETY: the octets are lent.
        let turn = self.0.ask(|end| unsafe { sys::tuv_peer_method_handle(end, octets.as_ptr(), octets.len()) });
        self.0.method_told(turn)
    }
}

impl ServerMethod {
    /// Begins; [`ServerMethod::again`] has the first Request, with this Identifier, at once.
    pub fn begin(told: &Settings, nonce: Nonce, id: u8) -> Result<ServerMethod, Error> {
        // SAFETY: as in by_settings.
        let begin = |end| unsafe { sys::tuv_server_method_begin(end, &told.told(), nonce.0.as_ptr(), id) };
        End::new()?.begun(begin).map(ServerMethod)
    }

    /// Gives it its one user, as [`Server::give_user`].
    pub fn give_user(&mut self, told: &Settings) -> Result<(), Error> {
        self.0.user(sys::tuv_server_method_user, told)
    }

    /// A whole Response of the method's Type comes; a Request that follows has the Identifier `next_id`.
    pub fn handle(&mut self, octets: &[u8], next_id: u8) -> Result<MethodTurn, Error> {
        // SAFETY: the octets are lent.
        let turn = self.0.ask(|end| unsafe { sys::tuv_server_method_handle(end, octets.as_ptr(), octets.len(), next_id) });
        self.0.method_told(turn)
    }
}

/// The name of the server in a whole PSK-1 or GPSK-1, which have no tag; none in any other octets.
pub fn request_name(octets: &[u8]) -> Option<Vec<u8>> {
    name_by(sys::tuv_request_name, octets)
}

/// The name of the peer in a whole PSK-2 or GPSK-2, of which no tag was checked; none in any other octets.
pub fn response_name(octets: &[u8]) -> Option<Vec<u8>> {
    name_by(sys::tuv_response_name, octets)
}

fn name_by(call: unsafe extern "C" fn(*const u8, usize, *mut u8) -> usize, octets: &[u8]) -> Option<Vec<u8>> {
    let mut room = [0; sys::NAME_MAX];
    // SAFETY: the octets are lent, and the room has those that a name may have.
    let len = unsafe { call(octets.as_ptr(), octets.len(), room.as_mut_ptr()) };
    room.get(..len).filter(|it| !it.is_empty()).map(<[u8]>::to_vec)
}

/// The version of the interface and the commit, as in `tuvaddri 2 252dec7`.
pub fn ident() -> &'static str {
    // SAFETY: it is a C string that stays.
    unsafe { CStr::from_ptr(ptr::addr_of!(sys::tuv_ident).cast()) }.to_str().unwrap_or("?")
}

