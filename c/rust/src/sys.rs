//! The structs and calls of `tuvaddri.h`.
use core::ffi::c_void;
use std::os::raw::c_char;

pub const VERSION: u32 = 2;
pub const PACKET_MAX: usize = 1500;
pub const NAME_MAX: usize = 253;
pub const KEY_MAX: usize = 64;
pub const NONCE_LEN: usize = 32;
pub const RAND_MAX: usize = 32;
pub const SESSION_ID_MAX: usize = 33;
pub const FRAME_MAX: usize = 1504;

#[repr(C)]
pub struct End {
    pub at: *mut c_void,
}

#[repr(C)]
#[derive(Clone, Copy)]
pub struct Octets {
    pub at: *const u8,
    pub len: usize,
}

#[repr(C)]
pub struct Settings {
    pub size: usize,
    pub name: Octets,
    pub other: Octets,
    pub psk_key: Octets,
    pub gpsk_key: Octets,
    pub methods: [u8; 2],
    pub suites: [u8; 2],
    pub expanded: u8,
    pub barred: u8,
}

#[repr(C)]
#[derive(Clone, Copy)]
pub struct Turn {
    pub sends: bool,
    pub discards: bool,
    pub misplaced: bool,
    pub cause: u8,
    pub state: u8,
}

#[repr(C)]
#[derive(Clone, Copy)]
pub struct MethodTurn {
    pub sends: bool,
    pub discards: bool,
    pub misplaced: bool,
    pub cause: u8,
    pub state: u8,
    pub decision: u8,
}

#[repr(C)]
pub struct Report {
    pub size: usize,
    pub method: u8,
    pub suite: u8,
    pub peer_length: u8,
    pub server_length: u8,
    pub peer: [u8; NAME_MAX],
    pub server: [u8; NAME_MAX],
    pub msk: [u8; 64],
    pub emsk: [u8; 64],
    pub rand_length: u8,
    pub peer_rand: [u8; RAND_MAX],
    pub server_rand: [u8; RAND_MAX],
}

#[repr(C)]
#[derive(Clone, Copy)]
pub struct Failure {
    pub reason: u8,
    pub code: u8,
}

#[repr(C)]
#[derive(Clone, Copy)]
pub struct SupplicantTurn {
    pub sends: bool,
    pub discards: bool,
    pub misplaced: bool,
    pub took_nonce: bool,
    pub authorized: bool,
    pub cause: u8,
    pub state: u8,
}

#[repr(C)]
#[derive(Clone, Copy)]
pub struct PortTurn {
    pub to_station: bool,
    pub to_server: bool,
    pub discards: bool,
    pub misplaced: bool,
    pub authorized: bool,
    pub awaits_server: bool,
    pub cause: u8,
    pub state: u8,
}

#[repr(C)]
#[derive(Clone, Copy)]
pub struct SupplicantLimits {
    pub start_period: u32,
    pub max_start: u32,
    pub auth_period: u32,
    pub held_period: u32,
    pub port_valid: u8,
}

#[repr(C)]
#[derive(Clone, Copy)]
pub struct PortLimits {
    pub quiet_period: u32,
    pub server_timeout: u32,
    pub retrans_period: u32,
    pub re_auth_period: u32,
    pub re_auth_max: u8,
}

extern "C" {
    pub fn tuv_version() -> u32;
    pub fn tuv_cpu_supported() -> bool;
    pub fn tuv_clear_stack();
    pub fn tuv_end_new(at: *mut *mut c_void) -> bool;
    pub fn tuv_end_free(end: *mut End);
    pub fn tuv_end_packet(end: *mut End, room: *mut u8, len: usize) -> usize;
    pub fn tuv_end_last_packet(end: *mut End, room: *mut u8, len: usize) -> usize;
    pub fn tuv_end_report(end: *mut End, report: *mut Report) -> bool;
    pub fn tuv_end_session_id(end: *mut End, room: *mut u8) -> usize;
    pub fn tuv_end_session_id_wpa(end: *mut End, room: *mut u8) -> usize;
    pub fn tuv_end_failure(end: *mut End) -> Failure;
    pub fn tuv_peer_deliver(end: *mut End, octets: *const u8, len: usize) -> Turn;
    pub fn tuv_peer_restart(end: *mut End, nonce: *const u8) -> Turn;
    pub fn tuv_server_deliver(end: *mut End, octets: *const u8, len: usize) -> Turn;
    pub fn tuv_server_restart(end: *mut End, nonce: *const u8) -> Turn;
    pub fn tuv_peer_begin(end: *mut End, told: *const Settings, nonce: *const u8) -> u8;
    pub fn tuv_peer_idle(end: *mut End) -> Turn;
    pub fn tuv_peer_alt_accept(end: *mut End) -> Turn;
    pub fn tuv_peer_alt_reject(end: *mut End) -> Turn;
    pub fn tuv_server_begin(end: *mut End, told: *const Settings, nonce: *const u8, first_id: u8, retrans: u8) -> u8;
    pub fn tuv_server_start(end: *mut End) -> Turn;
    pub fn tuv_server_timeout(end: *mut End) -> Turn;
    pub fn tuv_server_set_user(end: *mut End, told: *const Settings) -> u8;
    pub fn tuv_backend_begin(end: *mut End, told: *const Settings, nonce: *const u8) -> u8;
    pub fn tuv_pass_begin(end: *mut End, first_id: u8, retrans: u8) -> u8;
    pub fn tuv_pass_start(end: *mut End) -> Turn;
    pub fn tuv_pass_restart(end: *mut End) -> Turn;
    pub fn tuv_pass_from_peer(end: *mut End, octets: *const u8, len: usize) -> Turn;
    pub fn tuv_pass_from_backend(end: *mut End, octets: *const u8, len: usize) -> Turn;
    pub fn tuv_pass_timeout(end: *mut End) -> Turn;
    pub fn tuv_pass_aaa_timeout(end: *mut End) -> Turn;
    pub fn tuv_pass_aaa_noreq(end: *mut End) -> Turn;
    pub fn tuv_supplicant_begin(end: *mut End, told: *const Settings, limits: *const SupplicantLimits) -> u8;
    pub fn tuv_supplicant_link(end: *mut End, port_enabled: u8) -> SupplicantTurn;
    pub fn tuv_supplicant_frame(end: *mut End, octets: *const u8, len: usize, nonce: *const u8) -> SupplicantTurn;
    pub fn tuv_supplicant_second(end: *mut End) -> SupplicantTurn;
    pub fn tuv_supplicant_logoff(end: *mut End, user_logoff: u8) -> SupplicantTurn;
    pub fn tuv_supplicant_control(end: *mut End, port_control: u8) -> SupplicantTurn;
    pub fn tuv_port_begin(end: *mut End, first_id: u8, retrans: u8, limits: *const PortLimits) -> u8;
    pub fn tuv_port_link(end: *mut End, port_enabled: u8) -> PortTurn;
    pub fn tuv_port_frame(end: *mut End, octets: *const u8, len: usize) -> PortTurn;
    pub fn tuv_port_second(end: *mut End) -> PortTurn;
    pub fn tuv_port_answer(end: *mut End, code: u8, octets: *const u8, len: usize) -> PortTurn;
    pub fn tuv_port_aaa_timeout(end: *mut End) -> PortTurn;
    pub fn tuv_port_control(end: *mut End, port_control: u8) -> PortTurn;
    pub fn tuv_port_reauthenticate(end: *mut End) -> PortTurn;
    pub fn tuv_peer_method_begin(end: *mut End, told: *const Settings, nonce: *const u8) -> u8;
    pub fn tuv_peer_method_handle(end: *mut End, octets: *const u8, len: usize) -> MethodTurn;
    pub fn tuv_server_method_begin(end: *mut End, told: *const Settings, nonce: *const u8, id: u8) -> u8;
    pub fn tuv_server_method_user(end: *mut End, told: *const Settings) -> u8;
    pub fn tuv_server_method_handle(end: *mut End, octets: *const u8, len: usize, next_id: u8) -> MethodTurn;
    pub fn tuv_request_name(octets: *const u8, len: usize, room: *mut u8) -> usize;
    pub fn tuv_response_name(octets: *const u8, len: usize, room: *mut u8) -> usize;
    pub fn tuv_cause_word(cause: u8) -> *const c_char;
    pub fn tuv_state_word(state: u8) -> *const c_char;
    pub fn tuv_supplicant_word(state: u8) -> *const c_char;
    pub fn tuv_port_word(state: u8) -> *const c_char;
    pub fn tuv_refusal_word(answer: u8) -> *const c_char;
    pub fn tuv_failure_word(reason: u8) -> *const c_char;
    // (an array of the library's, whose length isn't told)
    pub static tuv_ident: [c_char; 1];
    // of the C library
    pub fn explicit_bzero(at: *mut c_void, len: usize);
    pub fn getrandom(room: *mut c_void, len: usize, flags: u32) -> isize;
}
