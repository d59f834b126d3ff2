//! Writes what `../layout.c` writes, of the crate's structs.
use std::mem::{size_of, size_of_val, MaybeUninit};
use std::ptr;
use tuvaddri::sys::*;

macro_rules! layout {
    ($($name:literal $type:ty: $($field:ident)*;)*) => {$({
        println!("{} {}", $name, size_of::<$type>());
        let room = MaybeUninit::<$type>::zeroed();
        let front = room.as_ptr();
        $(
            // SAFETY: the struct is there, of zeros, which each of its fields may be.
            let at = unsafe { &*ptr::addr_of!((*front).$field) };
            println!("{}.{} {} {}", $name, stringify!($field), at as *const _ as usize - front as usize, size_of_val(at));
        )*
    })*};
}

fn main() {
    layout! {
        "end" End: at;
        "octets" Octets: at len;
        "settings" Settings: size name other psk_key gpsk_key methods suites expanded barred;
        "report" Report: size method suite peer_length server_length peer server msk emsk rand_length peer_rand server_rand;
        "turn" Turn: sends discards misplaced cause state;
        "method_turn" MethodTurn: sends discards misplaced cause state decision;
        "failure" Failure: reason code;
        "supplicant_turn" SupplicantTurn: sends discards misplaced took_nonce authorized cause state;
        "port_turn" PortTurn: to_station to_server discards misplaced authorized awaits_server cause state;
        "supplicant_limits" SupplicantLimits: start_period max_start auth_period held_period port_valid;
        "port_limits" PortLimits: quiet_period server_timeout retrans_period re_auth_period re_auth_max;
    }
    println!("limits {VERSION} {PACKET_MAX} {NAME_MAX} {KEY_MAX} {NONCE_LEN} {RAND_MAX} {SESSION_ID_MAX} {FRAME_MAX}");
}
