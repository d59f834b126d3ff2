//! cleared METHOD SUITE clear|keep stop
//!
//! A login by the crate with the keys of standard input, as `../secrets.py` hands them over; it writes the packets and the
//! Session-Ids, drops all, or with keep nothing, and stops, so that the memory can be searched.
use std::io::Read;
use std::os::raw::c_int;
use tuvaddri::{Nonce, Peer, Server, Settings, Suite};

extern "C" {
    fn raise(signal: c_int) -> c_int;
    fn explicit_bzero(at: *mut u8, len: usize);
}

fn hex(octets: &[u8]) -> String {
    octets.iter().map(|it| format!("{it:02x}")).collect()
}

fn main() -> Result<(), Box<dyn std::error::Error>> {
    let words: Vec<String> = std::env::args().skip(1).collect();
    let mut keys = Box::new([0; 128]);
    // (standard input itself has a buffer)
    std::fs::File::open("/dev/stdin")?.read_exact(&mut keys[..])?;
    let suites: &[Suite] = match words[1].as_str() {
        "1" => &[Suite::Cmac],
        "2" => &[Suite::Hmac],
        _ => &[],
    };
    let (psk_key, gpsk_key) = if words[0] == "47" { (&keys[..16], &[][..]) } else { (&[][..], &keys[16..64]) };
    let told = Settings { name: b"alice", other: b"srv", psk_key, gpsk_key, suites, ..Settings::default() };
    let mut peer = Peer::begin(&told, Nonce::fresh()?)?;
    let mut server = Server::begin(&Settings { name: b"srv", other: b"alice", ..told }, Nonce::fresh()?, 0, 4)?;
    let mut sent = server.start()?.packet;
    while let Some(packet) = sent.take() {
        println!("packet {}", hex(&packet));
        if let Some(answer) = peer.deliver(&packet)?.packet {
            println!("packet {}", hex(&answer));
            sent = server.deliver(&answer)?.packet;
        }
    }
    println!("session-id {}", hex(&peer.session_id().ok_or("no login")?));
    println!("session-id-wpa {}", hex(&peer.session_id_wpa().ok_or("no login")?));
    let held = (peer.report(), server.report(), peer, server);
    if words[2] == "clear" {
        drop(held);
    } else {
        std::mem::forget(held);
    }
    // SAFETY: the room is there; the signal is SIGSTOP.
    unsafe {
        explicit_bzero(keys.as_mut_ptr(), keys.len());
        raise(19);
    }
    Ok(())
}
