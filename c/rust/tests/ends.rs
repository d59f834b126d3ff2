//! Logins by both methods, alone, through a pass-through and by a method alone; wrong uses; what `Debug` shows.
use std::thread;
use tuvaddri::*;

const PSK: [u8; 16] = [0xa5; 16];
const GPSK: [u8; 32] = [0xc3; 32];

fn fresh() -> Nonce {
    Nonce::fresh().unwrap()
}

fn told(kind: Kind) -> (Settings<'static>, Settings<'static>) {
    let peer = match kind {
        Kind::Psk => Settings { name: b"alice", other: b"srv", psk_key: &PSK, ..Settings::default() },
        Kind::Gpsk => Settings { name: b"alice", other: b"srv", gpsk_key: &GPSK, ..Settings::default() },
    };
    (peer, Settings { name: b"srv", other: b"alice", ..peer })
}

fn begun(kind: Kind) -> (Peer, Server) {
    let (peer, server) = told(kind);
    (Peer::begin(&peer, fresh()).unwrap(), Server::begin(&server, fresh(), 0, 4).unwrap())
}

fn log_in(peer: &mut Peer, server: &mut Server, mut turn: Turn) -> (State, State) {
    loop {
        let heard = peer.deliver(&turn.packet.unwrap()).unwrap();
        match heard.packet {
            Some(packet) => turn = server.deliver(&packet).unwrap(),
            None => return (heard.state, turn.state),
        }
    }
}

fn is_same(ours: &Report, theirs: &Report) -> bool {
    ours.msk.octets() == theirs.msk.octets()
        && ours.emsk.octets() == theirs.emsk.octets()
        && ours.msk.octets() != &[0; 64]
        && (&ours.peer[..], &ours.server[..]) == (&theirs.peer[..], &theirs.server[..])
        && (&ours.peer_rand, &ours.server_rand) == (&theirs.peer_rand, &theirs.server_rand)
        && (ours.method, ours.suite) == (theirs.method, theirs.suite)
}

#[test]
fn both_methods_log_in_and_again() {
    for (kind, suite, id) in [(Kind::Psk, None, (33, 0x2f)), (Kind::Gpsk, Some(Suite::Cmac), (17, 0x33))] {
        let (mut peer, mut server) = begun(kind);
        let mut keys = Vec::new();
        for again in [false, true] {
            let first = if again {
                assert_eq!(peer.restart(fresh()).unwrap().packet, None);
                server.restart(fresh())
            } else {
                server.start()
            };
            assert_eq!(log_in(&mut peer, &mut server, first.unwrap()), (State::SUCCESS, State::SUCCESS));
            let (ours, theirs) = (peer.report().unwrap(), server.report().unwrap());
            assert!(is_same(&ours, &theirs));
            assert_eq!((ours.method, ours.suite, &ours.peer[..], &ours.server[..]), (kind, suite, &b"alice"[..], &b"srv"[..]));
            let ids = (peer.session_id().unwrap(), server.session_id().unwrap());
            assert_eq!((&ids.0, ids.0.len(), ids.0[0]), (&ids.1, id.0, id.1));
            assert_eq!(peer.session_id_wpa(), server.session_id_wpa());
            assert_eq!(peer.failure(), Failure { reason: Reason::NONE, code: 0 });
            assert_eq!(server.again().unwrap()[0], 3);
            keys.push(*ours.msk.octets());
        }
        assert_ne!(keys[0], keys[1]);
    }
}

#[test]
fn a_supplicant_logs_in_at_a_port() {
    for kind in [Kind::Psk, Kind::Gpsk] {
        let (peer, servers) = told(kind);
        let mut supplicant = Supplicant::begin(&peer, SupplicantLimits::default()).unwrap();
        let mut port = Port::begin(0, 4, PortLimits::default()).unwrap();
        let mut server = Backend::begin(&servers, fresh()).unwrap();
        assert_eq!(supplicant.link(true).unwrap().frame.unwrap(), [2, 1, 0, 0]);
        let mut asked = port.link(true).unwrap().frame;
        let came = loop {
            let came = supplicant.frame(&asked.unwrap(), fresh()).unwrap();
            let packet = match &came.frame {
                Some(frame) => port.frame(frame).unwrap().packet.unwrap(),
                None => break came,
            };
            let turn = server.deliver(&packet).unwrap();
            let code = if turn.state == State::SUCCESS { Code::AccessAccept } else { Code::AccessChallenge };
            asked = port.answer(code, &turn.packet.unwrap()).unwrap().frame;
        };
        assert!(came.authorized && is_same(&supplicant.report().unwrap(), &server.report().unwrap()));
        assert_eq!((came.state, came.cause), (SupplicantState::AUTHENTICATED, None));
        let turn = port.second().unwrap();
        assert_eq!((turn.state, turn.authorized, turn.awaits_server), (PortState::AUTHENTICATED, true, false));
        assert_eq!(port.frame(&supplicant.logoff(true).unwrap().frame.unwrap()).unwrap().state, PortState::AUTHENTICATING);
        assert!(!port.reauthenticate().unwrap().authorized && !port.aaa_timeout().unwrap().authorized);
        assert!(supplicant.second().unwrap().frame.is_none());
        assert!(supplicant.control(Control::ForceAuthorized).unwrap().frame.is_none());
        assert!(supplicant.logoff(false).unwrap().authorized && port.control(Control::ForceAuthorized).unwrap().authorized);
    }
}

#[test]
fn a_wrong_key_is_a_discard() {
    for kind in [Kind::Psk, Kind::Gpsk] {
        let (told, _) = told(kind);
        let wrong = Settings { psk_key: &[1; 16][..told.psk_key.len()], gpsk_key: &[1; 32][..told.gpsk_key.len()], ..told };
        let (_, mut server) = begun(kind);
        let mut peer = Peer::begin(&wrong, fresh()).unwrap();
        let mut turn = server.start().unwrap();
        let cause = loop {
            let heard = peer.deliver(&turn.packet.unwrap()).unwrap();
            if heard.cause.is_some() {
                break heard.cause;
            }
            turn = server.deliver(&heard.packet.unwrap()).unwrap();
            if turn.cause.is_some() {
                break turn.cause;
            }
        };
        assert_eq!(cause, Some(Cause::BAD_TAG));
        assert!(peer.report().is_none() && server.report().is_none() && server.session_id().is_none());
    }
}

#[test]
fn through_a_pass_through() {
    let (told_peer, told_server) = told(Kind::Gpsk);
    let (mut peer, mut pass) = (Peer::begin(&told_peer, fresh()).unwrap(), PassThrough::begin(7, 4).unwrap());
    let nobody = Settings { name: b"srv", ..Settings::default() };
    let mut backend = Backend::begin(&nobody, fresh()).unwrap();
    backend.give_user(&told_server).unwrap();
    let mut turn = pass.start().unwrap();
    assert_eq!(turn.packet.as_ref().unwrap()[1], 7);
    loop {
        let heard = peer.deliver(&turn.packet.unwrap()).unwrap();
        let packet = match heard.packet {
            Some(packet) => packet,
            None => break,
        };
        let passed = pass.from_peer(&packet).unwrap().packet.unwrap();
        let answered = backend.deliver(&passed).unwrap().packet.unwrap();
        turn = pass.from_backend(&answered).unwrap();
    }
    assert_eq!(turn.state, State::SUCCESS2);
    assert!(is_same(&peer.report().unwrap(), &backend.report().unwrap()));
    assert!(pass.report().is_none());
    assert_eq!(pass.timeout(), Err(Error::Misplaced));
}

#[test]
fn a_method_alone() {
    for kind in [Kind::Psk, Kind::Gpsk] {
        let (told_peer, told_server) = told(kind);
        let kinds = [kind];
        let nobody = Settings { name: b"srv", methods: &kinds, ..Settings::default() };
        let mut server = ServerMethod::begin(&nobody, fresh(), 1).unwrap();
        let mut peer = PeerMethod::begin(&Settings { methods: &kinds, ..told_peer }, fresh()).unwrap();
        let mut request = server.again().unwrap();
        assert_eq!((request[1], request[4]), (1, kind as u8));
        assert_eq!(request_name(&request).as_deref(), Some(&b"srv"[..]));
        // a Request of the method without a message: the peer discards it, and its method hasn't begun (RFC 4137 section 4.2)
        let empty = peer.handle(&[1, 9, 0, 5, kind as u8]).unwrap();
        assert!(empty.cause.is_some());
        assert_eq!((empty.state, empty.decision), (MethodState::None, Decision::Fail));
        let mut id = 1;
        loop {
            let response = peer.handle(&request).unwrap().packet.unwrap();
            if id == 1 {
                assert_eq!(response_name(&response).as_deref(), Some(&b"alice"[..]));
                assert!(request_name(&response).is_none());
                server.give_user(&told_server).unwrap();
            }
            id += 1;
            let turn = server.handle(&response, id).unwrap();
            match turn.packet {
                Some(packet) => {
                    // (a server that asks once more goes on, and has decided nothing)
                    assert_eq!((turn.state, turn.decision), (MethodState::Cont, Decision::Fail));
                    request = packet;
                }
                None => {
                    assert_eq!((turn.state, turn.decision), (MethodState::Done, Decision::UncondSucc));
                    break;
                }
            }
        }
        assert!(is_same(&peer.report().unwrap(), &server.report().unwrap()));
    }
}

#[test]
fn wrong_uses_say_what_is_wrong() {
    let (good, _) = told(Kind::Gpsk);
    let refused = |told: Settings| match Peer::begin(&told, fresh()) {
        Err(Error::Refused(it)) => it.word(),
        other => panic!("{other:?}"),
    };
    let long = [b'a'; 254];
    assert_eq!(refused(Settings { name: b"", ..good }), "BadName");
    assert_eq!(refused(Settings { name: &long, ..good }), "BadName");
    assert_eq!(refused(Settings { other: &long, ..good }), "BadOther");
    assert_eq!(refused(Settings { gpsk_key: &GPSK[..31], ..good }), "BadKey");
    assert_eq!(refused(Settings { psk_key: &GPSK, ..good }), "BadKey");
    assert_eq!(refused(Settings { methods: &[Kind::Psk], ..good }), "BadKey");
    assert_eq!(refused(Settings { gpsk_key: &[], ..good }), "NoMethod");
    assert_eq!(refused(Settings { methods: &[Kind::Gpsk; 2], ..good }), "NoMethod");
    assert_eq!(refused(Settings { methods: &[Kind::Gpsk, Kind::Psk, Kind::Gpsk], ..good }), "NoMethod");
    assert_eq!(refused(Settings { suites: &[Suite::Cmac, Suite::Hmac, Suite::Cmac], ..good }), "NoSuite");
    assert_eq!(Server::begin(&good, fresh(), 0, 11).unwrap_err(), Error::Refused(Refusal::MANY_RETRIES));
    assert_eq!(PassThrough::begin(0, 11).unwrap_err(), Error::Refused(Refusal::MANY_RETRIES));
    let said = Error::Refused(Refusal::BAD_KEY).to_string();
    assert!(said.starts_with("BadKey: psk_key has 16 octets"), "{said}");

    let (mut peer, mut server) = begun(Kind::Gpsk);
    assert_eq!(server.deliver(b"\x02\x00\x00\x05\x01"), Err(Error::Misplaced));
    assert_eq!(server.timeout(), Err(Error::Misplaced));
    server.start().unwrap();
    assert_eq!(server.start(), Err(Error::Misplaced));
    assert_eq!(peer.deliver(b"").unwrap().cause.unwrap().word(), "Short");
    assert_eq!(peer.alt_reject().unwrap().state, State::FAILURE);
    assert_eq!(peer.idle(), Err(Error::Misplaced));
    assert_eq!(peer.failure().reason, Reason::NO_METHOD);
    assert!(peer.again().is_none() && peer.session_id().is_none());
    assert!(response_name(b"").is_none());
    let both = [Kind::Gpsk];
    let mut method = ServerMethod::begin(&Settings { methods: &both, ..told(Kind::Gpsk).1 }, fresh(), 0).unwrap();
    let psk = Settings { other: b"bob", psk_key: &PSK, ..Settings::default() };
    assert_eq!(method.give_user(&psk), Err(Error::Refused(Refusal::BAD_KEY)));
}

#[test]
fn debug_shows_no_key() {
    let (peer_told, server_told) = told(Kind::Gpsk);
    let (mut peer, mut server) = begun(Kind::Gpsk);
    let first = server.start().unwrap();
    log_in(&mut peer, &mut server, first);
    let report = peer.report().unwrap();
    let said = format!("{peer_told:?} {server_told:?} {peer:?} {server:?} {report:?} {report:#?}");
    let of = |octets: &[u8]| (format!("{octets:?}"), octets.iter().map(|it| format!("{it:02x}")).collect::<String>());
    for key in [&GPSK[..4], &report.msk.octets()[..4], &report.emsk.octets()[..4]] {
        let (list, hex) = of(key);
        assert!(!said.contains(list.trim_matches(|it| it == '[' || it == ']')) && !said.contains(&hex), "{said}");
    }
    assert!(said.contains("alice") && said.contains("Key(..)"));
}

#[test]
fn an_end_goes_to_another_thread() {
    let (mut peer, mut server) = begun(Kind::Psk);
    let packet = server.start().unwrap().packet.unwrap();
    let answered = thread::spawn(move || peer.deliver(&packet).unwrap().packet.unwrap()).join().unwrap();
    assert!(server.deliver(&answered).unwrap().packet.is_some());
}

#[test]
fn numbers_are_those_of_the_words() {
    let plain = |it: &str| it.replace('_', "").to_lowercase();
    let known = State::KNOWN.iter().map(|(name, it)| (*name, it.word()));
    let known = known.chain(Cause::KNOWN.iter().map(|(name, it)| (*name, it.word())));
    let known = known.chain(Refusal::KNOWN.iter().map(|(name, it)| (*name, it.word())));
    let known = known.chain(Reason::KNOWN.iter().map(|(name, it)| (*name, it.word())));
    for (name, word) in known {
        assert_eq!(plain(name), plain(word));
    }
    assert!(ident().starts_with("tuvaddri 2 "), "{}", ident());
}
