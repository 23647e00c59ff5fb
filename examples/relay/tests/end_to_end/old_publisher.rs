//! An old publisher, whose Nonce says version 1: behind a link whose lowest
//! version is 2 it is never opened, behind one whose lowest version is 1 it
//! serves.

use crate::other_end::{Got, OtherEnd};
use crate::process::RelayProcess;
use crate::socket::Socket;
use crate::steps;
use reference::message::{Message, Outcome, Side};
use std::net::TcpListener;
use std::thread;

/// How often the relay is to come back and be refused again.
const TRIES: u64 = 4;

/// The numbers of the two publishers, by the lowest version of their links.
const BEHIND_2: i64 = 0;
const BEHIND_1: i64 = 1;

/// The next connection of the relay, to a publisher of version 1.
fn accepted(listener: &TcpListener) -> Option<Socket> {
    steps::accept(listener, OtherEnd::of_version(Side::Server, true, 1))
}

/// Answers each request with its own payload, until the relay ends.
fn serve(mut socket: Socket) {
    while !socket.ended {
        for got in socket.pump().expect("what may be received") {
            if let Got::Message(Message::Invoke(invoke)) = got {
                let answer = Outcome::Payload(&invoke.payload[..]);
                let result = Message::Result(invoke.number, answer);
                socket.end.send_message(result);
            }
        }
        steps::flush(&mut socket);
    }
}

/// What comes back for a request to a publisher.
fn outcome(front: &mut Socket, number: i64, publisher: i64) -> Outcome<Vec<u8>> {
    steps::ask(front, number, publisher, b"question");
    match steps::messages(front, 1).remove(0) {
        Message::Result(n, outcome) if n == number => outcome,
        other => panic!("no result of {number}: {other:?}"),
    }
}

#[test]
fn an_old_publisher_serves_only_where_its_version_is_taken() {
    let [behind_2, behind_1] = [(); 2].map(|()| steps::listener());
    let mut words = steps::words(&[&behind_2, &behind_1]);
    words[BEHIND_2 as usize] += ",lowest=2";
    words[BEHIND_1 as usize] += ",lowest=1";
    let relay = RelayProcess::start("--retry-ms 50 --ping-ms 2000", &words);

    let mut served = accepted(&behind_1).expect("an open link");
    // Its Pong says that the relay has our Handshake.
    assert_eq!(steps::all_before_pong(&mut served), []);
    let serving = thread::spawn(move || serve(served));
    for _ in 0..TRIES {
        assert!(accepted(&behind_2).is_none(), "a Handshake came");
    }

    let mut front = steps::front(&relay);
    match outcome(&mut front, 5, BEHIND_2) {
        Outcome::Error(20, _) => {}
        other => panic!("{other:?} of a publisher that is not there"),
    }
    let answer = outcome(&mut front, 6, BEHIND_1);
    assert_eq!(answer, Outcome::Payload(b"question".to_vec()));

    let counts = relay.counts_when_quiet();
    assert!(counts.get("too_old") >= TRIES, "connections dropped");
    assert_eq!((counts.get("answered"), counts.get("refused_20")), (1, 1));
    drop(relay);
    serving.join().expect("the publisher behind 1");
}
