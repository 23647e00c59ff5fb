//! Openings that take too long, whatever bytes come, and front ends for which
//! there is no link.

use crate::process::RelayProcess;
use crate::steps;
use std::io::{ErrorKind, Read, Write};
use std::net::TcpStream;
use std::thread;
use std::time::{Duration, Instant};

/// The keep-alive is far off, so that it can end nothing here, and so is a
/// second attempt to reach a publisher.
const OPTIONS: &str = "--retry-ms 60000 --ping-ms 60000 --opening-ms 1000";
const OPENING: Duration = Duration::from_millis(1000);
/// For a machine that has much else to do.
const DELAY: Duration = Duration::from_millis(1000);
const PATIENCE: Duration = Duration::from_secs(10);
const DRIP: Duration = Duration::from_millis(50);

/// Sends the first bytes of a Nonce one by one; how long until it was ended.
fn drip(mut stream: TcpStream) -> Duration {
    let start = Instant::now();
    let front = [&76_u32.to_le_bytes()[..], &[0xfe, 0xff, 0xff, 0xff]].concat();
    let body = [&0x7acb_87aa_u32.to_le_bytes()[..], &[0; 60]].concat();
    stream.set_read_timeout(Some(DRIP)).expect("a timeout");
    let mut bytes = [front, body].concat().into_iter();
    let mut chunk = [0; 256];
    while start.elapsed() < PATIENCE {
        let byte = bytes.next().expect("an end before the Nonce is whole");
        if stream.write_all(&[byte]).is_err() {
            break;
        }
        match stream.read(&mut chunk) {
            Ok(0) => break,
            Ok(_) => thread::sleep(DRIP),
            Err(error) if error.kind() == ErrorKind::WouldBlock => {}
            Err(_) => break,
        }
    }
    start.elapsed()
}

fn is_in_time(took: Duration) -> bool {
    println!("an opening byte by byte was ended after {took:?}");
    took > OPENING / 2 && took < OPENING + DELAY
}

#[test]
fn an_opening_byte_by_byte_is_ended_in_its_time() {
    let listener = steps::listener();
    let relay = RelayProcess::start(OPTIONS, &steps::words(&[&listener]));
    // The publisher's connection, as old as the relay.
    let (publisher, _) = listener.accept().expect("a connection");
    let publisher = thread::spawn(move || drip(publisher));
    // One that opens in time has no deadline after it.
    let mut open = steps::front(&relay);
    assert!(is_in_time(drip(steps::connect(&relay))));
    assert!(is_in_time(publisher.join().expect("the publisher")));
    assert_eq!(steps::all_before_pong(&mut open), []);
    let counts = relay.counts();
    assert_eq!((counts.get("unopened"), counts.get("dropped")), (2, 2));
}

/// The link is used again, and the first one's time is over before the second's.
#[test]
fn a_deadline_is_not_another_connections() {
    let relay = RelayProcess::start(OPTIONS, &steps::words(&[]));
    let first = steps::connect(&relay);
    thread::sleep(OPENING / 2);
    drop(first);
    thread::sleep(OPENING / 4);
    assert!(is_in_time(drip(steps::connect(&relay))));
    assert_eq!(relay.counts().get("unopened"), 1);
}

#[test]
fn a_front_end_without_a_link_is_turned_away_and_counted() {
    let relay = RelayProcess::start(OPTIONS, &steps::words(&[]));
    let mut fronts: Vec<_> = (0..32).map(|_| steps::front(&relay)).collect();
    for turned_away in 1..=3 {
        assert!(steps::is_turned_away(&relay));
        assert_eq!(relay.counts().get("turned_away"), turned_away);
    }
    // The others are there still, and one that leaves makes room.
    for front in &mut fronts {
        assert_eq!(steps::all_before_pong(front), []);
    }
    fronts.remove(7).drop_now();
    let deadline = Instant::now() + PATIENCE;
    while steps::is_turned_away(&relay) {
        assert!(Instant::now() < deadline, "no link is free again");
    }
    assert_eq!(relay.counts().get("dropped"), 0);
}
