//! Peers that are sent much and read a few bytes now and then: what waits
//! for them is bounded, and once they are dropped nothing of them stays.

use crate::other_end::Got;
use crate::process::{RelayProcess, Size};
use crate::socket::Socket;
use crate::steps;
use reference::message::{Message, Outcome};
use std::io::{Read, Write};
use std::net::TcpStream;
use std::thread;
use std::time::{Duration, Instant};

const READERS: u64 = 8;
/// Two of them fit what may wait for a peer, three do not.
const ANSWER: usize = 15 << 20;
const ANSWER_MB: u64 = 15;
const INTERVAL: Duration = Duration::from_millis(1500);
const PATIENCE: Duration = Duration::from_secs(20);
/// What the allocator may not have given back yet, of some 240 MB.
const SLACK_MB: u64 = 32;

/// Answers each request with as much as is wanted, until the relay ends.
fn serve(mut publisher: Socket) {
    let page = vec![1; ANSWER];
    while !publisher.ended {
        for got in publisher.pump().expect("what may be received") {
            if let Got::Message(Message::Invoke(invoke)) = got {
                steps::answer(&mut publisher, invoke.number, &page);
            }
        }
        steps::flush(&mut publisher);
    }
}

/// A front end reads a few bytes.
fn sip(front: &mut Socket) {
    // Nothing may be there, or the end.
    let _ = front.stream().read(&mut [0; 16]);
}

/// All read a few bytes now and then until it is so; false if that takes too
/// long. Those that are not dropped say something, so that they live.
fn sip_until(fronts: &mut [Socket], are_alive: bool, is_so: impl Fn() -> bool) -> bool {
    let deadline = Instant::now() + PATIENCE;
    while Instant::now() < deadline {
        for front in fronts.iter_mut() {
            sip(front);
            if are_alive {
                front.end.send_message(Message::Cancel(99));
                steps::flush(front);
            }
        }
        if is_so() {
            return true;
        }
        thread::sleep(Duration::from_millis(20));
    }
    false
}

/// Takes all links but those for the readers, by connections that say nothing.
fn take_others(relay: &RelayProcess) -> Vec<TcpStream> {
    let threads = relay.size().threads;
    let others: Vec<_> = (READERS..32).map(|_| steps::connect(relay)).collect();
    let are_taken = || relay.size().threads == threads + 2 * (32 - READERS);
    assert!(sip_until(&mut [], true, are_taken), "no links");
    others
}

#[test]
fn dropped_slow_readers_leave_no_thread_and_no_memory() {
    let listener = steps::listener();
    let ping = INTERVAL.as_millis();
    let options = format!("--retry-ms 50 --ping-ms {ping} --opening-ms 60000");
    let relay = RelayProcess::start(&options, &steps::words(&[&listener]));
    let publisher = steps::publisher(&listener);
    let _others = take_others(&relay);
    let before = relay.size();
    thread::spawn(move || serve(publisher));
    let mut fronts: Vec<_> = (0..READERS).map(|_| steps::front(&relay)).collect();
    for front in &mut fronts {
        steps::ask(front, 1, 0, b"much");
        steps::ask(front, 2, 0, b"much");
    }
    let are_answered = || relay.counts().get("answered") == 2 * READERS;
    assert!(sip_until(&mut fronts, true, are_answered), "no answers");
    let during = relay.size();

    let (took, after) = drop_all(&relay, &mut fronts, before);
    println!("slow readers: before {before:?}, during {during:?}, {took:?} later {after:?}");
    assert_eq!(during.threads, before.threads + 2 * READERS);
    assert!(during.memory > before.memory + READERS * ANSWER_MB);
    assert!(took >= INTERVAL, "no time for what was queued");
    assert!(after.memory < before.memory + SLACK_MB, "memory");
    let counts = relay.counts();
    assert_eq!((counts.get("dropped"), counts.get("slow")), (READERS, 0));
}

/// What is no packet makes the relay drop them. How long it takes until its
/// threads are as before, though they read on, and its size then.
fn drop_all(relay: &RelayProcess, fronts: &mut [Socket], before: Size) -> (Duration, Size) {
    let start = Instant::now();
    for front in fronts.iter_mut() {
        front
            .stream()
            .write_all(&[0; 16])
            .expect("a live connection");
    }
    let are_dropped = || relay.counts().get("dropped") == READERS;
    assert!(sip_until(fronts, false, are_dropped), "not dropped");
    // While anything waits for them, nobody else gets their links.
    assert!(steps::is_turned_away(relay));
    let is_over = || relay.size().threads == before.threads;
    assert!(sip_until(fronts, false, is_over), "{:?}", relay.size());
    let ended = (start.elapsed(), relay.size());
    assert!(!steps::is_turned_away(relay));
    ended
}

#[test]
fn a_reader_too_far_behind_is_given_up_at_once() {
    let listener = steps::listener();
    let options = "--retry-ms 50 --ping-ms 60000";
    let relay = RelayProcess::start(options, &steps::words(&[&listener]));
    let mut publisher = steps::publisher(&listener);
    let mut other = steps::front(&relay);
    let before = relay.size();
    let mut front = steps::front(&relay);
    (1..=4).for_each(|number| steps::ask(&mut front, number, 0, b"much"));
    let mut asked = steps::messages(&mut publisher, 4);
    steps::ask(&mut other, 5, 0, b"little");
    asked.extend(steps::messages(&mut publisher, 1));
    let asked: Vec<i64> = asked.into_iter().map(|m| steps::asked(m).0).collect();
    let page = vec![1; ANSWER];
    for number in &asked[..2] {
        steps::answer(&mut publisher, *number, &page);
    }
    assert_eq!(steps::all_before_pong(&mut publisher), []);
    let during = relay.size();
    steps::answer(&mut publisher, asked[2], &page);
    // The third does not fit: the fourth is cancelled, and the threads end.
    let cancel = Message::Cancel(asked[3]);
    assert_eq!(steps::messages(&mut publisher, 1), [cancel]);
    let is_over = || relay.size().threads == before.threads;
    assert!(sip_until(&mut [front], false, is_over), "threads");
    let after = relay.size();
    println!("given up: before {before:?}, during {during:?}, after {after:?}");
    assert!(during.memory > before.memory + ANSWER_MB);
    assert!(during.memory > after.memory + ANSWER_MB, "memory");
    let counts = relay.counts();
    assert_eq!((counts.get("slow"), counts.get("dropped")), (1, 1));
    assert_eq!((counts.get("closed"), counts.get("in_flight")), (1, 1));
    // Nobody else has noticed.
    steps::answer(&mut publisher, asked[4], b"small");
    let answer = Outcome::Payload(b"small".to_vec());
    assert_eq!(steps::messages(&mut other, 1), [Message::Result(5, answer)]);
}

/// It takes no requests, so they end as those of a lost publisher do.
#[test]
fn a_publisher_too_far_behind_is_given_up_and_tried_again() {
    let listener = steps::listener();
    let options = "--retry-ms 50 --ping-ms 60000";
    let relay = RelayProcess::start(options, &steps::words(&[&listener]));
    let _slow = steps::publisher(&listener);
    let mut front = steps::front(&relay);
    let much = vec![1; ANSWER];
    for number in 1..=3 {
        steps::ask(&mut front, number, 0, &much);
    }
    let got = steps::messages(&mut front, 3);
    let lost = (1..=3).map(|number| (number, Some(20)));
    assert!(got.iter().map(steps::code).eq(lost), "{got:?}");
    let counts = relay.counts();
    assert_eq!((counts.get("slow"), counts.get("lost")), (1, 3));
    assert_eq!((counts.get("dropped"), counts.get("in_flight")), (1, 0));

    let mut publisher = steps::publisher(&listener);
    steps::ask(&mut front, 4, 0, b"little");
    let (asked, _) = steps::asked(steps::messages(&mut publisher, 1).remove(0));
    steps::answer(&mut publisher, asked, b"small");
    let answer = Outcome::Payload(b"small".to_vec());
    assert_eq!(steps::messages(&mut front, 1), [Message::Result(4, answer)]);
}
