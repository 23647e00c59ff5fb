//! A publisher that hangs: it opens its link and answers Pings, and no request.

use crate::process::RelayProcess;
use crate::socket::Socket;
use crate::steps;
use reference::message::{Message, Outcome};
use std::thread;
use std::time::{Duration, Instant};

/// The keep-alive is far off, so that it can end nothing here.
const OPTIONS: &str = "--retry-ms 50 --ping-ms 60000 --request-ms 2000";
const TIMEOUT: Duration = Duration::from_millis(2000);
/// Of the relay's clock: a deadline may come so much early.
const UNIT: Duration = Duration::from_millis(1);
/// For a machine that has much else to do.
const DELAY: Duration = Duration::from_millis(1500);

/// The publishers by their numbers.
const HUNG: i64 = 0;
const OTHER: i64 = 1;

/// Asks it for all that it may have in flight, eight of each front end; its
/// numbers of these.
fn fill_up(hung: &mut Socket, fronts: &mut [Socket; 2]) -> Vec<i64> {
    for number in 1..=8 {
        for front in fronts.iter_mut() {
            steps::ask(front, number, HUNG, b"never answered");
            // One after the other, so that their order is known.
            assert_eq!(steps::all_before_pong(front), []);
        }
    }
    let asked = steps::messages(hung, 16);
    asked
        .into_iter()
        .map(|message| steps::asked(message).0)
        .collect()
}

/// A page for the one request that is open with a publisher.
fn answers(publisher: &mut Socket, front: &mut Socket, number: i64) {
    let (asked, payload) = steps::asked(steps::messages(publisher, 1).remove(0));
    steps::answer(publisher, asked, &payload);
    let page = Outcome::Payload(payload);
    assert_eq!(steps::messages(front, 1), [Message::Result(number, page)]);
}

/// The errors for all requests of a front end, each once.
fn all_ran_out(front: &mut Socket) {
    let got = steps::messages(front, 8);
    let expected = (1..=8).map(|number| (number, Some(100)));
    assert!(got.iter().map(steps::code).eq(expected), "{got:?}");
}

#[test]
fn its_requests_end_by_their_deadlines() {
    let [at_hung, at_other] = [(); 2].map(|()| steps::listener());
    let relay = RelayProcess::start(OPTIONS, &steps::words(&[&at_hung, &at_other]));
    let mut hung = steps::publisher(&at_hung);
    let mut other = steps::publisher(&at_other);
    let mut fronts = [(); 2].map(|()| steps::front(&relay));
    let start = Instant::now();
    let numbers = fill_up(&mut hung, &mut fronts);
    let filled = Instant::now();
    // No seventeenth; and another publisher is asked half a timeout later.
    steps::ask(&mut fronts[0], 17, HUNG, b"one too many");
    let refused = steps::messages(&mut fronts[0], 1);
    assert_eq!(steps::code(&refused[0]), (17, Some(32)));
    thread::sleep(TIMEOUT / 2);
    steps::ask(&mut fronts[1], 20, OTHER, b"a page of another");

    fronts.iter_mut().for_each(all_ran_out);
    println!("they ended {:?} after the first ask", start.elapsed());
    assert!(start.elapsed() >= TIMEOUT - UNIT && filled.elapsed() < TIMEOUT + DELAY);
    let cancels: Vec<_> = numbers.iter().copied().map(Message::Cancel).collect();
    assert_eq!(steps::messages(&mut hung, 16), cancels);
    // The younger request of another publisher is there still.
    answers(&mut other, &mut fronts[1], 20);
    let counts = relay.counts();
    assert_eq!((counts.get("ran_out"), counts.get("refused_100")), (16, 16));
    assert_eq!((counts.get("in_flight"), counts.get("lost")), (0, 0));

    is_of_use_again(&relay, &mut hung, &mut fronts, &numbers);
}

/// Its late answers reach nobody, and a new request does.
fn is_of_use_again(
    relay: &RelayProcess,
    hung: &mut Socket,
    fronts: &mut [Socket; 2],
    numbers: &[i64],
) {
    for number in numbers {
        steps::answer(hung, *number, b"too late");
    }
    assert_eq!(steps::all_before_pong(hung), []);
    for front in fronts.iter_mut() {
        assert_eq!(steps::all_before_pong(front), []);
    }
    assert_eq!(relay.counts().get("late"), 16);
    steps::ask(&mut fronts[0], 17, HUNG, b"a seventeenth");
    answers(hung, &mut fronts[0], 17);
    let counts = relay.counts();
    assert_eq!((counts.get("answered"), counts.get("in_flight")), (2, 0));
    assert_eq!((counts.get("asked"), counts.get("dropped")), (18, 0));
}
