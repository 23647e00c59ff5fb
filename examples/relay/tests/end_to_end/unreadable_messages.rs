//! What cannot be read, of publishers and of front ends: every request that it
//! names is answered with an error, once, and leaves nothing behind.

use crate::process::RelayProcess;
use crate::socket::Socket;
use crate::steps;
use crate::unreadable::{ANSWERS, REQUESTS};
use reference::message::{Message, Outcome};
use std::collections::BTreeMap;

const OPTIONS: &str = "--retry-ms 50 --ping-ms 20000";
/// As many as fill the load of one publisher, shared by four front ends.
const LOAD: usize = 16;
const FRONTS: usize = 4;
const ROUNDS: usize = 4;

/// Each front end asks for the same four numbers; the payload tells them
/// apart. Hands back the publisher's numbers, by front end and number.
fn ask_all(fronts: &mut [Socket], publisher: &mut Socket) -> BTreeMap<(u8, i64), i64> {
    for (front, socket) in (0..).zip(fronts) {
        for number in 1..=(LOAD / FRONTS) as i64 {
            steps::ask(socket, number, 0, &[front, 0, 0, 0, number as u8]);
        }
    }
    let requests = steps::messages(publisher, LOAD).into_iter();
    let numbers = requests.map(steps::asked).map(|(number, payload)| {
        let front = (payload[0], i64::from(payload[4]));
        (front, number)
    });
    numbers.collect()
}

#[test]
fn sixty_four_unreadable_answers_leave_no_load() {
    let listener = steps::listener();
    let relay = RelayProcess::start(OPTIONS, &steps::words(&[&listener]));
    let mut publisher = steps::publisher(&listener);
    let mut fronts: [_; FRONTS] = std::array::from_fn(|_| steps::front(&relay));
    let mut forms = ANSWERS.iter().cycle();
    for _ in 0..ROUNDS {
        let mut expected = [(); FRONTS].map(|()| BTreeMap::new());
        for ((front, number), asked) in ask_all(&mut fronts, &mut publisher) {
            let form = forms.next().expect("they come again and again");
            publisher.end.send_raw(form.packet_type, &form.body(asked));
            expected[usize::from(front)].insert(number, Some(form.refusal));
        }
        // Its Pong says that the relay has them all.
        assert_eq!(steps::all_before_pong(&mut publisher), []);
        for (front, expected) in fronts.iter_mut().zip(expected) {
            let got = steps::all_before_pong(front);
            assert_eq!(got.len(), expected.len());
            assert!(got.iter().map(steps::code).eq(expected));
        }
    }
    let counts = relay.counts();
    println!("after {} unreadable answers:\n{counts}", ROUNDS * LOAD);
    assert_eq!((counts.get("in_flight"), counts.get("asked")), (0, 64));
    assert_eq!((counts.get("unreadable"), counts.get("unread")), (64, 64));

    // A whole load goes there again, and is answered.
    for ((front, number), asked) in ask_all(&mut fronts, &mut publisher) {
        steps::answer(&mut publisher, asked, &[front, number as u8]);
    }
    assert_eq!(steps::all_before_pong(&mut publisher), []);
    for (index, front) in (0..).zip(&mut fronts) {
        let page = |number| Outcome::Payload(vec![index, number as u8]);
        let pages = (1..=4).map(|number| Message::Result(number, page(number)));
        assert!(steps::all_before_pong(front).into_iter().eq(pages));
    }
    let counts = relay.counts();
    assert_eq!((counts.get("in_flight"), counts.get("answered")), (0, 16));
}

#[test]
fn unreadable_requests_are_answered() {
    let listener = steps::listener();
    let relay = RelayProcess::start(OPTIONS, &steps::words(&[&listener]));
    let mut publisher = steps::publisher(&listener);
    let mut front = steps::front(&relay);
    for (number, form) in (1..).zip(REQUESTS) {
        front.end.send_raw(form.packet_type, &form.body(number));
    }
    let got = steps::all_before_pong(&mut front);
    let refusals = REQUESTS.iter().map(|form| Some(form.refusal));
    assert!(got.iter().map(steps::code).eq((1..).zip(refusals)));
    // The link is unharmed, the numbers are free.
    steps::ask(&mut front, 1, 0, b"question");
    let (asked, _) = steps::asked(steps::messages(&mut publisher, 1).remove(0));
    steps::answer(&mut publisher, asked, b"answer");
    let answer = Outcome::Payload(b"answer".to_vec());
    assert_eq!(steps::messages(&mut front, 1), [Message::Result(1, answer)]);
    let counts = relay.counts();
    let forms = REQUESTS.len() as u64;
    assert_eq!((counts.get("unread"), counts.get("asked")), (forms, 1));
}

/// A second request under a number in flight, whether it can be read or not.
#[test]
fn a_repeated_number_ends_the_link_without_a_word() {
    let listener = steps::listener();
    let relay = RelayProcess::start(OPTIONS, &steps::words(&[&listener]));
    let mut publisher = steps::publisher(&listener);
    for is_readable in [true, false] {
        let mut front = steps::front(&relay);
        steps::ask(&mut front, 9, 0, b"first");
        let (asked, _) = steps::asked(steps::messages(&mut publisher, 1).remove(0));
        if is_readable {
            steps::ask(&mut front, 9, 0, b"second");
        } else {
            let form = REQUESTS[0];
            front.end.send_raw(form.packet_type, &form.body(9));
        }
        assert_eq!(steps::all_before_end(&mut front), []);
        assert_eq!(steps::messages(&mut publisher, 1), [Message::Cancel(asked)]);
    }
    let counts = relay.counts();
    assert_eq!((counts.get("repeated"), counts.get("closed")), (2, 2));
    assert_eq!((counts.get("in_flight"), counts.get("refused_31")), (0, 0));
}
