//! Messages that cannot be read: whose request they end, and whose not.

use crate::unreadable::{Unreadable, ANSWERS, REQUESTS};
use crate::world::{self, World};
use crate::{answer, answered, ask, code};
use reference::message::{self, values, Message, Side};
use relay_example::event::Peer;

/// The second program refuses them with the same number.
#[test]
fn the_forms_are_refused_as_they_say() {
    let sides = [(Side::Client, &ANSWERS[..]), (Side::Server, &REQUESTS)];
    for (reader, forms) in sides {
        for form in forms {
            let read = message::read(reader, form.packet_type, &form.body(-2));
            let refusal = read.expect_err("a refusal").number();
            assert_eq!(i32::from(refusal), form.refusal);
        }
    }
    let has = |forms: &[Unreadable], packet_type, refusal| {
        let mut forms = forms.iter();
        forms.any(|form| (form.packet_type, form.refusal) == (packet_type, refusal))
    };
    assert!([11, 13, 14, 17, 18].map(|n| has(&ANSWERS, values::RESULT, n)) == [true; 5]);
    assert!([11, 17, 18].map(|n| has(&ANSWERS, values::OLD_ERROR, n)) == [true; 3]);
    assert!([11, 13, 14].map(|n| has(&REQUESTS, values::INVOKE, n)) == [true; 3]);
}

#[test]
fn an_unreadable_answer_ends_its_request_once() {
    let mut world = World::new();
    for form in ANSWERS {
        world.front_says(3, ask(77, 4));
        world.front_says(4, ask(77, 4));
        let numbers: Vec<i64> = world.publisher_got(4).iter().map(world::number).collect();
        world.publisher_says_raw(4, form.packet_type, &form.body(numbers[1]));
        let got = world.front_got(4);
        assert_eq!((got.len(), code(&got[0], 77)), (1, form.refusal));
        // Neither the same again nor a page finds the request now.
        world.publisher_says_raw(4, form.packet_type, &form.body(numbers[1]));
        world.publisher_says(4, answer(numbers[1], b"too late"));
        assert_eq!(world.front_got(4), []);
        assert_eq!(world.front_got(3), []);
        world.publisher_says(4, answer(numbers[0], b"for three"));
        assert_eq!(world.front_got(3), [answered(77, b"for three")]);
    }
    let forms = ANSWERS.len() as u64;
    let counts = world.core.counts();
    assert_eq!((counts.asked, counts.in_flight()), (2 * forms, 0));
    assert_eq!((counts.unreadable, counts.answered), (forms, forms));
    assert_eq!((counts.unread, counts.late), (2 * forms, 2 * forms));
    assert_eq!(counts.refused.values().sum::<u64>(), forms);
    assert_eq!(world.closed, []);
}

/// Four times a full load of them: were a request left, 32 would come.
#[test]
fn unreadable_answers_leave_no_load() {
    let mut world = World::new();
    for round in 0..4 {
        for number in 1..=16 {
            world.front_says(0, ask(number, 6));
        }
        assert_eq!(world.front_got(0), []);
        let forms = ANSWERS.iter().cycle().skip(16 * round);
        for (got, form) in world.publisher_got(6).iter().zip(forms.clone()) {
            let body = form.body(world::number(got));
            world.publisher_says_raw(6, form.packet_type, &body);
        }
        let got = world.front_got(0);
        let codes = (1..).zip(&got).map(|(number, got)| code(got, number));
        assert!(codes.eq(forms.map(|form| form.refusal).take(16)));
        assert_eq!(world.core.counts().in_flight(), 0);
    }
    assert_eq!(world.core.counts().unreadable, 64);
}

#[test]
fn an_unreadable_answer_may_be_the_last_after_a_fin() {
    let mut world = World::new();
    world.front_says(0, ask(1, 5));
    world.front_says(0, ask(2, 5));
    world.publisher_says(5, Message::ServerFin);
    let cut = ANSWERS[0];
    world.publisher_says_raw(5, cut.packet_type, &cut.body(2));
    assert_eq!(world.closed, []);
    world.publisher_says_raw(5, cut.packet_type, &cut.body(1));
    assert_eq!(world.closed, [Peer::Publisher(5)]);
    let got = world.front_got(0);
    assert_eq!((code(&got[0], 2), code(&got[1], 1), got.len()), (11, 11, 2));
    assert_eq!(world.core.counts().lost, 0);
}

#[test]
fn an_unreadable_request_is_answered_and_goes_nowhere() {
    let mut world = World::new();
    for (number, form) in (-4..).filter(|number| *number != 0).zip(REQUESTS) {
        world.front_says_raw(0, form.packet_type, &form.body(number));
        let got = world.front_got(0);
        assert_eq!((got.len(), code(&got[0], number)), (1, form.refusal));
    }
    assert!((0..8).all(|publisher| world.publisher_got(publisher).is_empty()));
    let counts = world.core.counts();
    let forms = REQUESTS.len() as u64;
    assert_eq!((counts.unread, counts.asked, counts.late), (forms, 0, 0));
    assert_eq!(counts.refused.values().sum::<u64>(), forms);
    assert_eq!(world.closed, []);
}

#[test]
fn an_unreadable_request_after_a_fin_ends_the_link() {
    for body in [REQUESTS[0].body(2), vec![1; 7], vec![0; 8]] {
        let mut world = World::new();
        world.front_says(0, ask(1, 2));
        world.front_says(0, Message::ClientFin);
        world.front_says_raw(0, values::INVOKE, &body);
        assert_eq!(world.closed, [Peer::Front(0)]);
        assert_eq!(world.front_got(0), []);
        assert_eq!(world.publisher_got(2)[1], Message::Cancel(1));
    }
}

#[test]
fn what_names_no_request_is_counted_alone() {
    let mut world = World::new();
    world.front_says(0, ask(1, 0));
    world.publisher_got(0);
    let one = 1_i64.to_le_bytes();
    // Number 0, a cut number, too long a cancel and fin, no message at all,
    // and an answer from the wrong side.
    world.front_says_raw(0, values::INVOKE, &[0; 8]);
    world.front_says_raw(0, values::INVOKE, &one[..7]);
    world.front_says_raw(0, values::CANCEL, &[&one[..], &[0]].concat());
    world.front_says_raw(0, values::CLIENT_FIN, &one);
    world.front_says_raw(0, 0x1234_5678, &one);
    world.front_says_raw(0, values::RESULT, &one);
    for packet_type in [values::RESULT, values::OLD_ERROR] {
        world.publisher_says_raw(0, packet_type, &[0; 16]);
        world.publisher_says_raw(0, packet_type, &one[..7]);
    }
    world.publisher_says_raw(0, values::SERVER_FIN, &one);
    world.publisher_says_raw(0, values::INVOKE, &one);
    world.publisher_says_raw(0, 0x1234_5678, &one);
    let counts = world.core.counts();
    assert_eq!((counts.unread, counts.late), (13, 0));
    assert_eq!(counts.in_flight(), 1);
    assert_eq!(
        (world.front_got(0), world.publisher_got(0)),
        (vec![], vec![])
    );
    assert_eq!(world.closed, []);
    world.publisher_says(0, answer(1, b"still asked"));
    assert_eq!(world.front_got(0), [answered(1, b"still asked")]);
}
