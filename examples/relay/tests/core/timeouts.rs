//! Timeouts, which the relay passes on as they are meant: 0 is none (document 02,
//! A1). The publishers' end refuses a request that means no timeout and has a field.

use crate::no_timeout;
use crate::world::World;
use crate::{answer, answered};
use reference::message::{values, Invoke, Message};

/// It goes to publisher 0, as it does with an actor that is a multiple of 8.
const INVOKE: Invoke<&[u8]> = Invoke {
    number: -7,
    actor: None,
    timeout: None,
    tl2: false,
    payload: b"question",
};

#[test]
fn a_timeout_of_0_goes_no_further() {
    let mut world = World::new();
    let actors = [None, Some(0), Some(-8)];
    let mut number = 0;
    for (actor, tl2) in actors
        .into_iter()
        .flat_map(|actor| [(actor, false), (actor, true)])
    {
        for (_, body) in no_timeout::forms(&Invoke {
            actor,
            tl2,
            ..INVOKE
        }) {
            number += 1;
            world.front_says_raw(2, values::INVOKE, &body);
            let passed_on = Invoke {
                number,
                actor,
                tl2,
                ..INVOKE
            };
            let expected = Message::Invoke(passed_on).hold(<[u8]>::to_vec);
            assert_eq!(world.publisher_got(0), [expected]);
            world.publisher_says(0, answer(number, b"a page"));
            assert_eq!(world.front_got(2), [answered(-7, b"a page")]);
        }
    }
    assert_eq!(number, 2 * (2 + 6 + 6));
}

#[test]
fn other_timeouts_are_passed_on() {
    let mut world = World::new();
    for (timeout, number) in [1, 255, 256, 1 << 16, 1 << 23, 1 << 31, u32::MAX]
        .into_iter()
        .zip(1..)
    {
        let invoke = Invoke {
            timeout: Some(timeout),
            ..INVOKE
        };
        world.front_says(5, Message::Invoke(invoke));
        let expected = Message::Invoke(Invoke { number, ..invoke }).hold(<[u8]>::to_vec);
        assert_eq!(world.publisher_got(0), [expected]);
        world.publisher_says(0, answer(number, b""));
        assert_eq!(world.front_got(5), [answered(-7, b"")]);
    }
}
