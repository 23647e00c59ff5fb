//! Hand-made lists of events, each about one subject. Where a publisher's
//! number is needed, it is counted from the run's first number.

use crate::event::Event;
use crate::generator::Generator;
use crate::table::Side;

#[derive(Default)]
pub struct Script {
    pub bytes: Vec<u8>,
}

impl Script {
    pub fn then(mut self, event: Event) -> Script {
        event.encode(&mut self.bytes);
        self
    }

    fn ask(self, link: u8, number: i64, publisher: u8) -> Script {
        self.then(Event::Ask(link, number, publisher))
    }

    fn reply(self, publisher: u8, number: i64) -> Script {
        self.then(Event::Reply(publisher, number))
    }

    fn cancel(self, link: u8, number: i64) -> Script {
        self.then(Event::Cancel(link, number))
    }

    fn closed(self, link: u8) -> Script {
        self.then(Event::Gone(Side::Front, link))
    }

    fn lost(self, publisher: u8) -> Script {
        self.then(Event::Gone(Side::Publisher, publisher))
    }

    /// Asks for `publisher` with the front numbers given.
    fn asks(self, link: u8, numbers: impl IntoIterator<Item = i64>, publisher: u8) -> Script {
        let ask = |script: Script, number| script.ask(link, number, publisher);
        numbers.into_iter().fold(self, ask)
    }

    /// Asks until each publisher has its load; publisher p's requests come
    /// from link p and are numbered from 1.
    fn fill(self, loads: [i64; 8]) -> Script {
        let ask = |script: Script, (publisher, load): (usize, i64)| {
            script.asks(publisher as u8, 1..=load, publisher as u8)
        };
        loads.into_iter().enumerate().fold(self, ask)
    }

    /// One more ask for each publisher, from a link not used otherwise.
    fn probe(self, number: i64) -> Script {
        (0..8).fold(self, |script, publisher| {
            script.ask(24 + publisher, number, publisher)
        })
    }
}

/// The number `steps` after `first`; after the largest comes 1.
pub fn nth(first: i64, steps: i64) -> i64 {
    let to_largest = i64::MAX - first;
    if steps <= to_largest {
        first + steps
    } else {
        steps - to_largest
    }
}

/// The example of document 01.
pub fn example() -> Script {
    Script::default()
        .ask(3, 77, 0)
        .ask(3, 77, 1)
        .ask(4, 77, 0)
        .reply(0, 2)
        .reply(0, 2)
        .cancel(3, 77)
        .ask(3, 77, 0)
        .ask(3, 0, 0)
        .lost(0)
        .closed(3)
}

/// Loads 16, 16, 12 and the rest 0, up to the full table and down again.
pub fn loads(first: i64) -> Script {
    Script::default()
        .fill([16, 16, 12, 0, 0, 0, 0, 0])
        .ask(9, 1, 2)
        .ask(9, 1, 0)
        .asks(9, 1..=5, 3)
        .cancel(0, 5)
        .ask(9, 5, 3)
        .ask(9, 6, 3)
        .asks(10, 1..=5, 4)
        .asks(11, 1..=5, 5)
        .asks(12, 1..=5, 6)
        .asks(13, 1..=5, 7)
        .probe(1)
        .reply(1, nth(first, 3))
        .probe(2)
        .cancel(3, 1)
        .lost(2)
        .probe(3)
        .asks(14, 1..=17, 2)
        .lost(0)
        .lost(1)
        .asks(15, -17..=0, 7)
        .closed(15)
}

/// Loads 8 each, the table full, and other ways to fill it.
pub fn even_loads(first: i64) -> Script {
    let script = Script::default().fill([8; 8]).probe(1);
    let script = (0..8).fold(script, |script, p| script.reply(p, nth(first, 7)).probe(2));
    let script = (0..8).fold(script, |script, p| script.lost(p));
    let loads = [
        [4, 4, 4, 4, 4, 4, 4, 4],
        [5, 5, 5, 5, 5, 5, 5, 5],
        [3, 16, 3, 16, 3, 12, 3, 3],
        [0, 0, 0, 0, 0, 12, 17, 16],
        [11, 11, 11, 11, 1, 2, 3, 4],
        [12, 12, 12, 13, 4, 4, 5, 4],
        [15, 15, 15, 15, 4, 3, 5, 0],
    ];
    loads.into_iter().fold(script, |script, loads| {
        let script = script.fill(loads).probe(3).probe(4);
        (0..8)
            .chain(24..32)
            .fold(script, |script, link| script.closed(link))
    })
}

/// Each refusal next to what is still accepted, and where two rows apply.
pub fn refusals(first: i64) -> Script {
    Script::default()
        .ask(31, 1, 7)
        .ask(32, 1, 7)
        .ask(31, 1, 8)
        .ask(255, 0, 255)
        .ask(31, 0, 7)
        .ask(31, 1, 0)
        .reply(7, 0)
        .reply(8, 0)
        .reply(8, first)
        .reply(6, first)
        .reply(7, -first)
        .reply(7, first)
        .cancel(31, 0)
        .cancel(32, 0)
        .cancel(32, 1)
        .cancel(31, 1)
        .closed(31)
        .closed(32)
        .closed(255)
        .lost(7)
        .lost(8)
        .lost(255)
        .fill([16, 16, 12, 4, 4, 4, 4, 3])
        .ask(0, 1, 0)
        .ask(0, 1, 2)
        .ask(0, 0, 0)
        .ask(0, 0, 2)
        .ask(32, 17, 0)
        .ask(0, 17, 0)
        .ask(0, 17, 2)
        .ask(0, 17, 7)
        .ask(0, 18, 7)
}

/// Replies and cancels that come late, twice, or to the wrong side.
pub fn late(first: i64) -> Script {
    let extremes = [i64::MIN, i64::MIN + 1, -1, 1, i64::MAX];
    let script = Script::default()
        .asks(0, extremes, 0)
        .asks(1, extremes, 0)
        .asks(2, extremes, 1)
        .cancel(0, i64::MIN)
        .cancel(0, i64::MIN)
        .reply(0, first)
        .reply(1, first)
        .cancel(2, i64::MIN)
        .reply(0, nth(first, 9))
        .cancel(1, i64::MAX)
        .ask(1, i64::MAX, 1)
        .cancel(1, i64::MAX)
        .reply(1, nth(first, 5))
        .reply(1, nth(first, 6));
    // Publishers' numbers are never negative, front numbers may be.
    let script = script.reply(0, i64::MIN).reply(0, -1);
    let script = script
        .cancel(0, -1)
        .cancel(1, -1)
        .cancel(2, -1)
        .cancel(3, -1);
    (0..18).fold(script, |script, step| {
        script.reply(0, nth(first, step)).reply(1, nth(first, step))
    })
}

/// Gone peers with many and with no requests; the order of acceptance
/// where freed room was used again.
pub fn drops(first: i64) -> Script {
    let mut generator = Generator::new(17);
    // One link holds all that the table has room for.
    let script = (0..8).fold(Script::default(), |script, p| {
        script.asks(5, (1..=8).map(|n| 10 * n + i64::from(p)), p)
    });
    let script = script.closed(4).closed(5).closed(5);
    // Many links, taken in turn; then holes, which newer requests fill.
    let script = (0..60).fold(script, |script, n| {
        script.ask((n % 7) as u8, -n - 1, (n % 5) as u8)
    });
    let script = (0..20).fold(script, |script, _| {
        let step = 8 + generator.below(10) as i64;
        script.reply(generator.below(5) as u8, nth(first, step))
    });
    let script = (0..25).fold(script, |script, n| {
        script.ask(generator.below(7) as u8, 100 + n, generator.below(8) as u8)
    });
    let script = script.lost(3).closed(2).lost(3).closed(2).lost(7);
    let script = script.asks(2, 1..=16, 3).lost(3);
    (0..8).fold(script, |script, p| script.lost(p).closed(p))
}

/// Every publisher past the largest number, one at a time and with the whole
/// load in flight.
pub fn wrapping(first: i64) -> Script {
    let singles = (0..12).fold(Script::default(), |script, n| {
        script.ask(0, n + 1, 0).reply(0, nth(first, n))
    });
    let script = singles.asks(1, 1..=16, 1).asks(2, 1..=16, 0).closed(0);
    let script = (0..16).fold(script, |script, n| {
        script.reply(1, nth(first, 15 - n)).ask(3, n + 1, 1)
    });
    script.closed(3).lost(0).closed(2).ask(4, 4, 0).ask(4, 5, 1)
}

/// An unknown kind between events that would be accepted.
pub fn unknown_kind(kind: u8) -> Script {
    let mut script = Script::default().ask(1, 1, 1);
    script.bytes.push(kind);
    script.ask(2, 2, 2).ask(3, 3, 3)
}

/// An event of which only the first `length` bytes are there.
pub fn cut(event: Event, length: usize) -> Script {
    let mut script = Script::default().ask(3, 77, 0);
    let whole = Script::default().then(event).bytes;
    script.bytes.extend(&whole[..length]);
    script
}
