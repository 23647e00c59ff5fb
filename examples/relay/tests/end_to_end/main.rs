//! End to end, over loopback: the relay's program, 32 front ends and eight
//! publishers that the second program plays. Answers come in any order, late,
//! twice, unreadable or never; requests are cancelled or run out; some have a
//! timeout of 0; connections break on both sides; packets are cut anywhere. Each
//! front end checks each answer, each publisher each request. There is a run for
//! each choice of the sides whose links are padded, and two with links that go
//! through the cipher.
//!
//! Beside these runs, with its own relay each, what happens step by step: to old
//! publishers, to one that hangs, to what cannot be read, to slow readers, to slow
//! openings, on links that are padded at both ends or at one, and on ciphered ones.

mod answering;
mod asking;
mod cipher;
mod claims;
mod front;
mod hung_publisher;
#[path = "../no_timeout/mod.rs"]
mod no_timeout;
mod old_publisher;
mod openings;
#[path = "../other_end/mod.rs"]
mod other_end;
mod padded;
mod process;
mod profile;
mod publisher;
mod request;
mod slow_readers;
mod socket;
mod steps;
mod tally;
#[path = "../unreadable/mod.rs"]
mod unreadable;
mod unreadable_messages;

use other_end::CIPHERS;
use process::RelayProcess;
use profile::Profile;
use publisher::Publisher;
use relay::Cipher;
use std::sync::atomic::{AtomicBool, Ordering};
use std::sync::Arc;
use std::thread;
use std::time::{Duration, Instant};
use tally::Tally;

/// Of all random choices, unless the variable SEED gives another. (Timing is
/// the machine's, so two runs with one seed are not alike.)
const SEED: u64 = 1;
const FRONTS: u8 = 32;
const PUBLISHERS: u8 = 8;
/// The lowest version of the link to each publisher.
const LOWEST: [u8; PUBLISHERS as usize] = [0, 1, 2, 2, 0, 1, 2, 2];
/// What a request has until the relay ends it, in milliseconds: less than a front
/// end's patience. The relay's clock counts whole ones, so that an end may come one
/// early.
const REQUEST_MS: u64 = 1000;
/// Everybody gives up then, with what was still open.
const PATIENCE: Duration = Duration::from_secs(40);

/// How the links are: to all front ends, to each publisher.
#[derive(Clone, Copy, Debug)]
struct Links {
    fronts: Profile,
    publishers: [Profile; PUBLISHERS as usize],
}

impl Links {
    fn padded(fronts: bool, publishers: bool) -> Links {
        let profile = |padded| match padded {
            true => Profile::Padded,
            false => Profile::Plain,
        };
        Links {
            fronts: profile(fronts),
            publishers: [profile(publishers); PUBLISHERS as usize],
        }
    }
}

#[test]
fn every_answer_finds_its_request() {
    run(Links::padded(false, false));
}

#[test]
fn over_padded_links_too() {
    run(Links::padded(true, true));
}

#[test]
fn with_padded_links_to_publishers_alone_too() {
    run(Links::padded(false, true));
}

#[test]
fn with_padded_links_to_front_ends_alone_too() {
    run(Links::padded(true, false));
}

/// Publishers in all three settings, front ends as they like it.
#[test]
fn through_the_cipher_too() {
    run(Links {
        fronts: Profile::Cipher(Cipher::Either),
        publishers: std::array::from_fn(|n| Profile::Cipher(CIPHERS[n % 3])),
    });
}

#[test]
fn through_nothing_but_the_cipher_too() {
    let only = Profile::Cipher(Cipher::CipherOnly);
    run(Links {
        fronts: only,
        publishers: [only; PUBLISHERS as usize],
    });
}

fn run(links: Links) {
    let deadline = Instant::now() + PATIENCE;
    let seed = std::env::var("SEED").map_or(SEED, |seed| seed.parse().expect("a number"));
    let publishers: Vec<Publisher> = (0..PUBLISHERS)
        .zip(links.publishers.into_iter().zip(LOWEST))
        .map(|(publisher, (profile, lowest))| Publisher::new(publisher, profile, lowest, seed))
        .collect();
    let relay = start(links, &publishers);

    let done = Arc::new(AtomicBool::new(false));
    let publishers: Vec<_> = publishers
        .into_iter()
        .map(|publisher| {
            let done = Arc::clone(&done);
            thread::spawn(move || publisher.play(&done, deadline))
        })
        .collect();
    let address = relay.address();
    let play = move |front| front::play(front, links.fronts, address, seed, deadline);
    let fronts: Vec<_> = (0..FRONTS)
        .map(|front| thread::spawn(move || play(front)))
        .collect();

    let mut tally = Tally::default();
    let mut faults = Vec::new();
    for thread in fronts {
        tally.join(thread, &mut faults);
    }
    done.store(true, Ordering::Relaxed);
    for thread in publishers {
        tally.join(thread, &mut faults);
    }
    let counts = relay.counts_when_quiet();
    println!("{links:?}, front ends and publishers:\n{tally}");
    println!("{links:?}, the relay:\n{counts}");
    assert!(faults.is_empty(), "{}", faults.join("\n"));
    check(&tally, &counts);
    check_all_happened(&tally, &counts);
}

fn start(links: Links, publishers: &[Publisher]) -> RelayProcess {
    let words: Vec<String> = publishers.iter().map(Publisher::word).collect();
    let fronts = links.fronts.options();
    let times = format!("--retry-ms 50 --ping-ms 2000 --request-ms {REQUEST_MS}");
    let options = format!("{times} {} {fronts}", profile::card());
    RelayProcess::start(&options, &words)
}

/// How a request of a front end ends.
const ENDS: [&str; 10] = [
    "answers",
    "publisher errors",
    "unreadable requests",
    "unreadable answers",
    "refused 20",
    "refused 32",
    "refused 33",
    "ran out",
    "cancelled",
    "closed with link",
];

/// Every request ended, and nothing came from nowhere.
fn check(tally: &Tally, counts: &Tally) {
    let ends = ENDS.iter().map(|name| tally.get(name));
    let ended: u64 = ends.sum();
    assert_eq!(tally.get("asked"), ended, "requests that ended");
    assert_eq!(counts.get("in_flight"), 0, "requests left in the table");
    // What was under way when a connection broke came from nowhere else.
    let answered = tally.get("answers") + tally.get("publisher errors");
    assert!(answered <= counts.get("answered"), "answers out of nothing");
    let unreadable = tally.get("unreadable answers");
    assert!(
        unreadable <= counts.get("unreadable"),
        "errors out of nothing"
    );
    assert!(tally.get("ran out") <= counts.get("ran_out"), "run out");
    assert_eq!(tally.get("link repeated"), counts.get("repeated"));
    // A connection to a publisher that leaves before it is set up is counted too.
    let turned_away = counts.get("turned_away") - tally.get("turned away");
    let left = [
        "publisher disconnects",
        "publisher restarts",
        "publisher fins",
    ];
    let left: u64 = left.iter().map(|name| tally.get(name)).sum();
    assert!(turned_away <= left, "{turned_away} more turned away");
    // A cancel that found nothing in flight followed an answer.
    assert!(
        tally.get("cancelled") <= counts.get("cancelled"),
        "requests that vanished"
    );
    let sent = counts.get("asked") - counts.get("unsent");
    assert!(
        tally.get("asked of publishers") <= sent,
        "requests out of nothing"
    );
}

/// Each thing that the test is for did happen.
fn check_all_happened(tally: &Tally, counts: &Tally) {
    let others = [
        "answered despite cancel",
        "link dropped",
        "link broken",
        "link repeated",
        "link finished",
        "timeouts of 0",
        "pongs to front ends",
        "pongs to publishers",
        "relay pings answered",
        "publisher disconnects",
        "publisher restarts",
        "publisher fins",
        "answers after cancel",
        "answers twice",
        "answers from before",
        "answers unreadable",
        "cut writes",
    ];
    for name in ENDS.iter().chain(&others) {
        assert!(tally.get(name) > 0, "no {name}");
    }
    for name in [
        "late",
        "lost",
        "closed",
        "cancelled",
        "unsent",
        "unreadable",
        "unread",
        "idle_cancels",
    ] {
        assert!(counts.get(name) > 0, "the relay had no {name}");
    }
}
