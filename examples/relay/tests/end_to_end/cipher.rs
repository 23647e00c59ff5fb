//! Ciphered links step by step: every setting and version over sockets, ends with
//! another key, and two relays in a chain.

use crate::other_end::{OtherEnd, Secrets, KEY};
use crate::process::RelayProcess;
use crate::profile::{self, Profile};
use crate::socket::Socket;
use crate::steps;
use reference::generator::Generator;
use reference::message::{Message, Outcome, Side};
use relay::Cipher;
use std::net::TcpListener;
use std::time::Duration;

/// The keep-alive is far off, so that the relay says nothing by itself.
const OPTIONS: &str = "--retry-ms 50 --ping-ms 60000";
const PATIENCE: Duration = Duration::from_secs(10);

/// The line of a relay whose links to front ends and to the first publishers are
/// set so.
fn line(fronts: Profile, publishers: &[(&TcpListener, Profile)]) -> (String, Vec<String>) {
    let listeners: Vec<_> = publishers.iter().map(|(listener, _)| *listener).collect();
    let mut words = steps::words(&listeners);
    for (word, (_, profile)) in words.iter_mut().zip(publishers) {
        *word += &profile.word();
    }
    let options = format!("{OPTIONS} {} {}", profile::card(), fronts.options());
    (options, words)
}

/// A relay with such a line.
fn relay(fronts: Profile, publishers: &[(&TcpListener, Profile)]) -> RelayProcess {
    let (options, words) = line(fronts, publishers);
    RelayProcess::start(&options, &words)
}

fn end(side: Side, version: u8, secrets: Secrets) -> OtherEnd {
    OtherEnd::with_cipher(side, true, version, secrets)
}

/// Opens a connection to the relay with this end, as far as it goes.
fn connect(relay: &RelayProcess, end: OtherEnd) -> Option<Socket> {
    let opened = Socket::open_end(steps::connect(relay), end, &mut Generator::new(3));
    opened.expect("an opening, or its end")
}

/// A request goes to the publisher, and its answer comes back, whatever its size.
fn serve(front: &mut Socket, publisher: &mut Socket, actor: i64) {
    for (number, size) in (1..).zip([0, 1, 7, 20, 70_000]) {
        let payload = vec![b'q'; size];
        steps::ask(front, number, actor, &payload);
        let (asked, came) = steps::asked(steps::messages(publisher, 1).remove(0));
        assert_eq!(came, payload);
        steps::answer(publisher, asked, &payload);
        let answer = Message::Result(number, Outcome::Payload(payload));
        assert_eq!(steps::messages(front, 1), [answer]);
    }
}

/// The settings of the relay's links to eight publishers, and of these, with their
/// versions.
const PUBLISHERS: [(Cipher, Cipher, u8); 8] = [
    (Cipher::CipherOnly, Cipher::CipherOnly, 0),
    (Cipher::CipherOnly, Cipher::Either, 1),
    (Cipher::CipherOnly, Cipher::Either, 2),
    (Cipher::Either, Cipher::CipherOnly, 0),
    (Cipher::Either, Cipher::CipherOnly, 2),
    (Cipher::Either, Cipher::Either, 1),
    (Cipher::Either, Cipher::ClearOnly, 2),
    (Cipher::ClearOnly, Cipher::Either, 0),
];

#[test]
fn publishers_of_every_setting_and_version() {
    let listeners = [(); 8].map(|()| steps::listener());
    let links = listeners.iter().zip(PUBLISHERS);
    let links: Vec<_> = links
        .map(|(listener, (ours, ..))| (listener, Profile::Cipher(ours)))
        .collect();
    let relay = relay(Profile::Plain, &links);
    let mut front = steps::front(&relay);
    for (publisher, (ours, theirs, version)) in (0..).zip(PUBLISHERS) {
        let secrets = Secrets::new(theirs, &KEY);
        let end = end(Side::Server, version, secrets);
        let mut socket = steps::accept(&listeners[publisher], end).expect("an open link");
        let is_ciphered = ours != Cipher::ClearOnly && theirs != Cipher::ClearOnly;
        assert_eq!(socket.end.is_ciphered(), is_ciphered);
        assert_eq!(steps::all_before_pong(&mut socket), []);
        serve(&mut front, &mut socket, publisher as i64);
    }
    let counts = relay.counts();
    assert_eq!((counts.get("answered"), counts.get("dropped")), (40, 0));
}

#[test]
fn front_ends_of_every_offer_and_version() {
    let listener = steps::listener();
    let relay = relay(
        Profile::Cipher(Cipher::Either),
        &[(&listener, Profile::Cipher(Cipher::CipherOnly))],
    );
    let secrets = Secrets::new(Cipher::CipherOnly, &KEY);
    let mut publisher =
        steps::accept(&listener, end(Side::Server, 2, secrets)).expect("an open link");
    assert_eq!(steps::all_before_pong(&mut publisher), []);
    for version in 0..=2 {
        for offer in [0, 1, 2, 3, 255] {
            let secrets = Secrets {
                says: Some(offer),
                ..Secrets::new(Cipher::Either, &KEY)
            };
            let front = connect(&relay, end(Side::Client, version, secrets));
            let mut front = front.expect("an open link");
            assert_eq!(front.end.is_ciphered(), offer != 0);
            serve(&mut front, &mut publisher, 0);
            front.drop_now();
        }
    }
}

/// With another KeyID, and with the same.
fn other_keys() -> [[u8; 40]; 2] {
    [0, 20].map(|at| {
        let mut key = KEY;
        key[at] ^= 1;
        key
    })
}

/// Of a publisher with another key, with another KeyID that it does not look at,
/// and of one that takes the cipher for clear.
fn wrong() -> [Secrets; 3] {
    let [other_id, other_rest] = other_keys();
    let secrets = |key: &[u8], says| Secrets {
        says,
        ..Secrets::new(Cipher::CipherOnly, key)
    };
    [
        secrets(&other_rest, None),
        secrets(&other_id, Some(1)),
        secrets(&KEY, Some(0)),
    ]
}

/// Whether this count comes to be so.
fn counted(relay: &RelayProcess, name: &str, count: u64) -> bool {
    let counts = relay.counts_when(|counts| counts.get(name) == count, PATIENCE);
    counts.get(name) == count
}

#[test]
fn front_ends_with_another_key_get_nothing() {
    let listener = steps::listener();
    let relay = relay(
        Profile::Cipher(Cipher::CipherOnly),
        &[(&listener, Profile::Plain)],
    );
    let mut publisher = steps::publisher(&listener);
    let [other_id, other_rest] = other_keys();
    for (n, version) in (1..).zip(0..=2) {
        let secrets = |key| Secrets::new(Cipher::CipherOnly, key);
        let with_id = end(Side::Client, version, secrets(&other_id));
        assert!(connect(&relay, with_id).is_none());
        assert!(counted(&relay, "not_agreed", n));
        let with_rest = end(Side::Client, version, secrets(&other_rest));
        assert!(connect(&relay, with_rest).is_none());
        assert!(counted(&relay, "other_keys", n));
    }
    let said = relay.said(3, PATIENCE);
    let is_told = |line: &String| line.contains("its Handshake cannot be read");
    assert!(said.len() == 3 && said.iter().all(is_told), "{said:?}");
    // A front end in the clear gets nothing either.
    assert!(connect(&relay, OtherEnd::new(Side::Client, true)).is_none());
    assert!(counted(&relay, "not_agreed", 4));
    // And one with the key is served.
    let secrets = Secrets::new(Cipher::Either, &KEY);
    let mut front = connect(&relay, end(Side::Client, 2, secrets)).expect("an open link");
    serve(&mut front, &mut publisher, 0);
}

/// Their lines have more than 64 KiB, which is what a pipe takes.
const WARNINGS: u64 = 600;

#[test]
fn warnings_that_nobody_reads_do_not_stop_the_relay() {
    let listener = steps::listener();
    let cipher = Profile::Cipher(Cipher::CipherOnly);
    let (options, words) = line(cipher, &[(&listener, Profile::Plain)]);
    let relay = RelayProcess::start_unread(&options, &words);
    let mut publisher = steps::publisher(&listener);
    let [_, other_rest] = other_keys();
    for _ in 0..WARNINGS {
        let secrets = Secrets::new(Cipher::CipherOnly, &other_rest);
        assert!(connect(&relay, end(Side::Client, 0, secrets)).is_none());
    }
    assert!(counted(&relay, "other_keys", WARNINGS));
    let secrets = Secrets::new(Cipher::CipherOnly, &KEY);
    let mut front = connect(&relay, end(Side::Client, 2, secrets)).expect("an open link");
    serve(&mut front, &mut publisher, 0);
}

/// It sees that by itself, or the relay does; nobody gets an answer of it.
#[test]
fn a_publisher_with_another_key_is_as_good_as_not_there() {
    let listeners = [(); 4].map(|()| steps::listener());
    let profile = Profile::Cipher(Cipher::CipherOnly);
    let links = listeners.each_ref().map(|listener| (listener, profile));
    let relay = relay(Profile::Plain, &links);
    for (listener, secrets) in listeners.iter().zip(wrong()) {
        let (stream, _) = listener.accept().expect("a connection");
        let end = end(Side::Server, 2, secrets);
        let opened = Socket::open_end(stream, end, &mut Generator::new(1));
        // Refused by it, or ended by the relay.
        assert!(opened.is_err() || opened.is_ok_and(|socket| socket.is_none()));
    }
    let right = Secrets::new(Cipher::CipherOnly, &KEY);
    let mut publisher =
        steps::accept(&listeners[3], end(Side::Server, 2, right)).expect("an open link");
    assert_eq!(steps::all_before_pong(&mut publisher), []);
    let mut front = steps::front(&relay);
    for actor in 0..3 {
        steps::ask(&mut front, actor + 1, actor, b"question");
        let got = steps::messages(&mut front, 1);
        assert_eq!(steps::code(&got[0]), (actor + 1, Some(20)));
    }
    serve(&mut front, &mut publisher, 3);
    let counts = relay.counts();
    assert!(counts.get("not_agreed") >= 2, "connections dropped");
    assert_eq!((counts.get("answered"), counts.get("refused_20")), (5, 3));
}

/// The first one's publisher is the second one: both ends of that link are the
/// library's.
#[test]
fn two_relays_in_a_chain() {
    let listener = steps::listener();
    for (client, server) in [
        (Cipher::CipherOnly, Cipher::CipherOnly),
        (Cipher::Either, Cipher::CipherOnly),
        (Cipher::Either, Cipher::Either),
    ] {
        let second = relay(Profile::Cipher(server), &[(&listener, Profile::Plain)]);
        let mut publisher = steps::publisher(&listener);
        let mut words = steps::words(&[]);
        words[0] = second.address().to_string() + &Profile::Cipher(client).word();
        let options = format!("{OPTIONS} {}", profile::card());
        let first = RelayProcess::start(&options, &words);
        let mut front = steps::front(&first);
        // The link between them opens in its time.
        let mut number = 100;
        loop {
            steps::ask(&mut front, number, 0, b"there?");
            match steps::messages_of_two(&mut front, &mut publisher) {
                (Some(refused), _) => assert_eq!(steps::code(&refused), (number, Some(20))),
                (None, Some(asked)) => {
                    let (asked, _) = steps::asked(asked);
                    steps::answer(&mut publisher, asked, b"yes");
                    let answer = Message::Result(number, Outcome::Payload(b"yes".to_vec()));
                    assert_eq!(steps::messages(&mut front, 1), [answer]);
                    break;
                }
                (None, None) => panic!("nothing comes"),
            }
            number += 1;
        }
        serve(&mut front, &mut publisher, 0);
        assert_eq!(second.counts().get("not_agreed"), 0);
    }
}
