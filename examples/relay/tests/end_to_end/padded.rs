//! Padded links step by step, and links that are padded at one end only: these
//! open for nobody, and nobody gets a wrong answer over them.

use crate::other_end::OtherEnd;
use crate::process::RelayProcess;
use crate::socket::Socket;
use crate::steps;
use reference::generator::Generator;
use reference::message::{Message, Outcome, Side};
use std::net::{TcpListener, TcpStream};
use std::time::{Duration, Instant};

/// The keep-alive is far off, so that the relay says nothing by itself.
const OPTIONS: &str = "--retry-ms 50 --ping-ms 60000";
const PADDED_FRONTS: &str = "--retry-ms 50 --ping-ms 60000 --padded-fronts";

/// For one thing to come.
const PATIENCE: Duration = Duration::from_secs(10);

/// How often the relay is to come back to a publisher set otherwise.
const TRIES: i64 = 4;

/// Words for eight publishers, the first of which are at these listeners, behind
/// padded links.
fn padded_words(listeners: &[&TcpListener]) -> Vec<String> {
    let mut words = steps::words(listeners);
    for word in &mut words[..listeners.len()] {
        *word += ",padded=yes";
    }
    words
}

/// Nothing but the rest of a block may follow.
fn settle(socket: &mut Socket) {
    while socket.end.past_blocks() > 0 {
        assert_eq!((socket.pump(), socket.ended), (Ok(vec![]), false));
    }
}

/// The other ends see whole blocks only, so that each length of a payload
/// needs its own flush, both ways.
#[test]
fn requests_and_answers_end_at_a_block() {
    let listener = steps::listener();
    let relay = RelayProcess::start(PADDED_FRONTS, &padded_words(&[&listener]));
    let mut publisher = steps::padded_publisher(&listener);
    let mut front = steps::padded_front(&relay);
    for (number, length) in (1..).zip(0..40) {
        let payload = vec![b'x'; length];
        steps::ask(&mut front, number, 0, &payload);
        let (asked, came) = steps::asked(steps::messages(&mut publisher, 1).remove(0));
        assert_eq!(came, payload);
        settle(&mut publisher);
        steps::answer(&mut publisher, asked, &payload);
        let answer = Message::Result(number, Outcome::Payload(payload));
        assert_eq!(steps::messages(&mut front, 1), [answer]);
        settle(&mut front);
    }
    let counts = relay.counts();
    assert_eq!((counts.get("answered"), counts.get("dropped")), (40, 0));
}

/// What an unpadded end of a padded link says of the relay's bytes.
fn refusal(stream: TcpStream, side: Side) -> String {
    let end = OtherEnd::new(side, true);
    let opened = Socket::open_end(stream, end, &mut Generator::new(1));
    let mut socket = match opened {
        Err(refusal) => return refusal,
        Ok(socket) => socket.expect("a Handshake"),
    };
    // The word behind the Handshake comes after it.
    let deadline = Instant::now() + PATIENCE;
    while Instant::now() < deadline {
        match socket.pump() {
            Err(refusal) => return refusal,
            Ok(got) => assert_eq!((got, socket.ended), (vec![], false)),
        }
    }
    panic!("nothing is refused");
}

/// The word behind a Handshake is no packet there.
const REFUSAL: &str = "received what is LengthTooShort";

#[test]
fn an_unpadded_publisher_behind_a_padded_link_is_as_good_as_not_there() {
    let [unpadded, padded] = [(); 2].map(|()| steps::listener());
    let relay = RelayProcess::start(OPTIONS, &padded_words(&[&unpadded, &padded]));
    let mut publisher = steps::padded_publisher(&padded);
    let mut front = steps::front(&relay);
    for number in 1..=TRIES {
        let (stream, _) = unpadded.accept().expect("a connection");
        steps::ask(&mut front, number, 0, b"question");
        assert_eq!(refusal(stream, Side::Server), REFUSAL);
        let got = steps::messages(&mut front, 1);
        assert_eq!(steps::code(&got[0]), (number, Some(20)));
    }
    // Nobody else has noticed.
    steps::ask(&mut front, 5, 1, b"question");
    let (asked, _) = steps::asked(steps::messages(&mut publisher, 1).remove(0));
    steps::answer(&mut publisher, asked, b"answer");
    let answer = Outcome::Payload(b"answer".to_vec());
    assert_eq!(steps::messages(&mut front, 1), [Message::Result(5, answer)]);
    let counts = relay.counts();
    assert_eq!((counts.get("answered"), counts.get("refused_20")), (1, 4));
}

/// It reads what the relay sends, but its own packets have no zeros. Nothing of
/// them is delivered, and its link ends with the next bytes (25).
#[test]
fn an_answer_without_zeros_is_never_delivered() {
    let listener = steps::listener();
    let relay = RelayProcess::start(OPTIONS, &padded_words(&[&listener]));
    let mut publisher = steps::padded_publisher(&listener);
    let mut front = steps::front(&relay);
    steps::ask(&mut front, 1, 0, b"first");
    steps::ask(&mut front, 2, 0, b"second");
    let asked = steps::messages(&mut publisher, 2).into_iter();
    for (number, _) in asked.map(steps::asked) {
        assert_eq!(steps::all_before_pong(&mut front), []);
        let answer = Message::Result(number, Outcome::Payload(&b"x"[..]));
        publisher.end.send_message(answer);
        let unpadded = publisher.end.output.len() - 3;
        publisher.end.output.truncate(unpadded);
        publisher.write_out(&mut Generator::new(1));
    }
    assert_eq!(steps::all_before_end(&mut publisher), []);
    let got = steps::messages(&mut front, 2);
    let lost = [(1, Some(20)), (2, Some(20))];
    assert!(got.iter().map(steps::code).eq(lost), "{got:?}");
    let counts = relay.counts();
    assert_eq!((counts.get("answered"), counts.get("lost")), (0, 2));
    assert_eq!((counts.get("dropped"), counts.get("in_flight")), (1, 0));
}

/// And a front end whose link is padded is served all the same.
#[test]
fn an_unpadded_front_end_gets_nothing_over_padded_links() {
    let listener = steps::listener();
    let relay = RelayProcess::start(PADDED_FRONTS, &steps::words(&[&listener]));
    let mut publisher = steps::publisher(&listener);
    assert_eq!(refusal(steps::connect(&relay), Side::Client), REFUSAL);
    let mut front = steps::padded_front(&relay);
    steps::ask(&mut front, 1, 0, b"question");
    let (asked, _) = steps::asked(steps::messages(&mut publisher, 1).remove(0));
    steps::answer(&mut publisher, asked, b"answer");
    let answer = Outcome::Payload(b"answer".to_vec());
    assert_eq!(steps::messages(&mut front, 1), [Message::Result(1, answer)]);
}
