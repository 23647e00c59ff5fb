//! Steps of the tests that say exactly what happens when, on one or a few
//! connections. Whatever does not happen in time is a fault.

use crate::other_end::{Got, OtherEnd};
use crate::process::RelayProcess;
use crate::profile::Profile;
use crate::socket::Socket;
use reference::generator::Generator;
use reference::link::Outgoing;
use reference::message::{Invoke, Message, Outcome, Side};
use std::io::Read;
use std::net::{TcpListener, TcpStream};
use std::time::{Duration, Instant};

type Heard = Message<Vec<u8>>;

/// For one thing to come.
const PATIENCE: Duration = Duration::from_secs(15);

/// Nobody listens there.
const NOBODY: &str = "127.0.0.1:1";

pub fn listener() -> TcpListener {
    TcpListener::bind("127.0.0.1:0").expect("a port of the system")
}

/// Words for eight publishers: the first are at these listeners, the others
/// are nowhere.
pub fn words(listeners: &[&TcpListener]) -> Vec<String> {
    let addresses = listeners.iter().map(|listener| {
        let address = listener.local_addr().expect("its address");
        address.to_string()
    });
    let nowhere = std::iter::repeat(NOBODY.to_string());
    addresses.chain(nowhere).take(8).collect()
}

pub fn connect(relay: &RelayProcess) -> TcpStream {
    TcpStream::connect(relay.address()).expect("a connection")
}

/// Whether the relay ends a new connection that says nothing, as it does if no
/// link is free; else it waits for a Nonce.
pub fn is_turned_away(relay: &RelayProcess) -> bool {
    let mut stream = connect(relay);
    let timeout = Some(Duration::from_millis(300));
    stream.set_read_timeout(timeout).expect("a timeout");
    matches!(stream.read(&mut [0; 16]), Ok(0))
}

/// A front end whose link is open.
pub fn front(relay: &RelayProcess) -> Socket {
    open_front(relay, false)
}

pub fn padded_front(relay: &RelayProcess) -> Socket {
    open_front(relay, true)
}

fn open_front(relay: &RelayProcess, padded: bool) -> Socket {
    let mut generator = Generator::new(1);
    let profile = if padded {
        Profile::Padded
    } else {
        Profile::Plain
    };
    let end = profile.end(Side::Client, 0, &mut generator);
    let opened = Socket::open_end(connect(relay), end, &mut generator);
    opened.expect("an opening").expect("an open link")
}

/// The next connection of the relay to a publisher, with this end, opened as
/// far as it goes.
pub fn accept(listener: &TcpListener, end: OtherEnd) -> Option<Socket> {
    let (stream, _) = listener.accept().expect("a connection");
    let opened = Socket::open_end(stream, end, &mut Generator::new(1));
    opened.expect("an opening, or its end")
}

/// A publisher whose link is open.
pub fn publisher(listener: &TcpListener) -> Socket {
    open_publisher(listener, false)
}

pub fn padded_publisher(listener: &TcpListener) -> Socket {
    open_publisher(listener, true)
}

fn open_publisher(listener: &TcpListener, padded: bool) -> Socket {
    let end = OtherEnd::with_padded(Side::Server, true, padded);
    let mut socket = accept(listener, end).expect("an open link");
    // Now the relay has our Handshake too.
    assert_eq!(all_before_pong(&mut socket), []);
    socket
}

pub fn flush(socket: &mut Socket) {
    socket.flush(&mut Generator::new(1));
}

/// What comes, until it is enough; the relay must not end the connection.
fn take(socket: &mut Socket, is_enough: impl Fn(&[Got]) -> bool) -> Vec<Got> {
    let deadline = Instant::now() + PATIENCE;
    let mut got = Vec::new();
    while !is_enough(&got) {
        flush(socket);
        got.extend(socket.pump().expect("what may be received"));
        assert!(
            !socket.ended,
            "the relay ended the connection after {got:?}"
        );
        assert!(Instant::now() < deadline, "only {got:?} came");
    }
    got
}

fn message(got: Got) -> Heard {
    match got {
        Got::Message(message) => message,
        Got::Pong => panic!("a Pong that was not awaited"),
    }
}

/// Exactly so many messages; more must not have come with them.
pub fn messages(socket: &mut Socket, count: usize) -> Vec<Heard> {
    let got = take(socket, |got| got.len() >= count);
    assert_eq!(got.len(), count, "{got:?}");
    got.into_iter().map(message).collect()
}

/// The first message that comes to one of two ends.
pub fn messages_of_two(one: &mut Socket, other: &mut Socket) -> (Option<Heard>, Option<Heard>) {
    let deadline = Instant::now() + PATIENCE;
    while Instant::now() < deadline {
        let [mut first, mut second] = [&mut *one, &mut *other].map(|socket| {
            flush(socket);
            socket.pump().expect("what may be received")
        });
        assert!(first.len() + second.len() < 2, "{first:?}, {second:?}");
        let got = (first.pop().map(message), second.pop().map(message));
        if got != (None, None) {
            return got;
        }
    }
    (None, None)
}

/// The messages that come before the Pong to a Ping: whatever the relay sent
/// before it saw the Ping.
pub fn all_before_pong(socket: &mut Socket) -> Vec<Heard> {
    socket.end.send(Outgoing::Ping(7));
    let mut got = take(socket, |got| got.last() == Some(&Got::Pong));
    got.pop();
    got.into_iter().map(message).collect()
}

/// The messages that come before the relay ends the connection.
pub fn all_before_end(socket: &mut Socket) -> Vec<Heard> {
    let deadline = Instant::now() + PATIENCE;
    let mut got = Vec::new();
    flush(socket);
    while !socket.ended {
        got.extend(socket.pump().expect("what may be received"));
        assert!(Instant::now() < deadline, "no end, only {got:?}");
    }
    got.into_iter().map(message).collect()
}

pub fn ask(socket: &mut Socket, number: i64, publisher: i64, payload: &[u8]) {
    socket.end.send_message(Message::Invoke(Invoke {
        number,
        actor: Some(publisher),
        timeout: None,
        tl2: false,
        payload,
    }));
    flush(socket);
}

pub fn answer(socket: &mut Socket, number: i64, payload: &[u8]) {
    let outcome = Outcome::Payload(payload);
    socket.end.send_message(Message::Result(number, outcome));
    flush(socket);
}

/// The number and payload of a request.
pub fn asked(message: Heard) -> (i64, Vec<u8>) {
    match message {
        Message::Invoke(invoke) => (invoke.number, invoke.payload),
        other => panic!("no request: {other:?}"),
    }
}

/// The number and code of an error, and its number alone for a page.
pub fn code(message: &Heard) -> (i64, Option<i32>) {
    match message {
        Message::Result(number, Outcome::Error(code, _)) => (*number, Some(*code)),
        Message::Result(number, Outcome::Payload(_)) => (*number, None),
        other => panic!("no result: {other:?}"),
    }
}
