//! A publisher: answers in any order, late, twice or never, breaks its
//! connection and comes back, and checks everything that it gets.

use crate::other_end::Got;
use crate::profile::Profile;
use crate::request::Request;
use crate::socket::Socket;
use crate::tally::Tally;
use reference::generator::Generator;
use reference::link::Outgoing;
use reference::message::{Invoke, Message, Side};
use std::collections::{BTreeMap, BTreeSet};
use std::net::{SocketAddr, TcpListener, TcpStream};
use std::sync::atomic::{AtomicBool, Ordering};
use std::thread;
use std::time::{Duration, Instant};

const LARGEST_LOAD: usize = 16;
const FIN_PATIENCE: Duration = Duration::from_secs(5);

pub struct Publisher {
    pub publisher: u8,
    /// How its link is, and the lowest version there.
    profile: Profile,
    lowest: u8,
    address: SocketAddr,
    listener: Option<TcpListener>,
    pub generator: Generator,
    /// The largest number so far: they only grow, over all connections.
    last_number: i64,
    /// All requests that ever came, by front end and serial.
    requests: BTreeSet<(u8, u64)>,
    /// Requests of earlier connections, to be answered too late.
    pub old: Vec<(i64, Vec<u8>)>,
    pub tally: Tally,
}

/// A request that is not answered yet.
pub struct Open {
    pub payload: Vec<u8>,
    /// Never, if none.
    pub due: Option<Instant>,
}

pub struct Life {
    pub socket: Socket,
    pub open: BTreeMap<i64, Open>,
    /// Numbers that came over this connection and were not cancelled.
    seen: BTreeSet<i64>,
    pinged: bool,
    /// The relay's fin came.
    finished: bool,
}

impl Publisher {
    pub fn new(publisher: u8, profile: Profile, lowest: u8, seed: u64) -> Publisher {
        let listener = TcpListener::bind("127.0.0.1:0").expect("a port of the system");
        Publisher {
            publisher,
            profile,
            lowest,
            address: listener.local_addr().expect("its address"),
            listener: Some(listener),
            generator: Generator::new(seed ^ u64::from(publisher) << 40),
            last_number: 0,
            requests: BTreeSet::new(),
            old: Vec::new(),
            tally: Tally::default(),
        }
    }

    /// Its word on the relay's command line.
    pub fn word(&self) -> String {
        let Publisher {
            address, lowest, ..
        } = self;
        format!("{address},lowest={lowest}{}", self.profile.word())
    }

    /// Plays until `done`; hands back its counts, or the first fault.
    pub fn play(mut self, done: &AtomicBool, deadline: Instant) -> Result<Tally, String> {
        let is_over = || done.load(Ordering::Relaxed) || Instant::now() > deadline;
        let played = self.lives(is_over);
        played.map_err(|fault| format!("publisher {}: {fault}", self.publisher))?;
        Ok(self.tally)
    }

    fn lives(&mut self, is_over: impl Fn() -> bool) -> Result<(), String> {
        while !is_over() {
            let Some(mut life) = self.connect()? else {
                continue;
            };
            self.answer_old(&mut life);
            let length = Duration::from_millis(500 + self.generator.below(2500));
            let end = Instant::now() + length;
            while Instant::now() < end && !is_over() {
                self.step(&mut life)?;
                if life.socket.ended {
                    return Err("the relay ended the connection".to_string());
                }
            }
            self.end(life)?;
        }
        Ok(())
    }

    /// The next connection of the relay, if one is there.
    fn connect(&mut self) -> Result<Option<Life>, String> {
        let Some(stream) = self.accept() else {
            thread::sleep(Duration::from_millis(5));
            return Ok(None);
        };
        // None if the relay has given it up while nobody accepted it.
        let end = self
            .profile
            .end(Side::Server, self.lowest, &mut self.generator);
        let socket = Socket::open_end(stream, end, &mut self.generator)?;
        Ok(socket.map(|socket| Life {
            socket,
            open: BTreeMap::new(),
            seen: BTreeSet::new(),
            pinged: false,
            finished: false,
        }))
    }

    /// After a restart the port is bound again.
    fn accept(&mut self) -> Option<TcpStream> {
        if self.listener.is_none() {
            self.listener = TcpListener::bind(self.address).ok();
        }
        let listener = self.listener.as_ref()?;
        listener.set_nonblocking(true).ok()?;
        listener.accept().ok().map(|(stream, _)| stream)
    }

    fn step(&mut self, life: &mut Life) -> Result<(), String> {
        self.answer_due(life);
        match self.generator.below(200) {
            0 | 1 if !life.pinged => {
                life.pinged = true;
                life.socket.end.send(Outgoing::Ping(self.generator.draw()));
            }
            2 => {
                // A number that was never asked.
                self.answer(life, i64::MAX - 7, b"nobody");
                self.answer(life, -3, b"nobody");
            }
            _ => {}
        }
        life.socket.flush_or_not(&mut self.generator);
        for got in life.socket.pump()? {
            match got {
                Got::Pong => {
                    life.pinged = false;
                    self.tally.add("pongs to publishers", 1);
                }
                Got::Message(Message::Invoke(invoke)) => self.asked(life, invoke)?,
                Got::Message(Message::Cancel(number)) => self.cancelled(life, number)?,
                Got::Message(Message::ClientFin) => life.finished = true,
                Got::Message(other) => return Err(format!("got {other:?}")),
            }
        }
        Ok(())
    }

    fn asked(&mut self, life: &mut Life, invoke: Invoke<Vec<u8>>) -> Result<(), String> {
        let number = invoke.number;
        if life.finished {
            return Err(format!("request {number} after the relay's fin"));
        }
        if number <= self.last_number {
            return Err(format!("number {number} after {}", self.last_number));
        }
        let Some(request) = Request::read(&invoke) else {
            return Err(format!("request {number} is not what was asked"));
        };
        if request.publisher() != self.publisher {
            return Err(format!("another publisher's request: {request:?}"));
        }
        if !self.requests.insert((request.front, request.serial)) {
            return Err(format!("asked twice: {request:?}"));
        }
        self.last_number = number;
        self.tally.add("asked of publishers", 1);
        let delay = match self.generator.below(100) {
            0..=29 => Some(0),
            30..=89 => Some(self.generator.below(40)),
            90..=95 => Some(100 + self.generator.below(300)),
            _ => None,
        };
        let open = Open {
            payload: invoke.payload,
            due: delay.map(|ms| Instant::now() + Duration::from_millis(ms)),
        };
        life.seen.insert(number);
        life.open.insert(number, open);
        if life.open.len() > LARGEST_LOAD {
            return Err(format!("{} requests open at once", life.open.len()));
        }
        Ok(())
    }

    /// It may cross our answer, but names what came over this connection, once.
    fn cancelled(&mut self, life: &mut Life, number: i64) -> Result<(), String> {
        if !life.seen.remove(&number) {
            return Err(format!("a cancel of {number}, which was not open here"));
        }
        self.tally.add("cancels at publishers", 1);
        if let Some(open) = life.open.remove(&number) {
            if self.generator.below(3) == 0 {
                self.tally.add("answers after cancel", 1);
                self.answer(life, number, &open.payload);
            }
        }
        Ok(())
    }

    /// The connection breaks, or the whole publisher restarts, or it finishes.
    fn end(&mut self, mut life: Life) -> Result<(), String> {
        match self.generator.below(3) {
            0 => self.tally.add("publisher disconnects", 1),
            1 => {
                self.tally.add("publisher restarts", 1);
                self.listener = None;
            }
            _ => self.finish(&mut life)?,
        }
        self.tally.add("cut writes", life.socket.cut_writes);
        self.tally
            .add("relay pings answered", life.socket.end.answered_pings);
        let left = life.open.into_iter();
        self.old = left.map(|(number, open)| (number, open.payload)).collect();
        life.socket.drop_now();
        thread::sleep(Duration::from_millis(self.generator.below(150)));
        Ok(())
    }

    /// After a fin everything is answered; then the relay ends the connection.
    fn finish(&mut self, life: &mut Life) -> Result<(), String> {
        self.tally.add("publisher fins", 1);
        life.socket.end.send_message(Message::ServerFin);
        let deadline = Instant::now() + FIN_PATIENCE;
        while !life.socket.ended {
            if life.finished {
                for open in life.open.values_mut() {
                    open.due = Some(Instant::now());
                }
            }
            self.step(life)?;
            if Instant::now() > deadline {
                return Err("a fin does not end the connection".to_string());
            }
        }
        life.socket.check_end()
    }
}
