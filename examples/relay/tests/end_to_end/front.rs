//! A front end: asks, cancels, pings, breaks its connection and comes back,
//! and checks everything that it gets.

use crate::claims::{Claim, Claims};
use crate::other_end::Got;
use crate::profile::Profile;
use crate::socket::Socket;
use crate::tally::Tally;
use reference::generator::Generator;
use reference::message::{Message, Side};
use std::net::{SocketAddr, TcpStream};
use std::thread;
use std::time::{Duration, Instant};

/// Requests of one front end, over all its connections.
const REQUESTS: u64 = 600;
/// A request that is unanswered for so long is cancelled.
const PATIENCE: Duration = Duration::from_millis(1500);

/// How a connection ends.
#[derive(Clone, Copy, PartialEq, Eq)]
enum Ending {
    /// At once, whatever is open.
    Dropped,
    /// By a packet that the relay must refuse; the relay ends it.
    Broken,
    /// By a request under a number in flight; the relay ends it.
    Repeated,
    /// After a fin and the last answer.
    Finished,
}

const ENDINGS: [Ending; 4] = [
    Ending::Dropped,
    Ending::Broken,
    Ending::Repeated,
    Ending::Finished,
];

pub struct Front {
    pub front: u8,
    /// How its link is.
    profile: Profile,
    pub life: u32,
    pub next_serial: u64,
    pub generator: Generator,
    pub tally: Tally,
}

/// One connection of a front end.
pub struct Life {
    pub socket: Socket,
    pub claims: Claims,
    /// Cancels sent, as number and serial: not yet covered by a Ping, and
    /// covered by the Ping that is out.
    pub cancels: Vec<(i64, u64)>,
    pub awaited: Option<Vec<(i64, u64)>>,
    /// How many requests are to be open at a time.
    pub wanted: usize,
}

/// Plays front end `front`; hands back its counts, or the first fault.
pub fn play(
    front: u8,
    profile: Profile,
    relay: SocketAddr,
    seed: u64,
    deadline: Instant,
) -> Result<Tally, String> {
    let mut player = Front {
        front,
        profile,
        life: 0,
        next_serial: 0,
        generator: Generator::new(seed ^ u64::from(front) << 32),
        tally: Tally::default(),
    };
    let played = player.play(relay, deadline);
    let fault = |fault| format!("front end {front}, connection {}: {fault}", player.life);
    played.map_err(fault)?;
    Ok(player.tally)
}

impl Front {
    fn play(&mut self, relay: SocketAddr, deadline: Instant) -> Result<(), String> {
        while self.next_serial < REQUESTS {
            self.life += 1;
            let mut life = self.connect(relay, deadline)?;
            let until = (self.next_serial + 20 + self.generator.below(100)).min(REQUESTS);
            while self.next_serial < until {
                for _ in 0..=self.generator.below(4) {
                    self.act(&mut life, until);
                }
                self.step(&mut life, deadline)?;
            }
            match self.generator.pick(&ENDINGS) {
                _ if until == REQUESTS => self.finish(life, deadline)?,
                Ending::Dropped => self.drop(life),
                Ending::Broken => self.break_off(life, deadline)?,
                Ending::Repeated => self.repeat(life, deadline)?,
                Ending::Finished => self.finish(life, deadline)?,
            }
        }
        Ok(())
    }

    /// The relay turns a connection away while it still counts the last one.
    fn connect(&mut self, relay: SocketAddr, deadline: Instant) -> Result<Life, String> {
        while Instant::now() < deadline {
            let stream = TcpStream::connect(relay).map_err(|error| format!("connect: {error}"))?;
            let end = self.profile.end(Side::Client, 0, &mut self.generator);
            let opened = Socket::open_end(stream, end, &mut self.generator);
            if let Some(socket) = opened? {
                self.tally.add("connections", 1);
                // Some want more than their share, so that the table is full.
                let wanted = match self.front % 8 {
                    0 => 10,
                    _ => 1 + self.generator.below(3),
                };
                return Ok(Life {
                    socket,
                    claims: Claims::default(),
                    cancels: Vec::new(),
                    awaited: None,
                    wanted: wanted as usize,
                });
            }
            self.tally.add("turned away", 1);
            thread::sleep(Duration::from_millis(10));
        }
        Err("no connection in time".to_string())
    }

    /// Writes what is to go out and takes in what came. The relay must not end
    /// the connection.
    fn step(&mut self, life: &mut Life, deadline: Instant) -> Result<(), String> {
        self.turn(life, deadline)?;
        if life.socket.ended {
            return Err("the relay ended the connection".to_string());
        }
        Ok(())
    }

    /// The same, where the relay may end it.
    fn turn(&mut self, life: &mut Life, deadline: Instant) -> Result<(), String> {
        for number in life.claims.single() {
            let is_old = |claim: &mut Claim| claim.since.elapsed() > PATIENCE;
            if life.claims.get(number).is_some_and(is_old) {
                self.tally.add("waited for too long", 1);
                self.cancel(life, number);
            }
        }
        if !life.cancels.is_empty() && self.generator.below(4) == 0 {
            self.ping(life);
        }
        life.socket.flush_or_not(&mut self.generator);
        for got in life.socket.pump()? {
            self.got(life, got)?;
        }
        if Instant::now() > deadline {
            return Err(format!("not done in time, {} open", life.claims.count()));
        }
        Ok(())
    }

    fn got(&mut self, life: &mut Life, got: Got) -> Result<(), String> {
        match got {
            Got::Pong => {
                self.tally.add("pongs to front ends", 1);
                for (number, serial) in life.awaited.take().unwrap_or_default() {
                    if life.claims.gone(number, serial) {
                        self.tally.add("cancelled", 1);
                    }
                }
            }
            Got::Message(Message::Result(number, outcome)) => {
                let (name, cancelled) = life.claims.ended(number, &outcome)?;
                self.tally.add(name, 1);
                if cancelled {
                    self.tally.add("answered despite cancel", 1);
                }
            }
            Got::Message(other) => return Err(format!("got {other:?}")),
        }
        Ok(())
    }

    /// Whatever is open ends with the link.
    fn close(&mut self, life: Life, name: &str) {
        self.tally.add(name, 1);
        self.tally
            .add("closed with link", life.claims.count() as u64);
        self.tally.add("cut writes", life.socket.cut_writes);
        self.tally
            .add("relay pings answered", life.socket.end.answered_pings);
        life.socket.drop_now();
    }

    /// Half a packet may be the last that the relay gets.
    fn drop(&mut self, mut life: Life) {
        if self.generator.below(2) == 0 {
            let output = &mut life.socket.end.output;
            let before = output.len();
            life.socket.end.send_message(Message::Cancel(1));
            life.socket.end.output.truncate(before + 13);
            life.socket.write_out(&mut self.generator);
        }
        self.close(life, "link dropped");
    }

    /// A wrong checksum; the relay is to end the connection.
    fn break_off(&mut self, mut life: Life, deadline: Instant) -> Result<(), String> {
        life.socket.end.send_message(Message::Cancel(1));
        if let Some(last) = life.socket.end.output.last_mut() {
            *last ^= 0x10;
        }
        life.socket.flush(&mut self.generator);
        while !life.socket.ended {
            for got in life.socket.pump()? {
                self.got(&mut life, got)?;
            }
            if Instant::now() > deadline {
                return Err("a broken packet does not end the connection".to_string());
            }
        }
        self.close(life, "link broken");
        Ok(())
    }

    /// A second request under a number in flight, one that can be read or not.
    /// The relay ends the connection, and nothing comes under that number; or
    /// the first was answered before the relay saw the second, and all goes on.
    fn repeat(&mut self, mut life: Life, deadline: Instant) -> Result<(), String> {
        let Some(&number) = life.claims.single().first() else {
            self.drop(life);
            return Ok(());
        };
        match self.generator.below(3) {
            0 => self.ask_unreadable(&mut life, number),
            _ => self.ask(&mut life, number),
        }
        while life.claims.has_two(number) && !life.socket.ended {
            self.turn(&mut life, deadline)?;
        }
        if life.claims.has_two(number) {
            life.socket.check_end()?;
            self.close(life, "link repeated");
            return Ok(());
        }
        self.tally.add("answered before repeated", 1);
        self.finish(life, deadline)
    }

    /// No more requests; the last answers are waited for.
    fn finish(&mut self, mut life: Life, deadline: Instant) -> Result<(), String> {
        life.socket.end.send_message(Message::ClientFin);
        let is_busy = |life: &Life| life.claims.count() > 0 || life.awaited.is_some();
        while is_busy(&life) || life.socket.end.past_blocks() > 0 {
            self.step(&mut life, deadline)?;
        }
        self.close(life, "link finished");
        Ok(())
    }
}
