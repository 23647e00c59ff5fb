//! Tells the core what happened and which time is over, and does what it wants.

use super::beat::Beat;
use super::connection::Connection;
use super::printer::Printer;
use super::stream::{spawn_reader, spawn_writer, Owner};
use super::{Input, Options};
use crate::card::CardKind;
use crate::core::Core;
use crate::event::{Action, Event, Now, Opening, Peer};
use relay::{NetPid, LINKS};
use std::collections::hash_map::{Entry, HashMap};
use std::collections::VecDeque;
use std::fs::File;
use std::io::{self, Read, Write};
use std::net::{IpAddr, Shutdown, SocketAddr, TcpStream};
use std::num::NonZeroU32;
use std::sync::mpsc::SyncSender;
use std::sync::Arc;
use std::time::{Duration, Instant, SystemTime, UNIX_EPOCH};

pub struct Server {
    core: Core,
    card: Option<CardKind>,
    connections: HashMap<Peer, Connection>,
    inputs: SyncSender<Input>,
    next_serial: u64,
    random: File,
    warnings: Printer,
    /// By either clock.
    start: u32,
    started: Instant,
    keep_alive: Beat,
    /// For requests that have run out, if they do.
    looks: Option<Beat>,
    opening: Duration,
}

impl Server {
    pub fn new(options: &Options, inputs: SyncSender<Input>) -> io::Result<Server> {
        let publishers = options.publishers.each_ref();
        let publishers = publishers.map(|publisher| publisher.link.clone());
        let started = Instant::now();
        let of_timeout = |timeout: NonZeroU32| Beat::of_timeout(timeout.get(), started);
        Ok(Server {
            core: Core::new(options.front.clone(), publishers, options.request),
            card: options.card,
            connections: HashMap::new(),
            inputs,
            next_serial: 0,
            random: File::open("/dev/urandom")?,
            warnings: Printer::new(io::stderr())?,
            start: clock(),
            started,
            keep_alive: Beat::new(options.keep_alive, started),
            looks: options.request.map(of_timeout),
            opening: options.opening,
        })
    }

    pub fn next_deadline(&self) -> Instant {
        let deadlines = self.connections.values().filter_map(Connection::deadline);
        let looks = self.looks.iter().map(|looks| looks.next);
        deadlines
            .chain(looks)
            .fold(self.keep_alive.next, Instant::min)
    }

    /// Deals with all deadlines that are over.
    pub fn expire(&mut self, now: Instant) {
        if self.keep_alive.is_due(now) {
            self.tell(Event::Tick);
        }
        if self.looks.as_mut().is_some_and(|looks| looks.is_due(now)) {
            self.tell(Event::RunOut);
        }
        while let Some((peer, connection)) = self.overdue(now) {
            if connection.expire() {
                self.tell(Event::OpeningOver(peer));
            }
        }
    }

    fn overdue(&mut self, now: Instant) -> Option<(Peer, &mut Connection)> {
        let is_over = |connection: &Connection| connection.deadline().is_some_and(|at| at <= now);
        let mut connections = self.connections.iter_mut();
        let (peer, connection) = connections.find(|(_, connection)| is_over(connection))?;
        Some((*peer, connection))
    }

    pub fn handle(&mut self, input: Input) {
        match input {
            Input::Accepted(stream) => self.accepted(stream),
            Input::Connected(publisher, serial, stream) => {
                self.connected(Peer::Publisher(publisher), serial, &stream);
            }
            Input::Bytes(peer, serial, bytes) if self.is_live(peer, serial) => {
                self.tell(Event::Bytes(peer, &bytes));
            }
            Input::Closed(peer, serial) if self.is_live(peer, serial) => {
                self.drop_connection(peer);
                self.tell(Event::Closed(peer));
            }
            Input::Bytes(..) | Input::Closed(..) => {}
            Input::Written(peer, serial) => self.written(peer, serial),
            Input::Report => {
                // The relay goes on if nobody reads its output.
                let _ = writeln!(io::stdout(), "{}", self.core.counts());
            }
        }
    }

    /// The connection of a peer, if it is still this one.
    fn current(&self, peer: Peer, serial: u64) -> Option<&Connection> {
        let connection = self.connections.get(&peer);
        connection.filter(|connection| connection.serial == serial)
    }

    fn is_live(&self, peer: Peer, serial: u64) -> bool {
        self.current(peer, serial).is_some_and(Connection::is_live)
    }

    /// A connection is over, and its link is free again.
    fn written(&mut self, peer: Peer, serial: u64) {
        let Some(connection) = self.current(peer, serial) else {
            return;
        };
        // It was not dropped: what it was sent could not be written.
        let failed = connection.is_live();
        self.connections.remove(&peer);
        if failed {
            self.tell(Event::Closed(peer));
        }
    }

    /// A front end gets the lowest free link; without one it is turned away.
    fn accepted(&mut self, stream: TcpStream) {
        let mut fronts = (0..LINKS).map(Peer::Front);
        let Some(peer) = fronts.find(|front| !self.connections.contains_key(front)) else {
            return self.tell(Event::TurnedAway);
        };
        let serial = self.next_serial;
        self.next_serial += 1;
        self.connected(peer, serial, &Arc::new(stream));
    }

    fn connected(&mut self, peer: Peer, serial: u64, stream: &Arc<TcpStream>) {
        match self.set_up(peer, serial, stream) {
            Ok((connection, opening)) => {
                // An earlier one of a publisher may still be written.
                if let Some(mut earlier) = self.connections.insert(peer, connection) {
                    earlier.shut();
                }
                self.tell(Event::Connected(peer, opening));
            }
            Err(_) => {
                // Its reader sees the end then.
                let _ = stream.shutdown(Shutdown::Both);
                self.tell(Event::TurnedAway);
            }
        }
    }

    /// A publisher's reader is the thread that connected to it.
    fn set_up(
        &mut self,
        peer: Peer,
        serial: u64,
        stream: &Arc<TcpStream>,
    ) -> io::Result<(Connection, Opening)> {
        let opening = self.opening(peer, stream)?;
        let owner = Owner {
            peer,
            serial,
            inputs: self.inputs.clone(),
        };
        if let Peer::Front(_) = peer {
            spawn_reader(stream, owner.clone())?;
        }
        let queue = spawn_writer(stream, owner)?;
        let opened_by = Instant::now() + self.opening;
        let connection = Connection::new(serial, Arc::clone(stream), queue, opened_by);
        Ok((connection, opening))
    }

    fn opening(&mut self, peer: Peer, stream: &TcpStream) -> io::Result<Opening> {
        let (mut random, mut for_card) = ([0; 16], [0; 32]);
        self.random.read_exact(&mut random)?;
        self.random.read_exact(&mut for_card)?;
        let kind = self.card.filter(|_| self.core.may_cipher(peer));
        let card = kind.map(|kind| kind.card(for_card)).transpose()?;
        let (own, peer) = (stream.local_addr()?, stream.peer_addr()?);
        let pid = std::process::id() as u16;
        Ok(Opening {
            random,
            own: net_pid(own, pid, self.start),
            // Of a peer only the address is known.
            peer: net_pid(peer, 0, 0),
            card,
        })
    }

    /// What giving up a connection leads to comes after what was wanted before.
    fn tell(&mut self, event: Event) {
        let mut actions = VecDeque::from(self.core.handle(event, self.now()));
        while let Some(action) = actions.pop_front() {
            match action {
                Action::Send(peer, packet) => {
                    let connection = self.connections.get_mut(&peer);
                    if connection.is_some_and(|connection| connection.send(packet).is_err()) {
                        actions.extend(self.core.handle(Event::Slow(peer), self.now()));
                    }
                }
                Action::Close(peer) => self.drop_connection(peer),
                Action::Warn(peer, warning) => {
                    self.warnings.print(format!("relay: {peer}: {warning}"));
                }
            }
        }
    }

    fn now(&self) -> Now {
        Now {
            seconds: clock(),
            ms: self.started.elapsed().as_millis() as u64,
        }
    }

    /// Its link is free at once if nothing waits for its peer.
    fn drop_connection(&mut self, peer: Peer) {
        if let Entry::Occupied(mut entry) = self.connections.entry(peer) {
            if entry.get().is_idle() {
                entry.remove();
            } else {
                let patience = self.keep_alive.interval;
                entry.get_mut().drop_by(Instant::now() + patience);
            }
        }
    }
}

fn net_pid(address: SocketAddr, pid: u16, start: u32) -> NetPid {
    let ip = match address.ip() {
        IpAddr::V4(ip) => u32::from(ip),
        // A listener on [::] sees IPv4 so.
        IpAddr::V6(ip) => ip.to_ipv4_mapped().map_or(0, u32::from),
    };
    NetPid {
        ip,
        port: address.port(),
        pid,
        start,
    }
}

/// Seconds since 1970.
fn clock() -> u32 {
    let since = SystemTime::now().duration_since(UNIX_EPOCH);
    since.map_or(0, |duration| duration.as_secs() as u32)
}

#[cfg(test)]
mod tests {
    use super::*;

    #[test]
    fn an_ipv4_address_is_the_same_in_both_forms() {
        let ip = |address: &str| net_pid(address.parse().unwrap(), 0, 0).ip;
        assert_eq!(ip("1.2.3.4:5"), 0x0102_0304);
        assert_eq!(ip("[::ffff:1.2.3.4]:5"), 0x0102_0304);
        for other in ["[::1]:5", "[::1.2.3.4]:5", "[2001:db8::ffff:102:304]:5"] {
            assert_eq!(ip(other), 0, "{other}");
        }
    }
}
