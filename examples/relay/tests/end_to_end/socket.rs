//! A TCP connection to the relay with the second program's link at our end.
//! What is written is cut at random places.

use crate::other_end::{Got, OtherEnd};
use reference::generator::Generator;
use relay::{Address, Addresses};
use std::io::{self, ErrorKind, Read, Write};
use std::net::{Shutdown, SocketAddr, TcpStream};
use std::thread;
use std::time::{Duration, Instant};

const READ_TIMEOUT: Duration = Duration::from_millis(4);
const OPENING_TIMEOUT: Duration = Duration::from_secs(10);
/// After which nothing more of one batch comes, even on a busy machine.
const QUIET: Duration = Duration::from_secs(1);

pub struct Socket {
    stream: TcpStream,
    pub end: OtherEnd,
    chunk: Vec<u8>,
    /// The connection is over.
    pub ended: bool,
    /// The relay has ended it, and all that it wrote has come.
    saw_end: bool,
    /// When bytes came last.
    heard: Instant,
    pub cut_writes: u64,
}

impl Socket {
    /// Opens the link with this end; none if the other side ends the connection
    /// before.
    pub fn open_end(
        stream: TcpStream,
        end: OtherEnd,
        generator: &mut Generator,
    ) -> Result<Option<Socket>, String> {
        let set = stream
            .set_nodelay(true)
            .and_then(|()| stream.set_nonblocking(false))
            .and_then(|()| stream.set_read_timeout(Some(READ_TIMEOUT)));
        set.map_err(|error| format!("a socket's options: {error}"))?;
        let mut end = end;
        end.set_addresses(addresses(&stream));
        let mut socket = Socket {
            stream,
            end,
            chunk: vec![0; 32_768],
            ended: false,
            saw_end: false,
            heard: Instant::now(),
            cut_writes: 0,
        };
        let deadline = Instant::now() + OPENING_TIMEOUT;
        while !socket.end.open {
            socket.flush(generator);
            if !socket.pump()?.is_empty() {
                return Err("a message in the opening".to_string());
            }
            if socket.ended {
                return Ok(None);
            }
            if Instant::now() > deadline {
                return Err("the opening takes too long".to_string());
            }
        }
        socket.flush(generator);
        Ok(Some(socket))
    }

    /// What has come, after a short wait if there is nothing. On a padded link
    /// the relay goes quiet at a block's end only.
    pub fn pump(&mut self) -> Result<Vec<Got>, String> {
        match self.stream.read(&mut self.chunk) {
            Ok(0) => {
                self.ended = true;
                self.saw_end = true;
            }
            Ok(count) => {
                self.heard = Instant::now();
                return self.end.take_in(&self.chunk[..count]);
            }
            Err(error) if is_pause(&error) => {
                if self.heard.elapsed() > QUIET {
                    self.is_at_block_end("quiet")?;
                }
            }
            Err(_) => self.ended = true,
        }
        Ok(Vec::new())
    }

    fn is_at_block_end(&self, state: &str) -> Result<(), String> {
        match self.end.past_blocks() {
            0 => Ok(()),
            past => Err(format!("{state}, {past} bytes past a block's end")),
        }
    }

    /// Where the relay ended the connection though we have made no fault: that
    /// too was at a block's end.
    pub fn check_end(&self) -> Result<(), String> {
        match self.saw_end {
            true => self.is_at_block_end("ended"),
            // Some of it may not have come.
            false => Ok(()),
        }
    }

    /// Flushes the link, then writes.
    pub fn flush(&mut self, generator: &mut Generator) {
        self.end.flush();
        self.write_out(generator);
    }

    /// Without a cipher the relay reads a link that is not flushed too.
    pub fn flush_or_not(&mut self, generator: &mut Generator) {
        match generator.below(4) {
            0 => self.write_out(generator),
            _ => self.flush(generator),
        }
    }

    /// Writes what is to go out, whole or in parts.
    pub fn write_out(&mut self, generator: &mut Generator) {
        let output = self.end.take_output();
        let mut rest = &output[..];
        let mut parts = match generator.below(4) {
            0 | 1 => 1,
            2 => 2 + generator.below(3),
            // The first bytes one by one.
            _ => 1 + generator.below(40),
        };
        while !rest.is_empty() && !self.ended {
            let longest = if parts > 5 { 2 } else { rest.len() as u64 };
            let size = match parts {
                1 => rest.len(),
                _ => 1 + generator.below(longest) as usize,
            };
            let (part, after) = rest.split_at(size.min(rest.len()));
            if self.write(part).is_err() {
                self.ended = true;
            }
            if !after.is_empty() {
                self.cut_writes += 1;
                pause(generator);
            }
            rest = after;
            parts = (parts - 1).max(1);
        }
    }

    fn write(&mut self, part: &[u8]) -> io::Result<()> {
        self.stream.write_all(part)?;
        self.stream.flush()
    }

    /// The connection itself, for what is to be done without a link.
    pub fn stream(&mut self) -> &mut TcpStream {
        &mut self.stream
    }

    /// Ends the connection at once.
    pub fn drop_now(self) {
        let _ = self.stream.shutdown(Shutdown::Both);
    }
}

/// Of an end that has gone already they are not needed any more.
fn addresses(stream: &TcpStream) -> Addresses {
    let address = |address: io::Result<SocketAddr>| match address {
        Ok(SocketAddr::V4(address)) => Address {
            ip: u32::from(*address.ip()),
            port: address.port(),
        },
        _ => Address::default(),
    };
    Addresses {
        own: address(stream.local_addr()),
        peer: address(stream.peer_addr()),
    }
}

fn is_pause(error: &io::Error) -> bool {
    let kinds = [
        ErrorKind::WouldBlock,
        ErrorKind::TimedOut,
        ErrorKind::Interrupted,
    ];
    kinds.contains(&error.kind())
}

fn pause(generator: &mut Generator) {
    match generator.below(8) {
        0 => thread::sleep(Duration::from_micros(generator.below(500))),
        1 | 2 => thread::yield_now(),
        _ => {}
    }
}
