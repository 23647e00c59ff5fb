//! How connections come about: front ends connect to us, and a thread for each
//! publisher connects to it, again and again.

use super::stream::{self, Owner};
use super::Input;
use crate::event::Peer;
use std::io;
use std::net::{SocketAddr, TcpListener, TcpStream};
use std::sync::mpsc::SyncSender;
use std::sync::Arc;
use std::thread;
use std::time::Duration;

const CONNECT_TIMEOUT: Duration = Duration::from_secs(2);
const ACCEPT_PAUSE: Duration = Duration::from_millis(20);

pub fn accept(listener: &TcpListener, inputs: &SyncSender<Input>) {
    loop {
        match listener.accept() {
            Ok((stream, _)) => {
                if inputs.send(Input::Accepted(stream)).is_err() {
                    return;
                }
            }
            // Out of descriptors, or a front end that left already.
            Err(_) => thread::sleep(ACCEPT_PAUSE),
        }
    }
}

/// Connects to a publisher and reads from it; when that ends, or cannot be
/// had, waits for `retry` and begins again. It never gives up, since a
/// publisher may come back after any time, but never tries faster than that.
pub fn keep_connected(
    publisher: u8,
    address: SocketAddr,
    retry: Duration,
    inputs: &SyncSender<Input>,
) {
    for serial in 0.. {
        if let Ok(stream) = connect(address) {
            let stream = Arc::new(stream);
            let connected = Input::Connected(publisher, serial, Arc::clone(&stream));
            if inputs.send(connected).is_err() {
                return;
            }
            let owner = Owner {
                peer: Peer::Publisher(publisher),
                serial,
                inputs: inputs.clone(),
            };
            stream::read(&stream, &owner);
        }
        thread::sleep(retry);
    }
}

fn connect(address: SocketAddr) -> io::Result<TcpStream> {
    let stream = TcpStream::connect_timeout(&address, CONNECT_TIMEOUT)?;
    // On one machine, with nobody listening, a socket can meet itself.
    if stream.local_addr()? == stream.peer_addr()? {
        return Err(io::ErrorKind::ConnectionRefused.into());
    }
    Ok(stream)
}
