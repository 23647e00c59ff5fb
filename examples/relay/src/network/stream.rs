//! The two threads of one connection: what they read goes to the core's
//! thread, and what that one queues is written.

use super::Input;
use crate::event::Peer;
use std::io::{ErrorKind, Read, Write};
use std::net::{Shutdown, TcpStream};
use std::sync::atomic::{AtomicUsize, Ordering};
use std::sync::mpsc::{channel, Receiver, Sender, SyncSender};
use std::sync::Arc;
use std::time::Duration;
use std::{io, thread};

const CHUNK: usize = 65_536;
const WRITE_TIMEOUT: Duration = Duration::from_secs(10);

/// The most bytes that may wait for a peer: two of the longest packets, with
/// the zero and the words that may stand behind each on a padded link.
const MOST_QUEUED: usize = 2 * (16_777_215 + 1 + 12);

/// Who reads or writes, and whom it tells.
#[derive(Clone)]
pub struct Owner {
    pub peer: Peer,
    pub serial: u64,
    pub inputs: SyncSender<Input>,
}

/// Reads until the connection ends.
pub fn read(mut stream: &TcpStream, owner: &Owner) {
    let (peer, serial) = (owner.peer, owner.serial);
    let mut chunk = vec![0; CHUNK];
    loop {
        let read = stream.read(&mut chunk);
        let bytes = match &read {
            Ok(0) => break,
            Ok(count) => chunk[..*count].to_vec(),
            Err(error) if error.kind() == ErrorKind::Interrupted => continue,
            Err(_) => break,
        };
        if owner
            .inputs
            .send(Input::Bytes(peer, serial, bytes))
            .is_err()
        {
            return;
        }
    }
    // Fails only if the core's thread has ended.
    let _ = owner.inputs.send(Input::Closed(peer, serial));
}

pub fn spawn_reader(stream: &Arc<TcpStream>, owner: Owner) -> io::Result<()> {
    let stream = Arc::clone(stream);
    let reader = thread::Builder::new();
    reader.spawn(move || read(&stream, &owner))?;
    Ok(())
}

/// The packets that wait for a peer. Once it is dropped, they are still
/// written, and then the connection is shut down.
pub struct Queue {
    packets: Sender<Vec<u8>>,
    /// The bytes of all packets that are not wholly written.
    queued: Arc<AtomicUsize>,
}

impl Queue {
    pub fn is_empty(&self) -> bool {
        self.queued.load(Ordering::Relaxed) == 0
    }

    pub fn has_room(&self, length: usize) -> bool {
        self.queued.load(Ordering::Relaxed) + length <= MOST_QUEUED
    }

    /// If it cannot be written, the connection ends, as its writer tells.
    pub fn send(&self, packet: Vec<u8>) {
        self.queued.fetch_add(packet.len(), Ordering::Relaxed);
        let _ = self.packets.send(packet);
    }
}

pub fn spawn_writer(stream: &Arc<TcpStream>, owner: Owner) -> io::Result<Queue> {
    stream.set_nodelay(true)?;
    stream.set_write_timeout(Some(WRITE_TIMEOUT))?;
    let stream = Arc::clone(stream);
    let (sender, packets) = channel();
    let queued = Arc::new(AtomicUsize::new(0));
    let written = Arc::clone(&queued);
    let writer = thread::Builder::new();
    writer.spawn(move || {
        write(&stream, packets, &written);
        // Told first: a peer that sees the end finds its link free.
        let _ = owner.inputs.send(Input::Written(owner.peer, owner.serial));
        // Of a connection that has ended already, this is refused.
        let _ = stream.shutdown(Shutdown::Both);
    })?;
    Ok(Queue {
        packets: sender,
        queued,
    })
}

fn write(mut stream: &TcpStream, packets: Receiver<Vec<u8>>, queued: &AtomicUsize) {
    for packet in packets {
        if stream.write_all(&packet).is_err() {
            return;
        }
        queued.fetch_sub(packet.len(), Ordering::Relaxed);
    }
}
