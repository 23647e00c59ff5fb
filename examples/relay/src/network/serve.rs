//! Starts the threads, and is itself the core's.

use super::server::Server;
use super::{connect, Input};
use crate::card::CardKind;
use crate::settings::LinkSettings;
use relay::PUBLISHERS;
use std::io;
use std::net::{SocketAddr, TcpListener};
use std::num::NonZeroU32;
use std::sync::mpsc::{sync_channel, Receiver, RecvTimeoutError, SyncSender};
use std::thread;
use std::time::{Duration, Instant};

/// Inputs that may wait for the core; then readers wait, and so do peers.
const INPUTS: usize = 256;

/// Where a publisher is, and how the link to it is set up.
#[derive(Clone, Debug)]
pub struct Publisher {
    pub address: SocketAddr,
    pub link: LinkSettings,
}

pub struct Options {
    /// Of the links to all front ends.
    pub front: LinkSettings,
    pub publishers: [Publisher; PUBLISHERS as usize],
    /// Between two attempts to reach a publisher.
    pub retry: Duration,
    /// The interval of the keep-alive, and how long a dropped connection has
    /// for what it was sent before.
    pub keep_alive: Duration,
    /// From a connection's start until its link must be open.
    pub opening: Duration,
    /// From a request's acceptance until it ends with an error, in milliseconds.
    pub request: Option<NonZeroU32>,
    /// Whose cards links that may cipher have; there is one if any link may.
    pub card: Option<CardKind>,
}

/// Runs the relay. Comes back only if it cannot be started. Each line on
/// standard input prints the counts.
pub fn serve(listener: TcpListener, options: &Options) -> io::Result<()> {
    let (inputs, queue) = sync_channel(INPUTS);
    let server = Server::new(options, inputs.clone())?;
    for (publisher, Publisher { address, .. }) in (0..).zip(&options.publishers) {
        let (address, retry, inputs) = (*address, options.retry, inputs.clone());
        thread::spawn(move || connect::keep_connected(publisher, address, retry, &inputs));
    }
    let reports = inputs.clone();
    thread::spawn(move || report(&reports));
    thread::spawn(move || connect::accept(&listener, &inputs));
    run(server, &queue);
    Ok(())
}

fn report(inputs: &SyncSender<Input>) {
    for _ in io::stdin().lines().map_while(Result::ok) {
        if inputs.send(Input::Report).is_err() {
            return;
        }
    }
}

/// Deadlines are looked at before each input, so that no flood of inputs
/// puts them off.
fn run(mut server: Server, queue: &Receiver<Input>) {
    loop {
        server.expire(Instant::now());
        let wait = server
            .next_deadline()
            .saturating_duration_since(Instant::now());
        match queue.recv_timeout(wait) {
            Ok(input) => server.handle(input),
            Err(RecvTimeoutError::Timeout) => {}
            Err(RecvTimeoutError::Disconnected) => return,
        }
    }
}
