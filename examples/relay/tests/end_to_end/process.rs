//! The relay's program as a process of its own, ended with the test.

use crate::tally::Tally;
use std::fs;
use std::io::{BufRead, BufReader, Write};
use std::net::SocketAddr;
use std::process::{Child, ChildStderr, ChildStdin, ChildStdout, Command, Stdio};
use std::sync::mpsc::{channel, RecvTimeoutError, Sender};
use std::sync::{Arc, Mutex};
use std::thread;
use std::time::{Duration, Instant};

/// If even a test's own deadlines hang, all ends then.
const HARD_LIMIT: Duration = Duration::from_secs(55);

/// Every relay of this process, so that none outlives it.
static RELAYS: Mutex<Vec<Arc<Mutex<Child>>>> = Mutex::new(Vec::new());

/// What a process takes of the machine.
#[derive(Clone, Copy, Debug)]
pub struct Size {
    pub threads: u64,
    pub memory: u64,
}

pub struct RelayProcess {
    child: Arc<Mutex<Child>>,
    /// On standard error.
    said: Arc<Mutex<Vec<String>>>,
    _in_use: Sender<()>,
    pipes: Mutex<(ChildStdin, BufReader<ChildStdout>)>,
    address: SocketAddr,
}

impl RelayProcess {
    /// With these options, and eight words for the publishers. If its test still
    /// runs after the hard limit, this process ends, and all relays with it.
    pub fn start(options: &str, publishers: &[String]) -> RelayProcess {
        let mut child = spawn(options, publishers);
        let said = keep(child.stderr.take().expect("its errors"));
        RelayProcess::of(child, said)
    }

    /// The same, and nobody reads its standard error.
    pub fn start_unread(options: &str, publishers: &[String]) -> RelayProcess {
        RelayProcess::of(spawn(options, publishers), Arc::default())
    }

    fn of(mut child: Child, said: Arc<Mutex<Vec<String>>>) -> RelayProcess {
        let stdin = child.stdin.take().expect("its input");
        let mut stdout = BufReader::new(child.stdout.take().expect("its output"));
        let child = Arc::new(Mutex::new(child));
        RELAYS.lock().expect("the relays").push(Arc::clone(&child));
        let in_use = limit_use();
        let line = line(&mut stdout);
        let address = line.strip_prefix("listening on ").expect("its address");
        RelayProcess {
            child,
            said,
            _in_use: in_use,
            pipes: Mutex::new((stdin, stdout)),
            address: address.parse().expect("its address"),
        }
    }

    pub fn address(&self) -> SocketAddr {
        self.address
    }

    /// The counts, once they are as wanted or the time is over.
    pub fn counts_when(&self, is_wanted: impl Fn(&Tally) -> bool, patience: Duration) -> Tally {
        let deadline = Instant::now() + patience;
        loop {
            let counts = self.counts();
            if is_wanted(&counts) || Instant::now() > deadline {
                return counts;
            }
            thread::sleep(Duration::from_millis(20));
        }
    }

    pub fn counts_when_quiet(&self) -> Tally {
        let is_quiet = |counts: &Tally| counts.get("in_flight") == 0;
        self.counts_when(is_quiet, Duration::from_secs(5))
    }

    /// What it said on standard error, once there are so many lines or the time
    /// is over.
    pub fn said(&self, lines: usize, patience: Duration) -> Vec<String> {
        let deadline = Instant::now() + patience;
        loop {
            let said = self.said.lock().expect("its lines").clone();
            if said.len() >= lines || Instant::now() > deadline {
                return said;
            }
            thread::sleep(Duration::from_millis(20));
        }
    }

    /// How many threads it has now, and how much memory, in MB.
    pub fn size(&self) -> Size {
        let pid = self.child.lock().expect("the child").id();
        let status = fs::read_to_string(format!("/proc/{pid}/status")).expect("its status");
        let number = |name: &str| {
            let line = status.lines().find_map(|line| line.strip_prefix(name));
            let number = line.and_then(|line| line.split_whitespace().next());
            number.expect("a line").parse::<u64>().expect("a number")
        };
        Size {
            threads: number("Threads:"),
            memory: number("VmRSS:") / 1024,
        }
    }

    pub fn counts(&self) -> Tally {
        let mut pipes = self.pipes.lock().expect("the pipes");
        writeln!(pipes.0).expect("the relay lives");
        Tally::read(&line(&mut pipes.1))
    }
}

impl Drop for RelayProcess {
    fn drop(&mut self) {
        end(&self.child);
    }
}

/// All three streams are pipes.
fn spawn(options: &str, publishers: &[String]) -> Child {
    Command::new(env!("CARGO_BIN_EXE_relay"))
        .args(options.split_whitespace())
        .arg("127.0.0.1:0")
        .args(publishers)
        .stdin(Stdio::piped())
        .stdout(Stdio::piped())
        .stderr(Stdio::piped())
        .spawn()
        .expect("the relay's program")
}

/// The use ends with what is handed back; if that takes too long, all ends.
fn limit_use() -> Sender<()> {
    let (in_use, end_of_use) = channel::<()>();
    thread::spawn(move || {
        if end_of_use.recv_timeout(HARD_LIMIT) == Err(RecvTimeoutError::Timeout) {
            eprintln!("a test took longer than {HARD_LIMIT:?}");
            let relays = RELAYS.lock().expect("the relays");
            relays.iter().for_each(|child| end(child));
            std::process::exit(1);
        }
    });
    in_use
}

/// Keeps its lines, and shows them.
fn keep(stderr: ChildStderr) -> Arc<Mutex<Vec<String>>> {
    let said = Arc::new(Mutex::new(Vec::new()));
    let lines = Arc::clone(&said);
    thread::spawn(move || {
        for line in BufReader::new(stderr).lines().map_while(Result::ok) {
            eprintln!("{line}");
            lines.lock().expect("its lines").push(line);
        }
    });
    said
}

fn end(child: &Mutex<Child>) {
    if let Ok(mut child) = child.lock() {
        let _ = child.kill();
        let _ = child.wait();
    }
}

fn line(stdout: &mut BufReader<ChildStdout>) -> String {
    let mut line = String::new();
    stdout.read_line(&mut line).expect("a line of the relay");
    line.trim_end().to_string()
}
