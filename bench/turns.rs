//! This program once more, in a process whose OpenSSL does without some of the processor's
//! instructions: it reads OPENSSL_ia32cap at its start.

use std::env;
use std::io::{self, BufRead, BufReader, Write};
use std::process::{Child, ChildStdin, ChildStdout, Command, Stdio};

/// No instructions that a processor may lack.
pub const PORTABLE: &str = "0:0";
/// What such a process is started with.
const TAKES_TURNS: &str = "takes-turns";

/// It answers each number of a work with a time.
pub struct Turns {
    process: Child,
    asks: ChildStdin,
    answers: BufReader<ChildStdout>,
}

impl Turns {
    pub fn start(capabilities: &str) -> Turns {
        let mut process = Command::new(env::current_exe().expect("this program"))
            .arg(TAKES_TURNS)
            .env("OPENSSL_ia32cap", capabilities)
            .stdin(Stdio::piped())
            .stdout(Stdio::piped())
            .spawn()
            .expect("another process");
        let asks = process.stdin.take().expect("its input");
        let answers = BufReader::new(process.stdout.take().expect("its output"));
        Turns { process, asks, answers }
    }

    pub fn time(&mut self, number: usize) -> f64 {
        writeln!(self.asks, "{number}").expect("an ask");
        let mut line = String::new();
        self.answers.read_line(&mut line).expect("an answer");
        line.trim().parse().expect("nanoseconds")
    }

    pub fn end(mut self) {
        drop(self.asks);
        assert!(self.process.wait().expect("its end").success());
    }
}

/// Whether this is such a process.
pub fn are_asked() -> bool {
    env::args().nth(1).as_deref() == Some(TAKES_TURNS)
}

/// Until there are no more asks.
pub fn take(mut time: impl FnMut(usize) -> f64) {
    for line in io::stdin().lines() {
        let number = line.expect("a line").parse().expect("a number");
        println!("{}", time(number));
    }
}
