//! Prints lines on a thread of its own, so that the core's waits for no reader.

use std::io::{self, Write};
use std::sync::mpsc::{sync_channel, SyncSender};
use std::thread;

/// Lines that may wait to be written.
const WAITING: usize = 64;

pub struct Printer(SyncSender<String>);

impl Printer {
    pub fn new(mut output: impl Write + Send + 'static) -> io::Result<Printer> {
        let (lines, waiting) = sync_channel::<String>(WAITING);
        let printer = thread::Builder::new();
        printer.spawn(move || {
            for line in waiting {
                // The relay goes on if nobody reads that.
                let _ = writeln!(output, "{line}");
            }
        })?;
        Ok(Printer(lines))
    }

    /// Never waits: a line without room is dropped, since the counts tell too.
    pub fn print(&self, line: String) {
        let _ = self.0.try_send(line);
    }
}

#[cfg(test)]
mod tests {
    use super::*;
    use std::sync::mpsc::{channel, Receiver, Sender};

    /// Writes nothing before the other end of `blocked` is gone.
    struct BlockedWriter {
        blocked: Receiver<()>,
        written: Sender<u8>,
    }

    impl Write for BlockedWriter {
        fn write(&mut self, bytes: &[u8]) -> io::Result<usize> {
            let _ = self.blocked.recv();
            for byte in bytes {
                self.written.send(*byte).expect("the test");
            }
            Ok(bytes.len())
        }

        fn flush(&mut self) -> io::Result<()> {
            Ok(())
        }
    }

    #[test]
    fn what_nobody_reads_is_dropped() {
        let (blocking, blocked) = channel();
        let (written, output) = channel();
        let printer = Printer::new(BlockedWriter { blocked, written }).unwrap();
        for number in 0..10 * WAITING {
            printer.print(number.to_string());
        }
        drop((blocking, printer));
        let printed = String::from_utf8(output.iter().collect()).unwrap();
        let printed: Vec<usize> = printed.lines().map(|line| line.parse().unwrap()).collect();
        // One more has room once the thread has taken the first.
        assert!((WAITING..=WAITING + 1).contains(&printed.len()));
        assert!(printed.into_iter().take(WAITING).eq(0..WAITING));
    }
}
