//! Runs a program on a text.

use std::io::{self, Write};
use std::os::fd::OwnedFd;
use std::os::unix::net::UnixDatagram;
use std::process::{Command, Output, Stdio};
use std::thread::sleep;
use std::time::Duration;

const PAUSE: Duration = Duration::from_millis(5);

/// What the program prints for a text, which is handed over in pieces: `pieces` has where each of them ends.
pub fn output(program: &str, text: &[u8], pieces: &[usize]) -> io::Result<Output> {
    let mut child =
        Command::new(program).stdin(Stdio::piped()).stdout(Stdio::piped()).stderr(Stdio::inherit()).spawn()?;
    if let Some(mut input) = child.stdin.take() {
        let mut start = 0;
        for end in pieces {
            if start > 0 {
                sleep(PAUSE);
            }
            // A program that has seen enough may end before it read everything.
            if input.write_all(&text[start..*end]).is_err() {
                break;
            }
            start = *end;
        }
    }
    child.wait_with_output()
}

/// What the program prints where its input ends and more can be read after that end, as on a terminal: each read takes one text, and a text
/// of no bytes is an end.
pub fn output_of_reads(program: &str, texts: &[&[u8]]) -> io::Result<Output> {
    let (writer, input) = UnixDatagram::pair()?;
    for text in texts {
        writer.send(text)?;
    }
    Command::new(program).stdin(Stdio::from(OwnedFd::from(input))).stderr(Stdio::inherit()).output()
}
