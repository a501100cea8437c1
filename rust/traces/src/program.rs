//! A program that reads a trace and prints its answers.

use std::fs::File;
use std::io::{self, Read, Write};
use std::process::{Child, ChildStdin, Command, Stdio};
use std::sync::mpsc;
use std::thread;
use std::time::Duration;

/// How a program is started, and how long one run may take.
pub struct Program {
    /// The runner's words, if there is one, then the program's.
    pub words: Vec<String>,
    /// After this time it is stopped: it does not end by itself.
    pub limit: Duration,
}

/// How an input comes to a program.
#[derive(Clone, Copy, Debug, PartialEq, Eq)]
pub enum Feed {
    /// As fast as it is read.
    Whole,
    /// An octet at a time, each after a while.
    Octets,
    /// Not at all: each read fails, as it does of a folder.
    Failing,
}

/// The while between two octets.
const PAUSE: Duration = Duration::from_millis(3);

impl Feed {
    fn stdin(self) -> io::Result<Stdio> {
        match self {
            Feed::Failing => File::open("/").map(Stdio::from),
            _ => Ok(Stdio::piped()),
        }
    }

    fn write(self, stdin: &mut ChildStdin, input: &[u8]) -> io::Result<()> {
        if self == Feed::Whole {
            return stdin.write_all(input);
        }
        for octet in input {
            stdin.write_all(&[*octet])?;
            thread::sleep(PAUSE);
        }
        Ok(())
    }
}

impl Program {
    /// What it prints for this input.
    pub fn printed(&self, input: &[u8], feed: Feed) -> Result<String, String> {
        let (first, rest) = self.words.split_first().ok_or("no program is named")?;
        let mut child = Command::new(first)
            .args(rest)
            .stdin(feed.stdin().map_err(|error| error.to_string())?)
            .stdout(Stdio::piped())
            .spawn()
            .map_err(|error| format!("{first}: {error}"))?;
        let output = self.fed(&mut child, input, feed);
        if output.is_err() {
            // It may have ended in between; waiting for it tells.
            child.kill().unwrap_or_default();
        }
        let status = child.wait().map_err(|error| error.to_string())?;
        let output = output?;
        if !status.success() {
            return Err(format!("it ended with {status}"));
        }
        String::from_utf8(output).map_err(|_| "it printed no text".into())
    }

    /// Feeds it from one thread and reads it in another, as either may wait for
    /// the other.
    fn fed(&self, child: &mut Child, input: &[u8], feed: Feed) -> Result<Vec<u8>, String> {
        let mut stdout = child.stdout.take().ok_or("it prints nothing")?;
        if let Some(mut stdin) = child.stdin.take() {
            let input = input.to_vec();
            // A program that stops reading shows in what it prints.
            thread::spawn(move || feed.write(&mut stdin, &input).unwrap_or_default());
        }
        let (sender, receiver) = mpsc::channel();
        thread::spawn(move || {
            let mut output = Vec::new();
            let read = stdout.read_to_end(&mut output).map(|_| output);
            // Nobody listens any more if the time was up.
            sender.send(read).unwrap_or_default();
        });
        let read = receiver.recv_timeout(self.limit);
        let output = read.map_err(|_| format!("no end within {:?}", self.limit))?;
        output.map_err(|error| error.to_string())
    }
}

#[cfg(test)]
mod tests {
    use super::*;

    fn printed(words: &[&str], input: &[u8]) -> Result<String, String> {
        let words = words.iter().map(|word| word.to_string()).collect();
        let limit = Duration::from_secs(2);
        Program { words, limit }.printed(input, Feed::Whole)
    }

    #[test]
    fn long_inputs_and_outputs() {
        let input = vec![b'a'; 1 << 20];
        assert_eq!(
            printed(&["cat"], &input).map(|text| text.len()),
            Ok(1 << 20)
        );
    }

    #[test]
    fn feeds() {
        let cat = || Program {
            words: vec!["cat".into()],
            limit: Duration::from_secs(2),
        };
        assert_eq!(cat().printed(b"fan", Feed::Octets), Ok("fan".into()));
        assert!(cat().printed(b"fan", Feed::Failing).is_err());
    }

    #[test]
    fn programs_that_fail() {
        assert!(printed(&["false"], b"").is_err());
        assert!(printed(&["no such program"], b"").is_err());
        assert!(printed(&[], b"").is_err());
    }

    #[test]
    fn a_program_that_does_not_end() {
        assert!(printed(&["sleep", "60"], b"").is_err());
    }
}
