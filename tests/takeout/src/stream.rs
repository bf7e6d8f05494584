//! A program under test that answers a stream of site files.

use std::io::{BufRead, BufReader, BufWriter, Read, Write};
use std::process::{Child, ChildStdin, ChildStdout, Command, Stdio};
use std::thread::{self, JoinHandle};

use crate::answer::Told;
use crate::draft::Visit;
use crate::verdict::{judge, Failure, Verdict};

/// The program, and the thread that feeds it: it may read as far ahead of its answers as it likes without either side waiting
/// for the other.
pub struct Stream {
    child: Child,
    out: BufReader<ChildStdout>,
    feeder: JoinHandle<()>,
}

impl Stream {
    /// Starts a program and feeds it the files that `files` makes.
    pub fn of(cmd: &str, args: &[&str], files: impl FnOnce(Visit) + Send + 'static) -> Stream {
        let mut child = Command::new(cmd)
            .args(args)
            .stdin(Stdio::piped())
            .stdout(Stdio::piped())
            .spawn()
            .unwrap_or_else(|error| Failure::Unable(format!("{cmd}: {error}")).end());
        let stdin = child.stdin.take().expect("standard input is a pipe");
        let stdout = child.stdout.take().expect("standard output is a pipe");
        Stream {
            child,
            out: BufReader::with_capacity(1 << 16, stdout),
            feeder: thread::spawn(move || feed(files, stdin)),
        }
    }

    /// Sets the next answer against what is told of its file, and ends takeout where they differ.
    pub fn next(&mut self, bytes: &[u8], told: &Told, place: &str) {
        let came = next_answer(&mut self.out, told.lines.len());
        if let Some(failure) = failure(bytes, told, &came, place) {
            self.end(failure);
        }
    }

    /// After the last answer nothing more may come.
    pub fn ended(mut self) {
        let more = next_answer(&mut self.out, 0);
        if !more.is_empty() {
            let more = String::from_utf8_lossy(&more);
            let what = format!("more came after the last answer:\n{more}");
            self.end(Failure::Disagreement(what));
        }
        // The program has ended its output; it is waited for, and how it ended says nothing.
        let _ = self.feeder.join();
        let _ = self.child.wait();
    }

    /// Ends the program under test, which may be in the middle of the stream, and takeout with it.
    pub fn end(&mut self, failure: Failure) -> ! {
        let _ = self.child.kill();
        let _ = self.child.wait();
        failure.end()
    }
}

/// What is wrong with what came for a file, if anything is.
fn failure(bytes: &[u8], told: &Told, came: &[u8], place: &str) -> Option<Failure> {
    if let Some((a, b)) = told.choke {
        return Some(Failure::Disagreement(format!(
            "{place}: the cross link {a}, {b} is a choke, and none ever is\nfile: {}",
            hex(bytes)
        )));
    }
    let expected = told.lines.clone() + ".\n";
    match judge(expected.as_bytes(), came) {
        Verdict::Agrees => None,
        Verdict::BreaksOff => Some(Failure::Unable(format!(
            "the program ended before its answer to {place} did"
        ))),
        Verdict::Differs => Some(Failure::Disagreement(format!(
            "{place}\n{}",
            show(bytes, &expected, came)
        ))),
    }
}

/// Writes the stream. A program that stops reading shows by a missing answer.
fn feed(files: impl FnOnce(Visit), stdin: ChildStdin) {
    let mut stream = BufWriter::with_capacity(1 << 16, stdin);
    files(&mut |file| {
        let length = u16::try_from(file.len()).expect("the stream gives lengths in 16 bits");
        let _ = stream.write_all(&length.to_le_bytes());
        let _ = stream.write_all(file);
    });
}

/// How much is taken beyond the length expected, to show, from a program that does not end its answer.
const EXCESS: usize = 2_000;

/// The lines up to the dot that ends them; without it if the output ends before or the answer grows far too long.
fn next_answer(out: &mut BufReader<ChildStdout>, expected: usize) -> Vec<u8> {
    let limit = expected + EXCESS;
    let mut came = Vec::new();
    while came.len() < limit {
        let start = came.len();
        let room = (limit - start) as u64;
        match out.by_ref().take(room).read_until(b'\n', &mut came) {
            Ok(0) | Err(_) => break,
            Ok(_) if came[start..] == *b".\n" => break,
            Ok(_) => {}
        }
    }
    came
}

/// A file and its two answers.
fn show(bytes: &[u8], expected: &str, came: &[u8]) -> String {
    let whole = came == b".\n" || came.ends_with(b"\n.\n");
    let ended = if whole {
        ""
    } else {
        "(and no line with a dot to end it)\n"
    };
    format!(
        "file, {} bytes: {}\nexpected:\n{expected}came:\n{}{ended}",
        bytes.len(),
        hex(bytes),
        String::from_utf8_lossy(came),
    )
}

fn hex(bytes: &[u8]) -> String {
    let hex: Vec<String> = bytes.iter().map(|byte| format!("{byte:02x}")).collect();
    hex.join(" ")
}
