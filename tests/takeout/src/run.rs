//! Setting one run of a program under test against takeout's own reading, line by line.

use std::io::{self, Read, Write};
use std::process::{Command, Stdio};
use std::thread;

use crate::class::{grouped, Codes};
use crate::reading::Document01;
use crate::text::Case;
use crate::verdict::{judge, Failure, Verdict};

/// What a run printed, every line of it as expected.
pub struct Agreed {
    pub out: Vec<u8>,
    /// The codes of the answers.
    pub codes: Codes,
}

/// What has to hold of the line that a program prints for a case, whatever takeout's own reading has there; else what breaks it.
pub type Law = fn(&Case, &str) -> Result<(), String>;

/// The law that no line breaks.
pub const ANY_LINE: Law = |_, _| Ok(());

/// One run of the program of these words: a line for each case. The lines are held to the law first and then to what is
/// expected. Before these cases come so many others of the same things.
pub fn agreed(
    words: &[String],
    cases: &[Case],
    law: Law,
    things: &str,
    before: usize,
) -> Result<Agreed, Failure> {
    let mut text = String::new();
    let mut lines = Vec::new();
    let mut codes = Codes::default();
    for case in cases {
        text += &(case.text() + "\n");
        let (line, came) = case.printed(&Document01);
        lines.push(line + "\n");
        came.into_iter().for_each(|code| codes.count(code));
    }
    let length = lines.iter().map(String::len).sum();
    let out = output(words, text, length)
        .map_err(|error| Failure::Unable(format!("{}: {error}", words[0])))?;
    let place = |index: usize| format!("case {} of the {things}", grouped(before + index + 1));
    held(law, cases, &out, place)?;
    let mut rest = &out[..];
    for (index, (case, line)) in cases.iter().zip(&lines).enumerate() {
        let end = rest.iter().position(|&byte| byte == b'\n');
        let (came, after) = rest.split_at(end.map_or(rest.len(), |end| end + 1));
        let place = place(index);
        match judge(line.as_bytes(), came) {
            Verdict::Agrees => rest = after,
            Verdict::BreaksOff => {
                let why = format!("the program ended before its answer to {place} did");
                return Err(Failure::Unable(why));
            }
            Verdict::Differs => {
                let (text, came) = (case.text(), String::from_utf8_lossy(came));
                let what = format!("{place}\n{text}\nexpected:\n{line}came:\n{came}");
                return Err(Failure::Disagreement(what));
            }
        }
    }
    if !rest.is_empty() {
        let more = String::from_utf8_lossy(rest);
        let what = format!("more came after the last of the {things}:\n{more}");
        return Err(Failure::Disagreement(what));
    }
    Ok(Agreed { out, codes })
}

/// Holds each line that came to the law. The last may have broken off, and then it shows nothing.
fn held(
    law: Law,
    cases: &[Case],
    out: &[u8],
    place: impl Fn(usize) -> String,
) -> Result<(), Failure> {
    let lines = out.split_inclusive(|&byte| byte == b'\n');
    let whole = lines.filter_map(|line| line.strip_suffix(b"\n"));
    for (index, (case, came)) in cases.iter().zip(whole).enumerate() {
        let came = String::from_utf8_lossy(came);
        if let Err(broken) = law(case, &came) {
            let (place, text) = (place(index), case.text());
            let what = format!("{place}: {broken}\n{text}\ncame:\n{came}");
            return Err(Failure::Disagreement(what));
        }
    }
    Ok(())
}

/// How much is taken beyond the length expected, to show, from a program that prints too much.
const EXCESS: usize = 2_000;

/// What a program prints for a text.
fn output(words: &[String], text: String, expected: usize) -> io::Result<Vec<u8>> {
    let mut child = Command::new(&words[0])
        .args(&words[1..])
        .stdin(Stdio::piped())
        .stdout(Stdio::piped())
        .spawn()?;
    let mut stdin = child.stdin.take().expect("standard input is a pipe");
    let stdout = child.stdout.take().expect("standard output is a pipe");
    let mut stdout = stdout.take((expected + EXCESS) as u64);
    // A program that stops reading shows by a missing answer.
    let feeder = thread::spawn(move || {
        let _ = stdin.write_all(text.as_bytes());
    });
    let mut out = Vec::new();
    let read = stdout.read_to_end(&mut out);
    // It may still be printing; what more would come says nothing, nor does how it ends.
    let _ = child.kill();
    let _ = child.wait();
    let _ = feeder.join();
    read.map(|_| out)
}
