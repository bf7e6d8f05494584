//! What is said of a program, and how takeout ends by it: whoever started takeout goes by its status and by what it printed.

use std::process;

/// Nothing can be said of the program: it did not run to its end, or takeout was asked for what it does not know.
const UNABLE: i32 = 2;
/// A disagreement was printed.
const DIFFERS: i32 = 1;

/// What came beside what was expected.
pub enum Verdict {
    Agrees,
    /// Right so far, and then the output ended. That shows no wrong answer.
    BreaksOff,
    Differs,
}

pub fn judge(expected: &[u8], came: &[u8]) -> Verdict {
    if came == expected {
        Verdict::Agrees
    } else if expected.starts_with(came) {
        Verdict::BreaksOff
    } else {
        Verdict::Differs
    }
}

/// Why takeout ends before all has agreed.
pub enum Failure {
    /// Only this shows that a program is wrong.
    Disagreement(String),
    Unable(String),
}

impl Failure {
    pub fn end(self) -> ! {
        let status = match self {
            Failure::Disagreement(what) => {
                println!("takeout: disagreement: {what}");
                DIFFERS
            }
            Failure::Unable(why) => {
                eprintln!("takeout: {why}");
                UNABLE
            }
        };
        process::exit(status);
    }
}
