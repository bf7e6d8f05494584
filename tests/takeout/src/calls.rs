//! Setting the calls against takeout's own reading, through the text of `trial`: every line printed is compared.

use std::collections::VecDeque;
use std::thread::{self, JoinHandle};

use crate::class::{grouped, Class, Codes};
use crate::run::{agreed, Law, ANY_LINE};
use crate::text::{Case, Letter};
use crate::verdict::Failure;
use crate::{call_histories, call_plans, call_tables, call_trees, call_work, work};

/// Takes each case that a generator makes.
pub type Take<'a> = &'a mut dyn FnMut(Case);

/// Makes cases and hands each on.
type Make = fn(Take);

/// Cases, and the law of the lines that are printed for them.
#[derive(Clone, Copy)]
pub struct Cases {
    make: Make,
    law: Law,
}

/// Cases whose lines have to be as expected, and no more.
const fn compared(make: Make) -> Cases {
    Cases {
        make,
        law: ANY_LINE,
    }
}

/// Cases whose lines also have to show as much work as their trees allow.
const fn with_work(make: Make) -> Cases {
    Cases {
        make,
        law: work::law,
    }
}

pub const ALL: [Class<Cases>; 8] = [
    Class {
        things: "trees and lengths",
        each: compared(call_trees::all),
    },
    Class {
        things: "small tables",
        each: compared(call_tables::small),
    },
    Class {
        things: "histories by chance",
        each: compared(call_histories::all),
    },
    Class {
        things: "work histories",
        each: with_work(call_work::all),
    },
    Class {
        things: "plans to write",
        each: compared(call_plans::all),
    },
    Class {
        things: "large sites",
        each: compared(call_histories::large),
    },
    Class {
        things: "heavy histories",
        each: with_work(call_work::large),
    },
    Class {
        things: "tables of four machines",
        each: compared(call_tables::of_four),
    },
];

/// A bracket and the end of its line count as bytes outside brackets, of which `trial` takes 65,536.
const CASES_A_RUN: usize = 30_000;

/// Large sites make shorter runs: one ends with the case that brings it to so many machines.
const MACHINES_A_RUN: usize = 120_000;

/// And so do plans whose lists are long: one ends with the case that brings these to so many numbers.
const LISTED_A_RUN: usize = 2_000_000;

/// How many runs of the program go on at a time.
const RUNS_AT_A_TIME: usize = 2;

/// Runs the cases of the classes through a program and ends at the first line that breaks its law or differs.
pub fn calls(classes: &[Class<Cases>], cmd: &str, args: &[&str]) {
    let mut agreed = String::new();
    for &class in classes {
        let mut program = Program {
            words: [&[cmd], args]
                .concat()
                .iter()
                .map(|word| word.to_string())
                .collect(),
            things: class.things,
            law: class.each.law,
            next: Vec::new(),
            machines: 0,
            listed: 0,
            runs: VecDeque::new(),
            cases: 0,
            codes: Codes::default(),
        };
        (class.each.make)(&mut |case| program.take(case));
        program.run();
        program.wait(0);
        agreed += &format!(
            "takeout: {} {} agreed ({})\n",
            grouped(program.cases),
            class.things,
            program.codes.line()
        );
    }
    print!("{agreed}");
}

/// The program under test with the cases of a class, cut into runs.
struct Program {
    words: Vec<String>,
    things: &'static str,
    law: Law,
    /// The cases of the next run, how many machines they have, and how many numbers the lists of their plans.
    next: Vec<Case>,
    machines: usize,
    listed: usize,
    /// The runs that go on, the earliest first, each with the codes of its answers.
    runs: VecDeque<JoinHandle<Result<Codes, Failure>>>,
    cases: usize,
    codes: Codes,
}

impl Program {
    fn take(&mut self, case: Case) {
        self.machines += case.lent.up.len();
        self.listed += case.letters.iter().map(Letter::listed).sum::<usize>();
        self.next.push(case);
        let full = self.next.len() == CASES_A_RUN
            || self.machines >= MACHINES_A_RUN
            || self.listed >= LISTED_A_RUN;
        if full {
            self.run();
        }
    }

    fn run(&mut self) {
        self.wait(RUNS_AT_A_TIME - 1);
        let (words, law, things, before) = (self.words.clone(), self.law, self.things, self.cases);
        let cases = std::mem::take(&mut self.next);
        (self.machines, self.listed) = (0, 0);
        self.cases += cases.len();
        let run = thread::spawn(move || Ok(agreed(&words, &cases, law, things, before)?.codes));
        self.runs.push_back(run);
    }

    /// Waits until at most so many runs go on.
    fn wait(&mut self, most: usize) {
        while self.runs.len() > most {
            let run = self.runs.pop_front().expect("more runs go on than that");
            match run.join() {
                Ok(Ok(codes)) => self.codes.add(&codes),
                Ok(Err(failure)) => self.end(failure),
                Err(_) => self.end(Failure::Unable("a comparison broke off".to_string())),
            }
        }
    }

    /// Ends takeout, after the runs that still go on: no program is left behind.
    fn end(&mut self, failure: Failure) -> ! {
        for run in self.runs.drain(..) {
            let _ = run.join();
        }
        failure.end()
    }
}
