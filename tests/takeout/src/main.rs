//! takeout: an independent test program for `labels`, `chokes` and `trial`.
//!
//! It shares no code with what it tests. It reads a site file by its own reader and finds the chokes by taking out each
//! machine and each cable and searching what is left: another method, too. The three calls it has by a plain reading of
//! document 01's marks, groups and rules, and it holds that reading to what taking out finds, and to the tables that it
//! reaches by adding every link in turn. How much work a site causes it adds up from the lines that were printed. The writer
//! of site files it has by document 02's words, and what is written is sent through both programs: what comes out has to be
//! what taking out finds in the plans.

mod answer;
mod call_histories;
mod call_long_plans;
mod call_plans;
mod call_random_plans;
mod call_tables;
mod call_trees;
mod call_work;
mod calls;
mod chance;
mod class;
mod compare;
mod cross_links;
mod damaged_links;
mod damaged_records;
mod damaged_trees;
mod draft;
mod file;
mod large_sites;
mod lent;
mod plan;
mod reached;
mod reading;
mod rules;
mod run;
mod search;
mod shapes;
mod sites;
mod stand_in;
mod stand_in_calls;
mod stand_in_writers;
mod stream;
mod text;
mod verdict;
mod work;
mod writing;
mod written;

use std::io::{self, Read, Write};

use verdict::Failure;

const USAGE: &str = "\
usage: takeout compare [--classes small,random,damaged,large] CMD [ARG..]   CMD answers a stream of site files
       takeout calls [--classes trees,small,histories,work,plans,large,heavy,tables] CMD [ARG..]   CMD answers the text of trial
       takeout written CMD [ARG..] -- CMD [ARG..]   the first answers the text of trial, the second a stream of site files
       takeout expect < SITE-FILE     what is to be printed for it
       takeout expect-stream < STREAM the same for each file of a stream
       takeout expect-calls < TEXT    the same for the text of trial
       takeout wrong [FAULT < STREAM]       a faulty program for compare; without a word the faults
       takeout wrong-calls [FAULT < TEXT]   the same for calls
       takeout wrong-writers [FAULT < TEXT] the same for the plans of calls
status: 0 all agreed, 1 a disagreement was printed, 2 nothing can be said";

fn main() {
    let words: Vec<String> = std::env::args().skip(1).collect();
    let words: Vec<&str> = words.iter().map(String::as_str).collect();
    if let Err(error) = done(&words) {
        Failure::Unable(error.to_string()).end();
    }
}

/// What the words ask for.
fn done(words: &[&str]) -> io::Result<()> {
    match *words {
        ["compare", "--classes", names, cmd, ref args @ ..] => {
            let classes = class::named(&compare::ALL, names);
            compare::compare(&classes.unwrap_or_else(|| unknown(names)), cmd, args);
        }
        ["compare", cmd, ref args @ ..] if cmd != "--classes" => {
            compare::compare(&compare::ALL, cmd, args);
        }
        ["calls", "--classes", names, cmd, ref args @ ..] => {
            let classes = class::named(&calls::ALL, names);
            calls::calls(&classes.unwrap_or_else(|| unknown(names)), cmd, args);
        }
        ["calls", cmd, ref args @ ..] if cmd != "--classes" => {
            calls::calls(&calls::ALL, cmd, args);
        }
        ["written", ref both @ ..] => {
            let mut programs = both
                .splitn(2, |&word| word == "--")
                .map(<[&str]>::split_first);
            let (Some(Some((trial, args))), Some(Some((labels, others)))) =
                (programs.next(), programs.next())
            else {
                unknown(&words.join(" "))
            };
            written::through((trial, args), (labels, others));
        }
        ["expect"] => return expect(),
        ["expect-stream"] => return stand_in::serve(lines),
        ["expect-calls"] => return stand_in_calls::serve(&reading::Document01),
        ["wrong"] => println!("{}", stand_in::names().join("\n")),
        ["wrong", name] => {
            let faulty = stand_in::named(name);
            return stand_in::serve(faulty.unwrap_or_else(|| unknown(name)));
        }
        ["wrong-writers"] => println!("{}", stand_in_writers::names().join("\n")),
        ["wrong-writers", name] => {
            let faulty = stand_in_writers::named(name);
            return stand_in_calls::serve(&*faulty.unwrap_or_else(|| unknown(name)));
        }
        ["wrong-calls"] => println!("{}", stand_in_calls::names().join("\n")),
        ["wrong-calls", name] => {
            let faulty = stand_in_calls::named(name);
            return stand_in_calls::serve(&*faulty.unwrap_or_else(|| unknown(name)));
        }
        _ => unknown(&words.join(" ")),
    }
    Ok(())
}

/// Prints the lines for the site file on standard input.
fn expect() -> io::Result<()> {
    let mut bytes = Vec::new();
    io::stdin().read_to_end(&mut bytes)?;
    io::stdout().write_all(lines(&bytes).as_bytes())
}

/// What `chokes` has to print for a site file.
fn lines(bytes: &[u8]) -> String {
    answer::answer(&file::read(bytes), search::chokes).lines
}

fn unknown(words: &str) -> ! {
    Failure::Unable(format!(
        "nothing is known by the words \"{words}\"\n{USAGE}"
    ))
    .end()
}
