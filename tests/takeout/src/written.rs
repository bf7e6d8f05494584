//! Plans that one program writes and another reads: `trial` writes their files, and `labels` prints the reports that these ask
//! for. What is printed has to be what taking out finds in the plans, whatever their files say.

use crate::answer::Told;
use crate::call_plans::{length, written};
use crate::call_random_plans::filled;
use crate::chance::Chance;
use crate::class::grouped;
use crate::cross_links::MIXED;
use crate::draft::Visit;
use crate::file::{self, BATCH_LIMIT, FILE_LIMIT, MACHINE_LIMIT};
use crate::plan::Planned;
use crate::run::{agreed, ANY_LINE};
use crate::search::chokes;
use crate::shapes::{tree, RANDOM, SHUFFLED};
use crate::stream::Stream;
use crate::verdict::Failure;

/// A program under test and the words that it is given.
pub type Words<'a> = (&'a str, &'a [&'a str]);

/// Runs the plans through both programs and ends at the first byte or line that differs.
pub fn through(trial: Words, labels: Words) {
    let plans = plans();
    let files = files(&plans, trial).unwrap_or_else(|failure| failure.end());
    let fed = files.clone();
    let feed = move |visit: Visit| fed.iter().for_each(|file| visit(file));
    let mut stream = Stream::of(labels.0, labels.1, feed);
    for (place, (planned, file)) in plans.iter().zip(&files).enumerate() {
        let place = format!("file {} of the written plans", grouped(place + 1));
        if !reads_back(planned, file) {
            let what = format!("{place}: read back, it is another plan\nfile: {file:?}");
            stream.end(Failure::Disagreement(what));
        }
        stream.next(file, &told(planned), &place);
    }
    stream.ended();
    println!(
        "takeout: {} written plans agreed: {} reports of {} bytes written, {} in the longest file",
        grouped(plans.len()),
        grouped(plans.iter().map(|planned| planned.asked().len()).sum()),
        grouped(files.iter().map(Vec::len).sum()),
        grouped(files.iter().map(Vec::len).max().unwrap_or(0)),
    );
}

/// Plans by chance, most of them small, one of as many machines as a site has, and two whose files are as long as a file may be.
fn plans() -> Vec<Planned> {
    let mut chance = Chance::seeded(17);
    let mut plans = Vec::new();
    for (count, least, most) in [(1_900, 1, 60), (90, 60, 300), (9, 300, 1_000)] {
        for _ in 0..count {
            let n = chance.between(least, most);
            plans.push(Planned::by_chance(n, &mut chance));
        }
    }
    let up = tree(RANDOM, SHUFFLED, MACHINE_LIMIT, &mut chance);
    plans.push(Planned {
        reports: vec![1, 0, 255],
        ..Planned::of_sizes(up, MIXED, &[0, 400, 410], &mut chance)
    });
    plans.push(full(Planned {
        up: vec![0],
        batches: vec![Vec::new(); 8_000],
        reports: vec![1; 8_000],
    }));
    let up = tree(RANDOM, SHUFFLED, 1_000, &mut chance);
    let sizes = [BATCH_LIMIT, BATCH_LIMIT, 200];
    plans.push(full(Planned::of_sizes(up, MIXED, &sizes, &mut chance)));
    plans
}

/// The plan with empty batches behind it, a byte each, until its file has 16,384 bytes; after the last a report is asked.
fn full(mut planned: Planned) -> Planned {
    let length = length(&planned.up, &planned.plan()).expect("its file is not too long");
    let batches = planned.batches.len() + FILE_LIMIT - length - 1;
    planned.batches.resize(batches, Vec::new());
    planned.reports.resize(batches - 1, 0);
    planned.reports.push(255);
    planned
}

/// The files of the plans as `trial` printed them, each the front of a buffer that is as long or longer.
fn files(plans: &[Planned], (cmd, args): Words) -> Result<Vec<Vec<u8>>, Failure> {
    let mut chance = Chance::seeded(18);
    let mut case = |planned: &Planned| {
        let (up, plan) = (&planned.up, planned.plan());
        let length = length(up, &plan).expect("its plan is sound, and its file not too long");
        let buffer = filled(length + chance.pick(&[0, 1, 60]), &mut chance);
        written(up, &plan, vec![buffer])
    };
    let cases: Vec<_> = plans.iter().map(&mut case).collect();
    let words: Vec<String> = [&[cmd], args]
        .concat()
        .iter()
        .map(|word| word.to_string())
        .collect();
    let out = agreed(&words, &cases, ANY_LINE, "plans to write", 0)?.out;
    let lines = String::from_utf8_lossy(&out);
    let files: Option<_> = lines.lines().map(front).collect();
    Ok(files.expect("the lines are as they were expected"))
}

/// The front of the buffer that a line of `trial` shows: as many bytes as were written.
fn front(line: &str) -> Option<Vec<u8>> {
    let (answer, buffer) = line.split_once("; buffer ")?;
    let length = answer.strip_prefix(" write 0 ")?.parse().ok()?;
    let bytes = buffer.split(',').take(length);
    bytes.map(|byte| byte.parse().ok()).collect()
}

/// Whether takeout's own reader finds the same tree, batches and reports in the file. Its bytes are those of takeout's own writer by now, so this holds the two to
/// each other.
fn reads_back(planned: &Planned, file: &[u8]) -> bool {
    let site = file::read(file);
    site.refusal.is_none()
        && site.up == planned.up
        && site.batches == planned.batches
        && site.reports == planned.asked()
}

/// What is to be printed by the plan itself.
fn told(planned: &Planned) -> Told {
    let mut told = Told::default();
    for closed in planned.asked() {
        told.report(&planned.up, &planned.batches[..closed], chokes);
    }
    told
}
