//! Plans at the writer's limits: files, batches and lists as long as they may be and longer, and sums that 16 bits don't hold.

use crate::call_plans::{about, bare, length};
use crate::calls::Take;
use crate::chance::Chance;
use crate::cross_links::{numbers, FAR};
use crate::file::{Link, BATCH_LIMIT, FILE_LIMIT, MACHINE_LIMIT};
use crate::plan::{Plan, Planned};
use crate::shapes::{tree, RANDOM, SHUFFLED};

pub fn all(take: Take) {
    full_files(take);
    empty_batches(take);
    long_batches(take);
    long_files(take);
    wide_sums(take);
}

/// Files of 16,384 bytes, and of one more, with buffers of about that length.
fn full_files(take: Take) {
    let mut chance = Chance::seeded(16);
    let sorts: [(usize, &[usize]); 4] = [
        (1, &[0; 8_000]),
        (2, &[BATCH_LIMIT; 3]),
        (1_000, &[BATCH_LIMIT, BATCH_LIMIT, 200]),
        (MACHINE_LIMIT, &[818]),
    ];
    for (n, sizes) in sorts {
        let up = tree(RANDOM, SHUFFLED, n, &mut chance);
        let planned = Planned::of_sizes(up, FAR, sizes, &mut chance);
        let (up, mut plan) = (&planned.up, planned.plan());
        let room = length(up, &plan).map(|length| FILE_LIMIT - length);
        // Each empty batch is a byte more.
        let batches = plan.lengths.len() + room.expect("its file is not refused with 13");
        plan.lengths.resize(batches, 0);
        plan.reports.resize(batches, 0);
        take(about(up, &plan, 0));
        plan.lengths.push(0);
        plan.reports.push(0);
        for room in [0, FILE_LIMIT, FILE_LIMIT + 1] {
            take(bare(up, &plan, &[room]));
        }
    }
}

/// Thousands of empty batches, with a byte for the report after the first and one for all others.
fn empty_batches(take: Take) {
    for (batches, first, others) in [
        (8_189, 1, 1),
        (8_190, 0, 1),
        (16_000, 0, 0),
        (16_000, 1, 1),
        (16_377, 255, 0),
        (16_378, 0, 0),
        (16_378, 2, 0),
        (16_379, 0, 0),
        (65_534, 0, 0),
        (65_535, 0, 0),
        (65_535, 1, 1),
    ] {
        let mut reports = vec![others; batches];
        reports[0] = first;
        take(about(&[0], &empty(batches, reports), 3));
    }
    for (batches, bytes) in [
        (16_378, 16_379),
        (65_534, 65_535),
        (65_535, 65_534),
        (65_535, 0),
        (0, 65_535),
    ] {
        take(about(&[0], &empty(batches, vec![0; bytes]), 3));
    }
}

fn empty(batches: usize, reports: Vec<usize>) -> Plan {
    Plan {
        links: Vec::new(),
        lengths: vec![0; batches],
        reports,
    }
}

/// Batches one after another, with a report after each.
fn of_batches(batches: &[&[usize]]) -> Plan {
    Plan {
        links: batches.concat(),
        lengths: batches.iter().map(|batch| batch.len()).collect(),
        reports: vec![1; batches.len()],
    }
}

/// Six machines, and a batch of so many numbers over them.
const UP: [usize; 6] = [0, 0, 1, 2, 3, 0];

fn batch(length: usize) -> Vec<usize> {
    (0..length).map(|place| place % 6).collect()
}

/// Batches about as long as a batch may be, with an end of the first link or of the last one bad, after a sound batch and before
/// a bad one, and the longest that can be lent.
fn long_batches(take: Take) {
    let most = 2 * BATCH_LIMIT;
    for length in most - 2..=most + 2 {
        for (place, end) in [(0, 0), (0, 1), (length - 1, 6)] {
            let mut batch = batch(length);
            batch[place] = end;
            for before in [&[][..], &[4, 2]] {
                take(about(&UP, &of_batches(&[before, &batch]), 9));
                take(about(&UP, &of_batches(&[before, &batch, &[0, 6]]), 9));
            }
        }
    }
    for length in [65_534, 65_535] {
        take(about(&UP, &of_batches(&[&vec![0; length]]), 9));
    }
}

/// More links than a file has room for, sound and with a bad batch at the end, which is told before the file's length.
fn long_files(take: Take) {
    let full = batch(2 * BATCH_LIMIT - 2);
    let last: [&[Link]; 3] = [&[(0, 5)], &[(0, 6)], &[(5, 5)]];
    for last in last {
        let ends = [&full[..], &numbers(last)].concat();
        take(about(&UP, &of_batches(&[&full, &full, &full, &ends]), 9));
    }
    take(about(
        &UP,
        &of_batches(&[&full, &full, &full, &full, &[0]]),
        9,
    ));
    // As many links as can be lent in full batches.
    take(about(&UP, &of_batches(&[&full[..]; 31]), 9));
}

/// Lengths whose sum is right in 8 or in 16 bits only, with so many numbers.
fn wide_sums(take: Take) {
    for (lengths, numbers) in [
        (vec![256], 0),
        (vec![2_048; 32], 0),
        (vec![32; 2_048], 0),
        (vec![256; 256], 0),
        (vec![65_535, 1], 0),
        (vec![65_535, 3], 2),
        (vec![32_768, 32_770], 2),
        (vec![65_535; 2], 65_534),
        (vec![65_535; 65_535], 1),
    ] {
        let plan = Plan {
            links: vec![0; numbers],
            reports: vec![0; lengths.len()],
            lengths,
        };
        take(about(&[0, 0], &plan, 9));
    }
}
