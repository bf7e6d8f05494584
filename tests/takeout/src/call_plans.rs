//! Cases for the writer: every small plan, and several things wrong at a time.

use crate::calls::Take;
use crate::file::{Refusal, FILE_LIMIT, MACHINE_LIMIT};
use crate::lent::Lent;
use crate::plan::Plan;
use crate::sites::{tables, trees};
use crate::text::{Case, Letter};
use crate::writing::{Document02, Writing};
use crate::{call_long_plans, call_random_plans};

pub fn all(take: Take) {
    small(take);
    sums(take);
    orders(take);
    call_random_plans::all(take);
    call_long_plans::all(take);
}

/// A plan written into one buffer after another. The writer is lent the tree alone, and the tables are empty.
pub fn written(up: &[usize], plan: &Plan, buffers: Vec<Vec<usize>>) -> Case {
    let write = |buffer| Letter::Write {
        plan: plan.clone(),
        buffer,
    };
    Case {
        lent: Lent {
            up: up.to_vec(),
            ..Lent::of_tree(&[])
        },
        letters: buffers.into_iter().map(write).collect(),
    }
}

/// The same with buffers of these lengths: a 9 stands for what the writer has not written.
pub fn bare(up: &[usize], plan: &Plan, rooms: &[usize]) -> Case {
    written(up, plan, rooms.iter().map(|&room| vec![9; room]).collect())
}

/// The length of the plan's file, where nothing but the buffer stands in its way.
pub fn length(up: &[usize], plan: &Plan) -> Option<usize> {
    match Document02.write(up, plan, &mut []) {
        Err(Refusal { code: 14, value }) => Some(value),
        _ => None,
    }
}

/// A plan written into buffers about as long as its file. One that is refused with every buffer gets one of that room.
pub fn about(up: &[usize], plan: &Plan, room: usize) -> Case {
    match length(up, plan) {
        Some(length) => bare(up, plan, &[0, length - 1, length, length + 1]),
        None => bare(up, plan, &[room]),
    }
}

/// The same beside tables of the tree's length, which the writer leaves as they came.
fn beside_tables(case: Case) -> Case {
    Case {
        lent: Lent::of_tree(&case.lent.up),
        letters: [case.letters, vec![Letter::Tables]].concat(),
    }
}

/// On every tree of up to 3 machines every plan of up to 2 batches with ends up to n: up to 4 numbers in all, and on three
/// machines 3. Every report byte of those that are listed is tried in every place.
fn small(take: Take) {
    let sorts: [(usize, usize, &[usize]); 3] =
        [(1, 4, &[0, 1, 255]), (2, 4, &[0, 2]), (3, 3, &[1])];
    for (n, most, bytes) in sorts {
        let lengths = (0..=2).flat_map(|batches| tables(batches, most + 1));
        for lengths in lengths.filter(|lengths| lengths.iter().sum::<usize>() <= most) {
            for links in tables(lengths.iter().sum(), n + 1) {
                for places in tables(lengths.len(), bytes.len()) {
                    let plan = Plan {
                        links: links.clone(),
                        lengths: lengths.clone(),
                        reports: places.iter().map(|&place| bytes[place]).collect(),
                    };
                    for up in trees(n) {
                        take(beside_tables(about(&up, &plan, 20)));
                    }
                }
            }
        }
    }
}

/// Lengths that add up, to one number fewer and to one more, with as many report bytes, one fewer and one more, beside trees
/// and links that are sound and that are not.
fn sums(take: Take) {
    for lengths in (0..=3).flat_map(|batches| tables(batches, 4)) {
        let (batches, total) = (lengths.len(), lengths.iter().sum::<usize>());
        for numbers in total.saturating_sub(1)..=total + 1 {
            for bytes in batches.saturating_sub(1)..=batches + 1 {
                for links in [vec![0; numbers], (0..numbers).map(|i| i % 2).collect()] {
                    let plan = Plan {
                        links,
                        lengths: lengths.clone(),
                        reports: vec![1; bytes],
                    };
                    for up in [[0, 0], [1, 0]] {
                        take(about(&up, &plan, 40));
                    }
                }
            }
        }
    }
}

/// Batches on three machines: sound, empty, of an odd length, with an end that is no machine, with equal ends.
const BATCHES: [&[usize]; 7] = [
    &[0, 1],
    &[],
    &[1],
    &[1, 0, 1, 1, 3],
    &[0, 1, 0, 3],
    &[3, 3],
    &[1, 2, 0, 0],
];

/// Several things wrong at a time: the tree, the lengths, batch after batch, the file's length, and the buffer, which is empty.
fn orders(take: Take) {
    for kinds in tables(3, BATCHES.len()) {
        for off in OFF {
            take(about(&[0, 0, 1], &wrong(&kinds, 0, off), 0));
        }
    }
    let trees: [&[usize]; 6] = [
        &[],
        &[0; MACHINE_LIMIT + 1],
        &[0, 0, 3],
        &[0, 1, 0],
        &[0, 2, 1],
        &[0, 0, 1],
    ];
    for kinds in (0..=2).flat_map(|batches| tables(batches, BATCHES.len())) {
        for off in OFF {
            for up in trees {
                take(about(up, &wrong(&kinds, FILE_LIMIT, off), 0));
            }
        }
    }
}

/// Something done to the lists of a plan.
type Off = fn(&mut Plan);

/// Nothing, a report byte too few, and a number too many.
const OFF: [Off; 3] = [
    |_| {},
    |plan| plan.reports.truncate(plan.reports.len().saturating_sub(1)),
    |plan| plan.links.push(1),
];

/// A plan of some of those batches and then of so many empty ones.
fn wrong(kinds: &[usize], empty: usize, off: Off) -> Plan {
    let batches: Vec<&[usize]> = kinds.iter().map(|&kind| BATCHES[kind]).collect();
    let mut lengths: Vec<usize> = batches.iter().map(|batch| batch.len()).collect();
    lengths.resize(kinds.len() + empty, 0);
    let mut plan = Plan {
        links: batches.concat(),
        reports: vec![0; lengths.len()],
        lengths,
    };
    off(&mut plan);
    plan
}
