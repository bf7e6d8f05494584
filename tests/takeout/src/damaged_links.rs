//! Files with links that are bad, left open or too many.

use crate::chance::Chance;
use crate::draft::{Draft, Visit};
use crate::file::{Link, BATCH_LIMIT, FILE_LIMIT, MACHINE_LIMIT};
use crate::shapes::path;
use crate::sites::{by_chance, tables};

pub fn all(visit: Visit) {
    link_ends(visit);
    late_links(visit);
    open_links(visit);
    full_batches(visit);
}

/// A path of n machines with a report, then a batch and another report.
fn closed(n: usize, batch: &[Link]) -> Draft {
    Draft::of_tree(&path(n)).report().batch(batch).report()
}

/// Links with ends out of range and with both ends the same, alone and among others.
fn link_ends(visit: Visit) {
    for n in 1..=4 {
        let ends: Vec<usize> = (0..n + 2).chain([256, 32_768, 65_535]).collect();
        for &a in &ends {
            for &b in &ends {
                visit(&closed(n, &[(a, b)]).bytes);
            }
        }
    }
    // Every batch of two links, and on two machines of three, sound or not.
    for (n, links) in [(1, 2), (2, 2), (3, 2), (2, 3)] {
        for ends in tables(2 * links, n + 1) {
            let batch: Vec<Link> = ends.chunks(2).map(|ends| (ends[0], ends[1])).collect();
            visit(&closed(n, &batch).bytes);
        }
    }
}

/// One or two bad links in a longer batch that comes after other batches.
fn late_links(visit: Visit) {
    let mut chance = Chance::seeded(6);
    for _ in 0..500 {
        let n = chance.between(2, 60);
        let before = by_chance(n, &mut chance);
        let mut batch = vec![(0, 1); chance.between(1, 200)];
        for _ in 0..chance.between(1, 2) {
            let at = chance.below(batch.len());
            let machine = chance.below(n);
            let high = chance.between(n, 65_535);
            batch[at] = chance.pick(&[
                (machine, machine),
                (machine, high),
                (high, machine),
                (high, high),
                (n, 0),
                (0, n),
            ]);
        }
        visit(&before.batch(&batch).report().bytes);
    }
}

/// A file with something after a link: its end, another record, a record cut short, or what is no record.
fn followed(draft: &Draft, visit: Visit) {
    let followers: [&[u8]; 14] = [
        &[],
        &[4],
        &[4, 5],
        &[5],
        &[5, 4],
        &[0],
        &[6],
        &[255, 4],
        &[1],
        &[2, 0, 0],
        &[3],
        &[3, 0, 0, 1],
        &[3, 0, 0, 1, 0],
        &[3, 0, 0, 1, 0, 4, 5],
    ];
    for follower in followers {
        visit(&[&draft.bytes, follower].concat());
    }
}

/// Good and bad links that are still open when something comes after them: a bad one is found at the close and not before.
fn open_links(visit: Visit) {
    let links: [&[Link]; 8] = [
        &[(0, 1)],
        &[(1, 1)],
        &[(0, 9)],
        &[(9, 9)],
        &[(9, 9), (1, 1)],
        &[(1, 1), (9, 9)],
        &[(0, 1), (2, 2)],
        &[(0, 1), (2, 0)],
    ];
    for n in 1..=4 {
        // Behind the tree alone, and behind reports and an empty batch as well.
        let up: Vec<usize> = (0..n).map(|v| v / 2).collect();
        for start in [Draft::of_tree(&up), closed(n, &[])] {
            for links in links {
                followed(&start.clone().links(links), visit);
            }
        }
    }
}

/// Batches about as long as a batch may be: closed and open, cut short, with bad links among them, and after other batches.
fn full_batches(visit: Visit) {
    let tree = Draft::of_tree(&[0, 0, 1, 2, 3, 0]);
    let before: [&[usize]; 5] = [&[], &[0], &[1], &[BATCH_LIMIT], &[BATCH_LIMIT, 1]];
    for closed in before {
        let start = closed.iter().fold(tree.clone(), |draft, &links| {
            draft.batch(&vec![(1, 3); links]).report()
        });
        for count in BATCH_LIMIT - 1..=BATCH_LIMIT + 2 {
            let batch: Vec<Link> = (0..count).map(|i| (i % 5, 5)).collect();
            followed(&start.clone().links(&batch), visit);
            for (at, link) in [
                (0, (2, 2)),
                (BATCH_LIMIT - 1, (6, 0)),
                (BATCH_LIMIT, (6, 6)),
            ] {
                let mut batch = batch.clone();
                if at < count {
                    batch[at] = link;
                }
                followed(&start.clone().links(&batch), visit);
            }
        }
    }
    // The 1,025th link cut short at each byte of its record.
    let bytes = tree.links(&[(2, 4); BATCH_LIMIT + 1]).bytes;
    for missing in 0..=5 {
        visit(&bytes[..bytes.len() - missing]);
    }
}

/// Open links and too many beside thousands of machines.
pub fn large(visit: Visit) {
    let path = path(MACHINE_LIMIT);
    // As many links as there is room for beside 4,096 machines, not closed, and closed one byte beyond the limit.
    let mut draft = Draft::of_tree(&path).links(&[(0, MACHINE_LIMIT - 1); 818]);
    visit(&draft.bytes);
    draft.bytes.resize(FILE_LIMIT, 4);
    visit(&draft.report().bytes);
    // The most machines beside which a 1,025th link can still be whole, and one more, where the file is too long for it.
    for n in [3_752, 3_753] {
        let tree = Draft::of_tree(&path[..n]);
        visit(&tree.links(&[(0, 1); BATCH_LIMIT + 1]).bytes);
    }
}
