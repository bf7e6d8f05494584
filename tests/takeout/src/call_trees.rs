//! Cases for codes 1 to 5 and 7 to 9: trees that are none, slices of other lengths, and batches.

use crate::calls::Take;
use crate::chance::Chance;
use crate::file::{BATCH_LIMIT, MACHINE_LIMIT};
use crate::lent::Lent;
use crate::shapes::{self, path};
use crate::sites::{tables, trees};
use crate::text::{Case, Letter};

pub fn all(take: Take) {
    up_tables(take);
    hurt_trees(take);
    sizes(take);
    lengths(take);
    batches(take);
    long_batches(take);
}

/// Each call once, a batch that every other check goes before, and what is left then.
fn every_call(lent: Lent) -> Case {
    Case {
        lent,
        letters: vec![
            Letter::Start,
            Letter::Add(vec![7]),
            Letter::Report,
            Letter::Tables,
        ],
    }
}

/// Every up table of up to 4 machines with entries up to n, and of up to 3 with the greatest number among them.
fn up_tables(take: Take) {
    for n in 1..=4 {
        for up in tables(n, n + 1) {
            take(every_call(Lent::of_tree(&up)));
        }
    }
    for n in 1..=3 {
        for mut up in tables(n, n + 2) {
            if up.contains(&(n + 1)) {
                up.iter_mut()
                    .filter(|up| **up > n)
                    .for_each(|up| *up = 65_535);
                take(every_call(Lent::of_tree(&up)));
            }
        }
    }
}

/// Larger trees with one to three entries spoilt: out of range, a hub more or none, a ring that never reaches the hub.
fn hurt_trees(take: Take) {
    let mut chance = Chance::seeded(11);
    for _ in 0..600 {
        let n = chance.between(5, 60);
        let mut up = shapes::by_chance(n, &mut chance);
        for _ in 0..chance.between(1, 3) {
            let machine = chance.below(n);
            up[machine] = match chance.below(4) {
                0 => chance.pick(&[n, n + 1, 256 + machine, 65_535]),
                1 => machine,
                _ => chance.below(n),
            };
        }
        take(every_call(Lent::of_tree(&up)));
    }
}

/// No machine, as many as a site has, and one more; each with slices that fit and that don't.
fn sizes(take: Take) {
    for n in [0, MACHINE_LIMIT, MACHINE_LIMIT + 1] {
        let fits = Lent::of_tree(&path(n));
        take(every_call(Lent {
            depth: vec![9; 2],
            ..fits.clone()
        }));
        take(every_call(fits));
    }
}

/// The five slices each of the right length, one shorter or one longer, beside trees that are sound and that are not.
fn lengths(take: Take) {
    let ups: [&[usize]; 6] = [&[0], &[1], &[1, 1], &[0, 1], &[0, 0, 1], &[0, 2, 1]];
    for up in ups {
        for shifts in tables(5, 3) {
            // Shifts of 0, 1 and 2 are right, one more and one less, so that the sound case comes first.
            let slice = |shift: usize| vec![9; [up.len(), up.len() + 1, up.len() - 1][shift]];
            take(every_call(Lent {
                up: up.to_vec(),
                depth: slice(shifts[0]),
                group: slice(shifts[1]),
                mark: slice(shifts[2]),
                machines: slice(shifts[3]),
                links: slice(shifts[4]),
            }));
        }
    }
}

/// A batch on fresh tables, and then the tables and a report.
fn added(up: &[usize], batch: Vec<usize>) -> Case {
    Case {
        lent: Lent::of_tree(up),
        letters: vec![
            Letter::Start,
            Letter::Add(batch),
            Letter::Tables,
            Letter::Report,
            Letter::Tables,
        ],
    }
}

/// On every tree of up to 3 machines every batch of up to 4 numbers with ends up to n, and with the greatest number for n + 1.
fn batches(take: Take) {
    for n in 1..=3 {
        for up in trees(n) {
            for length in 0..=4 {
                for mut batch in tables(length, n + 2) {
                    batch
                        .iter_mut()
                        .filter(|end| **end > n)
                        .for_each(|end| *end = 65_535);
                    take(added(&up, batch));
                }
            }
        }
    }
}

/// Batches about as long as a batch may be, with the last link or the first one bad.
fn long_batches(take: Take) {
    let up = [0, 0, 1, 2, 3, 0];
    let most = 2 * BATCH_LIMIT;
    for length in [most - 2, most - 1, most, most + 1, most + 2] {
        let batch: Vec<usize> = (0..length).map(|place| place % 6).collect();
        for (place, end) in [
            (0, 0),
            (0, 1),
            (0, 6),
            (length - 1, 6),
            (length - 1, 65_535),
        ] {
            let mut batch = batch.clone();
            batch[place] = end;
            take(added(&up, batch));
        }
    }
}
