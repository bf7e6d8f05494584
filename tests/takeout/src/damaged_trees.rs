//! Files whose up table is no tree: out of range, without a hub, with several, with cycles.

use crate::chance::Chance;
use crate::draft::{Draft, Visit};
use crate::file::MACHINE_LIMIT;
use crate::shapes::path;
use crate::sites::tables;

pub fn all(visit: Visit) {
    up_tables(visit);
    hurt_trees(visit);
}

/// Every up table of up to 5 machines with entries up to n.
fn up_tables(visit: Visit) {
    for n in 1..=5 {
        for up in tables(n, n + 1) {
            visit(&Draft::of_tree(&up).report().bytes);
        }
    }
}

/// Trees of more machines with one to three entries spoilt, now and then cut before the tree is whole.
fn hurt_trees(visit: Visit) {
    let mut chance = Chance::seeded(5);
    for _ in 0..2_000 {
        let n = chance.between(2, 60);
        let mut up: Vec<usize> = (0..n).map(|v| chance.below(v.max(1))).collect();
        for _ in 0..chance.between(1, 3) {
            let machine = chance.below(n);
            up[machine] = match chance.below(6) {
                0 => chance.pick(&[n, n + 1, 65_535]),
                // In range, had only its low byte been read.
                1 => 256 + chance.below(n),
                2 => machine,
                // The first hub names another machine.
                3 => {
                    up[0] = chance.between(1, n - 1);
                    up[machine]
                }
                // A later machine, which may well be below this one: a cycle.
                4 => chance.between(machine, n - 1),
                _ => chance.below(n),
            };
        }
        let mut bytes = Draft::of_tree(&up).report().bytes;
        let length = bytes.len();
        if chance.once_in(10) {
            bytes.truncate(chance.below(length));
        }
        visit(&bytes);
    }
}

/// The same of 4,096 machines.
pub fn large(visit: Visit) {
    let last = MACHINE_LIMIT - 1;
    let path = path(MACHINE_LIMIT);
    // Out of range, a second hub, no hub on one ring of all, a last machine that never arrives, and half of them that don't.
    for (machine, up) in [
        (last, MACHINE_LIMIT),
        (last, last),
        (0, last),
        (last - 1, last),
        (last / 2, last),
    ] {
        let mut hurt = path.clone();
        hurt[machine] = up;
        visit(&Draft::of_tree(&hurt).report().bytes);
    }
    // A tree that ends one record and one byte too soon, and that has one machine too many.
    let tree = Draft::of_tree(&path).bytes;
    visit(&tree[..tree.len() - 3]);
    visit(&tree[..tree.len() - 1]);
    visit(&[&tree[..], &[2, 0, 0]].concat());
}
