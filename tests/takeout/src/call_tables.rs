//! Cases for code 6 and for what one link does: every table of small numbers on every small tree, with the depths of the tree;
//! wrong depths, and on four machines marks of 3 and Add, around the tables that histories leave. Which tables those are is
//! searched for, and the rules have to hold of these and of no others.

use crate::calls::Take;
use crate::lent::Lent;
use crate::reached::{Reached, COUNTS};
use crate::reading::{Document01, Reading};
use crate::search::chokes;
use crate::sites::{tables, trees};
use crate::text::{Case, Letter};

/// Every tree of 1 to 3 machines, with groups up to n and marks up to 3.
pub fn small(take: Take) {
    for n in 1..=3 {
        for reached in all_reached(n) {
            for group in tables(n, n + 1) {
                for mark in tables(n, 4) {
                    let lent = reached.fresh.with(&(group.clone(), mark));
                    take(judged(&reached, lent, &EVERY_CALL));
                }
            }
            around(&reached, take);
        }
    }
}

/// Every tree of 4 machines, with groups up to n and marks up to 2. These are millions, so the report alone is asked for.
pub fn of_four(take: Take) {
    for reached in all_reached(4) {
        for group in tables(4, 5) {
            for mark in tables(4, 3) {
                let lent = reached.fresh.with(&(group.clone(), mark));
                take(judged(&reached, lent, &[Letter::Report]));
            }
        }
        around(&reached, take);
    }
}

/// An empty batch, a report, and every slice.
const EVERY_CALL: [Letter; 3] = [Letter::Add(Vec::new()), Letter::Report, Letter::Tables];

/// The tables that histories leave on each tree of n machines.
fn all_reached(n: usize) -> Vec<Reached> {
    let all: Vec<Reached> = trees(n).iter().map(|up| Reached::on(up)).collect();
    let count: usize = all.iter().map(|reached| reached.tables.len()).sum();
    assert_eq!(
        count,
        COUNTS[n - 1],
        "tables of {n} machines that histories leave"
    );
    println!(
        "takeout: histories leave {count} tables over the {} trees of {n} machines",
        all.len()
    );
    all
}

/// A case over given tables, where the two readings of code 6 agree: no rule is broken exactly where a history leaves them.
fn judged(reached: &Reached, lent: Lent, letters: &[Letter]) -> Case {
    let left = lent.depth == reached.fresh.depth
        && reached
            .tables
            .contains_key(&(lent.group.clone(), lent.mark.clone()));
    assert_eq!(
        left,
        Document01.check_tables(&lent).is_ok(),
        "rules and histories: {lent:?}"
    );
    Case {
        lent,
        letters: letters.to_vec(),
    }
}

/// The tables that histories leave: as they are, after every link, with every table of depths, and with one entry spoilt.
fn around(reached: &Reached, take: Take) {
    let n = reached.fresh.up.len();
    for (left, links) in &reached.tables {
        let lent = reached.fresh.with(left);
        let mut reported = lent.clone();
        let _ = Document01.report(&mut reported);
        assert_eq!(
            chokes(&lent.up, links).bytes(),
            (reported.machines, reported.links),
            "taking out and tables: {lent:?}"
        );
        take(judged(reached, lent.clone(), &EVERY_CALL));
        for ends in tables(2, n).filter(|ends| ends[0] != ends[1]) {
            let link = [
                Letter::Add(ends),
                Letter::Tables,
                Letter::Report,
                Letter::Tables,
            ];
            take(judged(reached, lent.clone(), &link));
        }
        spoilt(reached, &lent, take);
    }
    for depth in tables(n, n + 1) {
        let lent = Lent {
            depth,
            ..reached.fresh.clone()
        };
        take(judged(reached, lent, &EVERY_CALL));
    }
}

/// One entry of one table put to a number beside it or far from it.
fn spoilt(reached: &Reached, lent: &Lent, take: Take) {
    let n = lent.up.len();
    let mut put = |change: &dyn Fn(&mut Lent)| {
        let mut spoilt = lent.clone();
        change(&mut spoilt);
        take(judged(reached, spoilt, &EVERY_CALL));
    };
    for v in 0..n {
        for depth in [lent.depth[v] + 1, lent.depth[v] + 256, 65_535] {
            put(&|spoilt| spoilt.depth[v] = depth);
        }
        for group in [n + 1, lent.group[v] + 256, 65_535] {
            put(&|spoilt| spoilt.group[v] = group);
        }
        for mark in [3, 4, 255] {
            put(&|spoilt| spoilt.mark[v] = mark);
        }
    }
}
