//! The tables that histories leave, found by taking every link in turn from every table found so far.

use std::collections::BTreeMap;

use crate::file::Link;
use crate::lent::Lent;
use crate::reading::{Document01, Reading};

/// How many tables histories leave over all trees of 1, 2, 3 and 4 machines.
pub const COUNTS: [usize; 4] = [1, 4, 45, 900];

/// The groups and the marks of a site.
pub type GroupsAndMarks = (Vec<usize>, Vec<usize>);

/// Every table that some history leaves on a tree, with the links of one that does.
pub struct Reached {
    /// The tree with its fresh tables.
    pub fresh: Lent,
    pub tables: BTreeMap<GroupsAndMarks, Vec<Link>>,
}

impl Reached {
    pub fn on(up: &[usize]) -> Reached {
        let n = up.len();
        let mut fresh = Lent::of_tree(up);
        Document01
            .start(&mut fresh)
            .expect("only sound trees are searched");
        let first = (fresh.group.clone(), fresh.mark.clone());
        let mut tables = BTreeMap::from([(first.clone(), Vec::new())]);
        let mut waiting = vec![first];
        while let Some(from) = waiting.pop() {
            for (a, b) in (0..n).flat_map(|a| (0..n).map(move |b| (a, b))) {
                if a == b {
                    continue;
                }
                let mut next = fresh.with(&from);
                Document01.link(&mut next, a, b);
                let to = (next.group, next.mark);
                if !tables.contains_key(&to) {
                    let links = [&tables[&from][..], &[(a, b)]].concat();
                    tables.insert(to.clone(), links);
                    waiting.push(to);
                }
            }
        }
        Reached { fresh, tables }
    }
}

impl Lent {
    /// The same with other groups and marks.
    pub fn with(&self, (group, mark): &GroupsAndMarks) -> Lent {
        Lent {
            group: group.clone(),
            mark: mark.clone(),
            ..self.clone()
        }
    }
}
