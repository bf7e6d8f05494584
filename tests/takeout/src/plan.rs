//! Plans to be written: what a site file says, and how the writer is lent it.

use crate::chance::Chance;
use crate::cross_links::{links, numbers, Draw, DRAWS};
use crate::file::Link;
use crate::shapes;

/// The batches of a plan as the writer is lent them, whatever the lists' lengths and whatever they hold.
#[derive(Clone, Debug, PartialEq)]
pub struct Plan {
    /// The numbers of all batches one after another, two a link.
    pub links: Vec<usize>,
    /// How many numbers each batch has.
    pub lengths: Vec<usize>,
    /// A byte for each batch, not 0 where a report is asked after it.
    pub reports: Vec<usize>,
}

impl Plan {
    /// The numbers of each batch. Where the lengths add up to more than there are, the last ones get what is left.
    pub fn batches(&self) -> Vec<&[usize]> {
        let mut rest = &self.links[..];
        let mut batches = Vec::new();
        for &length in &self.lengths {
            let (batch, after) = rest.split_at(length.min(rest.len()));
            batches.push(batch);
            rest = after;
        }
        batches
    }
}

/// A sound plan: a tree, the batches that are added to it, and a report byte for each.
pub struct Planned {
    pub up: Vec<usize>,
    pub batches: Vec<Vec<Link>>,
    pub reports: Vec<usize>,
}

impl Planned {
    /// Up to seven batches on a tree of n machines, which are at most 4,000.
    pub fn by_chance(n: usize, chance: &mut Chance) -> Planned {
        // At a single machine no link is sound, and its batches are empty.
        let most = match n {
            1 => 0,
            _ => chance.pick(&[1, 3, 2 + n / 4]),
        };
        let sizes: Vec<usize> = (0..chance.below(8))
            .map(|_| chance.below(most + 1))
            .collect();
        let up = shapes::by_chance(n, chance);
        Planned::of_sizes(up, chance.pick(&DRAWS), &sizes, chance)
    }

    /// Batches of so many links each on a tree, with report bytes by chance.
    pub fn of_sizes(up: Vec<usize>, draw: Draw, sizes: &[usize], chance: &mut Chance) -> Planned {
        let batch = |&size: &usize| links(draw, size, &up, chance);
        let batches = sizes.iter().map(batch).collect();
        let byte = |_: &usize| chance.pick(&[0, 1, 2, 255]);
        let reports = sizes.iter().map(byte).collect();
        Planned {
            up,
            batches,
            reports,
        }
    }

    pub fn plan(&self) -> Plan {
        let batches: Vec<Vec<usize>> = self.batches.iter().map(|batch| numbers(batch)).collect();
        Plan {
            links: batches.concat(),
            lengths: batches.iter().map(Vec::len).collect(),
            reports: self.reports.clone(),
        }
    }

    /// For each report, how many batches come before it.
    pub fn asked(&self) -> Vec<usize> {
        (0..self.batches.len())
            .filter(|&batch| self.reports[batch] != 0)
            .map(|batch| batch + 1)
            .collect()
    }
}
