//! Document 01's three calls, by the plainest code that its words allow. Nothing is clever and nothing is quick: lines are
//! climbed to the hub, groups are looked through whole.

use crate::file::{check_link, check_numbers, check_size, check_tree, refuse, Refusal};
use crate::lent::{line, Answer, Lent};
use crate::rules::{least_breaking, Rule, RULES};
use crate::writing::{Document02, Writing};

/// A reading of document 01. Each stand-in has one part of its own in place of what is said here.
pub trait Reading {
    /// A tree to fresh tables.
    fn start(&self, lent: &mut Lent) -> Answer {
        let n = lent.up.len();
        check_size(n)?;
        self.check_lengths(n, &[&lent.depth, &lent.group, &lent.mark])?;
        check_tree(&lent.up)?;
        lent.depth = (0..n).map(|v| self.steps(&lent.up, v)).collect();
        lent.group = (0..n).collect();
        lent.mark = vec![0; n];
        Ok(n)
    }

    /// A batch of cross links.
    fn add(&self, lent: &mut Lent, batch: &[usize]) -> Answer {
        let n = lent.up.len();
        check_size(n)?;
        self.check_lengths(n, &[&lent.depth, &lent.group, &lent.mark])?;
        check_tree(&lent.up)?;
        self.check_tables(lent)?;
        self.check_batch(lent, batch)?;
        let before = lent.mark.clone();
        for ends in batch.chunks_exact(2) {
            self.link(lent, ends[0], ends[1]);
        }
        Ok(self.rise(&before, &lent.mark))
    }

    /// Choke machines and choke uplinks.
    fn report(&self, lent: &mut Lent) -> Answer {
        let n = lent.up.len();
        check_size(n)?;
        let slices = [
            &lent.depth,
            &lent.group,
            &lent.mark,
            &lent.machines,
            &lent.links,
        ];
        self.check_lengths(n, &slices.map(|slice| &slice[..]))?;
        check_tree(&lent.up)?;
        self.check_tables(lent)?;
        lent.machines = (0..n).map(|w| machine_byte(lent, w)).collect();
        lent.links = (0..n)
            .map(|v| usize::from(lent.up[v] != v && lent.mark[v] == 0))
            .collect();
        Ok(lent.machines.iter().filter(|&&byte| byte != 0).count())
    }

    /// Code 2: the number of the first slice that is not of length n.
    fn check_lengths(&self, n: usize, slices: &[&[usize]]) -> Result<(), Refusal> {
        match slices.iter().position(|slice| slice.len() != n) {
            Some(place) => refuse(2, place + 1),
            None => Ok(()),
        }
    }

    /// Code 6.
    fn check_tables(&self, lent: &Lent) -> Result<(), Refusal> {
        match least_breaking(lent, &self.rules()) {
            Some(machine) => refuse(6, machine),
            None => Ok(()),
        }
    }

    fn rules(&self) -> Vec<Rule> {
        RULES.iter().map(|&(_, rule)| rule).collect()
    }

    /// Codes 7 to 9. The tables are lent for a stand-in that spoils them here.
    fn check_batch(&self, lent: &mut Lent, batch: &[usize]) -> Result<(), Refusal> {
        check_numbers(batch.len())?;
        let n = lent.up.len();
        for (index, ends) in batch.chunks_exact(2).enumerate() {
            self.check_link(n, index, ends[0], ends[1])?;
        }
        Ok(())
    }

    fn check_link(&self, n: usize, index: usize, a: usize, b: usize) -> Result<(), Refusal> {
        check_link(n, index, a, b)
    }

    /// The steps from v to the hub.
    fn steps(&self, up: &[usize], v: usize) -> usize {
        line(up, v).len() - 1
    }

    /// What the link (a, b) does to the tables.
    fn link(&self, lent: &mut Lent, a: usize, b: usize) {
        let (from_a, from_b) = (line(&lent.up, a), line(&lent.up, b));
        let w = self.meet(&from_a, &from_b);
        let mut below_w = Vec::new();
        for line in [from_a, from_b] {
            let arm: Vec<usize> = line.into_iter().take_while(|&x| x != w).collect();
            self.raise(lent, &arm, w);
            below_w.extend(arm.last().copied());
        }
        if let [one, other] = below_w[..] {
            self.join(lent, one, other);
        }
    }

    /// Where two lines to the hub meet: seen from the hub, the last machine before they part.
    fn meet(&self, from_a: &[usize], from_b: &[usize]) -> usize {
        let from_the_hub = from_a.iter().rev().zip(from_b.iter().rev());
        let shared = from_the_hub.take_while(|(x, y)| x == y).last();
        *shared.expect("both lines end at the hub").0
    }

    /// The marks of one arm of a ring: its machines from the link's end up to the child of the meeting machine w.
    fn raise(&self, lent: &mut Lent, arm: &[usize], w: usize) {
        for &x in arm {
            let mark = if lent.up[x] == w { 1 } else { 2 };
            lent.mark[x] = lent.mark[x].max(mark);
        }
    }

    /// One group of the groups of two siblings.
    fn join(&self, lent: &mut Lent, one: usize, other: usize) {
        let mut members = lent.members(lent.group[one]);
        members.extend(lent.members(lent.group[other]));
        let name = self.name(&members);
        for member in members {
            lent.group[member] = name;
        }
    }

    fn name(&self, members: &[usize]) -> usize {
        *members.iter().min().expect("a group has a member")
    }

    /// The total by which marks rose.
    fn rise(&self, before: &[usize], after: &[usize]) -> usize {
        after.iter().sum::<usize>() - before.iter().sum::<usize>()
    }

    /// The writer of site files, which has parts of its own.
    fn writer(&self) -> &dyn Writing {
        &Document02
    }
}

/// Takeout's own reading.
pub struct Document01;

impl Reading for Document01 {}

fn machine_byte(lent: &Lent, w: usize) -> usize {
    let is_hub = lent.up[w] == w;
    let children = lent.children(w);
    let carried = |&name: &usize| lent.members(name).iter().any(|&m| lent.mark[m] == 2);
    let mut names: Vec<usize> = children.iter().map(|&child| lent.group[child]).collect();
    names.sort();
    names.dedup();
    if !is_hub && !names.iter().all(carried) {
        return 1;
    }
    if is_hub && names.len() >= 2 {
        return 2;
    }
    let mut uplinks = children;
    if !is_hub {
        uplinks.push(w);
    }
    if uplinks.len() >= 2 && uplinks.iter().any(|&v| lent.mark[v] == 0) {
        return 3;
    }
    0
}
