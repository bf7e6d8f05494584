//! Chokes by their definition: take out one machine or one cable and search what is left.

use crate::file::Link;

/// The chokes of a site.
pub struct Chokes {
    /// For each machine: 0 if the others stay joined without it, else 2 for the hub and 1 for any other.
    pub machines: Vec<u8>,
    /// For each machine: whether taking out its uplink's cable parts its ends. Never so for the hub, which has no uplink.
    pub uplinks: Vec<bool>,
    /// The cross links whose ends are parted when that one cable is taken out. The other cables over the same pair stay.
    pub cross_links: Vec<Link>,
}

impl Chokes {
    /// The machine bytes and the link bytes that a report has for them.
    pub fn bytes(&self) -> (Vec<usize>, Vec<usize>) {
        let machines = self.machines.iter().map(|&byte| usize::from(byte));
        let uplinks = self.uplinks.iter().map(|&choke| usize::from(choke));
        (machines.collect(), uplinks.collect())
    }
}

/// A way to find the chokes of the tree `up` with cross links `links`.
pub type Search = fn(&[usize], &[Link]) -> Chokes;

/// Takes out each machine and each cable in turn.
pub fn chokes(up: &[usize], links: &[Link]) -> Chokes {
    let mut site = Cables::new(up, links);
    let n = up.len();
    let mut machine_byte = |v: usize| match (site.joined_without_machine(v), up[v] == v) {
        (true, _) => 0,
        (false, true) => 2,
        (false, false) => 1,
    };
    let machines = (0..n).map(&mut machine_byte).collect();
    let uplinks = (0..n)
        .map(|v| up[v] != v && !site.joined_without_cable(v, (v, up[v])))
        .collect();
    let cross_links = (0..links.len())
        .filter(|&k| !site.joined_without_cable(n + k, links[k]))
        .map(|k| links[k])
        .collect();
    Chokes {
        machines,
        uplinks,
        cross_links,
    }
}

/// A site as a list of cables at each machine. Cable v is the uplink of machine v; the cross links follow from cable n on.
struct Cables {
    /// For each machine, the far end and the number of each cable that ends at it.
    at: Vec<Vec<(usize, usize)>>,
    /// Which machines the latest search has seen: those that bear its number.
    seen: Vec<usize>,
    searches: usize,
}

#[derive(Clone, Copy, PartialEq)]
enum Taken {
    Machine(usize),
    Cable(usize),
}

impl Cables {
    fn new(up: &[usize], links: &[Link]) -> Cables {
        let n = up.len();
        let mut at = vec![Vec::new(); n];
        let ends = up.iter().copied().enumerate().chain(links.iter().copied());
        for (cable, (a, b)) in ends.enumerate() {
            // Only the hub's entry names one machine twice, and it is no cable.
            if a != b {
                at[a].push((b, cable));
                at[b].push((a, cable));
            }
        }
        Cables {
            at,
            seen: vec![0; n],
            searches: 0,
        }
    }

    /// Sees every machine that `start` is joined to when `taken` is out, up to the one that is looked for, and says how many
    /// they are, `start` included.
    fn search(&mut self, start: usize, taken: Taken, wanted: Option<usize>) -> usize {
        self.searches += 1;
        self.seen[start] = self.searches;
        let mut waiting = vec![start];
        let mut count = 1;
        while let Some(machine) = waiting.pop() {
            for &(far, cable) in &self.at[machine] {
                let out = taken == Taken::Machine(far) || taken == Taken::Cable(cable);
                if !out && self.seen[far] != self.searches {
                    self.seen[far] = self.searches;
                    count += 1;
                    if wanted == Some(far) {
                        return count;
                    }
                    waiting.push(far);
                }
            }
        }
        count
    }

    /// Whether all other machines are joined when `machine` is taken out, with every cable that ends there.
    fn joined_without_machine(&mut self, machine: usize) -> bool {
        let others = self.at.len() - 1;
        let start = if machine == 0 { 1 } else { 0 };
        others == 0 || self.search(start, Taken::Machine(machine), None) == others
    }

    /// Whether the two ends of one cable are joined when it is taken out.
    fn joined_without_cable(&mut self, cable: usize, (a, b): Link) -> bool {
        self.search(a, Taken::Cable(cable), Some(b));
        self.seen[b] == self.searches
    }
}
