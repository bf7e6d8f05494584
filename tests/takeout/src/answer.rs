//! What `chokes` prints for a site file.

use crate::file::{Link, SiteFile};
use crate::search::{Chokes, Search};

/// What a site file is answered, and what was found of its cross links.
#[derive(Default)]
pub struct Told {
    /// The lines of every report and then of the refusal, if there is one.
    pub lines: String,
    /// How many cross links were taken out, over all reports.
    pub taken_out: usize,
    /// One that is a choke, if there is any: document 01 says that there never is.
    pub choke: Option<Link>,
}

impl Told {
    /// A report on the tree `up` with the links of these batches.
    pub fn report(&mut self, up: &[usize], batches: &[Vec<Link>], search: Search) {
        let links = batches.concat();
        let chokes = search(up, &links);
        self.lines += &report(up, &chokes);
        self.taken_out += links.len();
        self.choke = self.choke.or(chokes.cross_links.first().copied());
    }
}

pub fn answer(site: &SiteFile, search: Search) -> Told {
    let mut told = Told::default();
    for &closed in &site.reports {
        told.report(&site.up, &site.batches[..closed], search);
    }
    if let Some(refusal) = site.refusal {
        told.lines += &format!("R {} {}\n", refusal.code, refusal.value);
    }
    told
}

/// The lines of a report on a site of tree `up`.
fn report(up: &[usize], chokes: &Chokes) -> String {
    let machines: Vec<String> = (0..up.len())
        .filter(|&v| chokes.machines[v] != 0)
        .map(|v| format!("M {v} {}\n", chokes.machines[v]))
        .collect();
    let uplinks: Vec<String> = (0..up.len())
        .filter(|&v| chokes.uplinks[v])
        .map(|v| format!("L {v} {}\n", up[v]))
        .collect();
    let totals = format!("T {} {}\n", machines.len(), uplinks.len());
    machines.concat() + &uplinks.concat() + &totals
}
