//! Large sites: of hundreds of machines by chance, of thousands in every shape, and as large as a site and its file can be.

use crate::chance::Chance;
use crate::cross_links::{links, Draw, FAR, MIXED, NEAR};
use crate::draft::{Draft, Visit};
use crate::file::{Link, FILE_LIMIT, MACHINE_LIMIT};
use crate::shapes::{path, tree, NUMBERINGS, RANDOM, SHAPES, SHUFFLED};
use crate::sites::by_chance;

pub fn all(visit: Visit) {
    let mut chance = Chance::seeded(3);
    for _ in 0..60 {
        let n = chance.between(101, 300);
        visit(&by_chance(n, &mut chance).bytes);
    }
    for site in of_every_shape(&mut chance) {
        let bytes = site.draft(&mut chance).bytes;
        assert!(bytes.len() <= FILE_LIMIT, "its file is not refused with 13");
        visit(&bytes);
    }
    // A path from end to end in number order, the hub at its foot and at its head, and the link that makes it a ring.
    let last = MACHINE_LIMIT - 1;
    let downward = (0..MACHINE_LIMIT).map(|v| (v + 1).min(last)).collect();
    for up in [path(MACHINE_LIMIT), downward] {
        let tree = Draft::of_tree(&up).report();
        visit(&tree.batch(&[(0, last)]).report().bytes);
    }
    // As many links as there is room for beside 4,096 machines, and not a byte left over.
    let up = tree(RANDOM, SHUFFLED, MACHINE_LIMIT, &mut chance);
    let batch = links(MIXED, 818, &up, &mut chance);
    let full = Draft::of_tree(&up).batch(&batch).report().report().bytes;
    assert_eq!(full.len(), FILE_LIMIT);
    visit(&full);
}

/// A tree, and batches to be added one after another.
pub struct Site {
    pub up: Vec<usize>,
    pub batches: Vec<Vec<Link>>,
}

/// How the links of a large site are drawn, and how many each batch has: a single one, 870 at once, and as many in batches that
/// grow, each on the marks and groups that the earlier ones left.
const LOADS: [(Draw, &[usize]); 3] = [
    (FAR, &[1]),
    (MIXED, &[870]),
    (NEAR, &[0, 1, 2, 5, 20, 100, 742]),
];

/// Sites of 4,000 machines: every shape, with every numbering, under every load.
pub fn of_every_shape(chance: &mut Chance) -> Vec<Site> {
    let mut sites = Vec::new();
    for shape in SHAPES {
        for numbering in NUMBERINGS {
            for (draw, sizes) in LOADS {
                let up = tree(shape, numbering, 4_000, chance);
                let batch = |&size: &usize| links(draw, size, &up, chance);
                let batches = sizes.iter().map(batch).collect();
                sites.push(Site { up, batches });
            }
        }
    }
    sites
}

impl Site {
    /// The site's file, with a report at the end, and after an earlier batch once in three times.
    fn draft(&self, chance: &mut Chance) -> Draft {
        let mut draft = Draft::of_tree(&self.up);
        for (place, batch) in self.batches.iter().enumerate() {
            draft = draft.batch(batch);
            if place + 1 == self.batches.len() || chance.once_in(3) {
                draft = draft.report();
            }
        }
        draft
    }
}
