//! Good site files: every small site, and larger ones by chance.

use crate::chance::Chance;
use crate::cross_links::DRAWS;
use crate::draft::{Draft, Visit};
use crate::file::{check_tree, Link};
use crate::shapes;

/// Every site of up to 4 machines with each pair linked up to twice, whole and spread over two batches, and every site of 5
/// machines with each pair linked at most once. The pairs that are uplinks are among the pairs.
pub fn small(visit: Visit) {
    let mut chance = Chance::seeded(1);
    for n in 1..=4 {
        let pairs = pairs(n);
        for up in trees(n) {
            for counts in tables(pairs.len(), 3) {
                visit(&one_batch(&up, &pairs, &counts, &mut chance));
            }
            for shares in tables(pairs.len(), 4) {
                visit(&two_batches(&up, &pairs, &shares, &mut chance));
            }
        }
    }
    let pairs = pairs(5);
    for up in trees(5) {
        for counts in tables(pairs.len(), 2) {
            visit(&one_batch(&up, &pairs, &counts, &mut chance));
        }
    }
}

/// A site with pair i linked `counts[i]` times, in one batch with a report after it.
fn one_batch(up: &[usize], pairs: &[Link], counts: &[usize], chance: &mut Chance) -> Vec<u8> {
    let mut links = Vec::new();
    for (&pair, &count) in pairs.iter().zip(counts) {
        links.extend(std::iter::repeat_n(pair, count));
    }
    Draft::of_tree(up)
        .batch(&mixed(links, chance))
        .report()
        .bytes
}

/// A site with pair i linked in no batch, the first, the second or both, as `shares[i]` is 0 to 3, with a report after each.
fn two_batches(up: &[usize], pairs: &[Link], shares: &[usize], chance: &mut Chance) -> Vec<u8> {
    let mut draft = Draft::of_tree(up);
    for share in [1, 2] {
        let links = (0..pairs.len())
            .filter(|&i| shares[i] & share != 0)
            .map(|i| pairs[i])
            .collect();
        draft = draft.batch(&mixed(links, chance)).report();
    }
    draft.bytes
}

/// The same links in an order by chance, each from an end by chance: neither may matter.
fn mixed(mut links: Vec<Link>, chance: &mut Chance) -> Vec<Link> {
    chance.shuffle(&mut links);
    for link in &mut links {
        if chance.once_in(2) {
            *link = (link.1, link.0);
        }
    }
    links
}

/// All pairs of different machines, each once.
fn pairs(n: usize) -> Vec<Link> {
    (0..n).flat_map(|b| (0..b).map(move |a| (a, b))).collect()
}

/// Every table of `length` numbers below `bound`.
pub fn tables(length: usize, bound: usize) -> impl Iterator<Item = Vec<usize>> {
    let count = bound.pow(length as u32);
    (0..count).map(move |place| {
        let mut rest = place;
        let mut table = vec![0; length];
        for entry in &mut table {
            *entry = rest % bound;
            rest /= bound;
        }
        table
    })
}

/// Every up table of n machines that is a tree, with every machine as its hub.
pub fn trees(n: usize) -> Vec<Vec<usize>> {
    let trees: Vec<_> = tables(n, n).filter(|up| check_tree(up).is_ok()).collect();
    assert_eq!(
        trees.len(),
        n.pow(n as u32 - 1),
        "the labelled trees with a hub are n to the n - 1"
    );
    trees
}

/// Sites by chance of up to 200 machines, a third of them of at most 12, where rings meet more often.
pub fn random(visit: Visit) {
    let mut chance = Chance::seeded(2);
    for _ in 0..3_000 {
        for (least, most) in [(1, 12), (1, 100), (30, 200)] {
            let n = chance.between(least, most);
            visit(&by_chance(n, &mut chance).bytes);
        }
    }
}

/// A site of n machines by chance: a tree of some shape, up to five batches, and reports before, between and after them.
pub fn by_chance(n: usize, chance: &mut Chance) -> Draft {
    let up = shapes::by_chance(n, chance);
    let draw = chance.pick(&DRAWS);
    let mut draft = Draft::of_tree(&up);
    if chance.once_in(3) {
        draft = draft.report();
    }
    // Few links leave many chokes and many links leave few: take some sites of each sort.
    let most = chance.pick(&[1, 2 + n / 8, 2 + n / 2]);
    let mut so_far: Vec<Link> = Vec::new();
    for _ in 0..chance.below(6) {
        // At a single machine no link is sound, and its batches are empty.
        let count = if n == 1 { 0 } else { chance.below(most + 1) };
        let before = so_far.len();
        for _ in 0..count {
            let again = !so_far.is_empty() && chance.once_in(10);
            let link = if again {
                chance.pick(&so_far)
            } else {
                draw(&up, chance)
            };
            so_far.push(link);
        }
        draft = draft.batch(&so_far[before..]);
        if !chance.once_in(3) {
            draft = draft.report();
        }
    }
    draft.report()
}
