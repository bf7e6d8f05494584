//! Cross links by chance on a tree of two machines or more: sound ones, whatever links there are already.

use crate::chance::Chance;
use crate::file::Link;

/// A way to draw a link.
pub type Draw = fn(&[usize], &mut Chance) -> Link;

/// Over an uplink, up the line, or across to a near branch. Rings stay short: a site of many such links has marks of every
/// sort, and groups at every depth.
pub const NEAR: Draw = |up, chance| {
    let a = chance.below(up.len());
    let top = climb(up, a, chance.between(1, 5));
    let b = match chance.below(4) {
        0 => up[a],
        1 => top,
        _ => descend(up, top, chance.between(1, 5), chance),
    };
    either_way(up, a, b, chance)
};
/// Between any two, one of them the hub now and then.
pub const FAR: Draw = |up, chance| {
    let a = chance.below(up.len());
    let b = match chance.below(8) {
        0 => climb(up, a, up.len()),
        _ => chance.below(up.len()),
    };
    either_way(up, a, b, chance)
};
/// Near and far ones.
pub const MIXED: Draw = |up, chance| chance.pick(&[NEAR, FAR])(up, chance);
pub const DRAWS: [Draw; 3] = [NEAR, FAR, MIXED];

/// So many links.
pub fn links(draw: Draw, count: usize, up: &[usize], chance: &mut Chance) -> Vec<Link> {
    (0..count).map(|_| draw(up, chance)).collect()
}

/// The numbers of a batch: two for each link.
pub fn numbers(links: &[Link]) -> Vec<usize> {
    links.iter().flat_map(|&(a, b)| [a, b]).collect()
}

/// The link of two machines from an end by chance. Where they are one, its up stands in for the other, and a child for the hub's.
fn either_way(up: &[usize], a: usize, b: usize, chance: &mut Chance) -> Link {
    let b = match b {
        b if b != a => b,
        _ if up[a] != a => up[a],
        _ => descend(up, a, 1, chance),
    };
    if chance.once_in(2) {
        (a, b)
    } else {
        (b, a)
    }
}

/// The machine so many steps nearer the hub, or the hub.
fn climb(up: &[usize], from: usize, steps: usize) -> usize {
    (0..steps).fold(from, |here, _| up[here])
}

/// A machine so many steps below, each to a child by chance, or where the way ends.
fn descend(up: &[usize], from: usize, steps: usize, chance: &mut Chance) -> usize {
    (0..steps).fold(from, |here, _| {
        let children = |&v: &usize| v != here && up[v] == here;
        let children: Vec<usize> = (0..up.len()).filter(children).collect();
        match children[..] {
            [] => here,
            _ => chance.pick(&children),
        }
    })
}
