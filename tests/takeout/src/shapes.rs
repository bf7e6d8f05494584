//! Trees by their shape, and by how their machines are numbered.

use crate::chance::Chance;

/// The up of machine v, which is not 0, among n machines that are laid from the hub on: the hub is 0, and an up is before v.
pub type Shape = fn(usize, usize, &mut Chance) -> usize;

/// Each machine below any earlier one.
pub const RANDOM: Shape = |v, _, chance| chance.below(v);
/// Each machine below one of the latest three: deep, with short branches.
const DEEP: Shape = |v, _, chance| v - chance.between(1, v.min(3));
pub const PATH: Shape = |v, _, _| v - 1;
pub const STAR: Shape = |_, _, _| 0;
/// A path with legs.
const CATERPILLAR: Shape = |v, n, chance| match n.div_ceil(2) {
    half if v < half => v - 1,
    half => chance.below(half),
};
/// A path with a star at its foot.
const BROOM: Shape = |v, n, _| (v - 1).min(n.div_ceil(2));
/// A path with a tooth below each of its machines, all of one length. It is laid tooth by tooth.
const COMB: Shape = |v, n, _| match n.isqrt() {
    pitch if v % pitch == 0 => v - pitch,
    _ => v - 1,
};
/// A comb whose teeth all end at one depth: wherever its back forks, both ways down are as long.
const SLANTED_COMB: Shape = |v, n, _| {
    let fits = |longest: &usize| longest * (longest + 3) / 2 >= n;
    let mut tooth = (1..).find(fits).expect("teeth as long as n are enough");
    let (mut back, mut next) = (0, tooth + 1);
    while v > next {
        tooth -= 1;
        (back, next) = (next, next + tooth + 1);
    }
    if v == next {
        back
    } else {
        v - 1
    }
};
/// Two machines below each.
const BINARY: Shape = |v, _, _| (v - 1) / 2;
pub const SHAPES: [Shape; 9] = [
    RANDOM,
    DEEP,
    PATH,
    STAR,
    CATERPILLAR,
    BROOM,
    COMB,
    SLANTED_COMB,
    BINARY,
];

/// The numbers of n machines in the order in which they are laid.
pub type Numbering = fn(usize, &mut Chance) -> Vec<usize>;

const RISING: Numbering = |n, _| (0..n).collect();
const FALLING: Numbering = |n, _| (0..n).rev().collect();
pub const SHUFFLED: Numbering = |n, chance| {
    let mut numbers: Vec<usize> = (0..n).collect();
    chance.shuffle(&mut numbers);
    numbers
};
pub const NUMBERINGS: [Numbering; 3] = [RISING, FALLING, SHUFFLED];

/// The up table of n machines in that shape, with these numbers.
pub fn tree(shape: Shape, numbering: Numbering, n: usize, chance: &mut Chance) -> Vec<usize> {
    let numbers = numbering(n, chance);
    let mut up = vec![numbers[0]; n];
    for v in 1..n {
        up[numbers[v]] = numbers[shape(v, n, chance)];
    }
    up
}

/// The same in any shape, with any numbers.
pub fn by_chance(n: usize, chance: &mut Chance) -> Vec<usize> {
    let (shape, numbering) = (chance.pick(&SHAPES), chance.pick(&NUMBERINGS));
    tree(shape, numbering, n, chance)
}

/// A path of n machines in number order from the hub.
pub fn path(n: usize) -> Vec<usize> {
    (0..n).map(|v| v.saturating_sub(1)).collect()
}
