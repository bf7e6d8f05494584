//! Files that are damaged as bytes or as records, whatever these say: too long, cut short, a kind that is unknown or out of
//! place, a number of machines that no site has, a byte changed, and noise.

use crate::chance::Chance;
use crate::draft::{Draft, Visit};
use crate::file::{body_length, Link, FILE_LIMIT};
use crate::sites::by_chance;

pub fn all(visit: Visit) {
    lengths(visit);
    sizes(visit);
    cuts(visit);
    kinds(visit);
    changes(visit);
    noise(visit);
}

/// Good files to be damaged: the document's example, the sites it works by hand, and some by chance.
fn samples() -> Vec<Draft> {
    let sites: [(&[usize], &[Link]); 9] = [
        (&[0, 0, 1, 1], &[(0, 2)]),
        (&[0], &[]),
        (&[0, 0], &[]),
        (&[0, 0], &[(0, 1)]),
        (&[0, 0, 0], &[]),
        (&[0, 0, 0], &[(1, 2)]),
        (&[0, 0, 1], &[]),
        (&[0, 0, 1], &[(0, 2)]),
        (&[0, 0, 1, 2, 3, 0], &[(1, 5), (1, 3), (2, 4)]),
    ];
    let by_hand = sites.map(|(up, links)| Draft::of_tree(up).batch(links).report());
    let mut chance = Chance::seeded(4);
    let others = [1, 2, 5, 8, 12, 20].map(|n| by_chance(n, &mut chance));
    by_hand.into_iter().chain(others).collect()
}

/// Files about as long as a file may be, and up to as long as the stream takes. 13 goes before all else, and no line of a
/// report is printed then.
fn lengths(visit: Visit) {
    visit(&[]);
    let good = &samples()[0].bytes;
    let starts: [&[u8]; 5] = [good, &[], &[0], &[1, 0, 0], &good[..9]];
    let endings: [&[u8]; 7] = [
        &[],
        &[0],
        &[1],
        &[3],
        &[3, 0, 0, 9, 0],
        &[3, 0, 0, 1, 0, 4],
        &[5],
    ];
    let about = FILE_LIMIT - 1..=FILE_LIMIT + 2;
    for length in about.chain([20_000, 32_767, 32_768, 65_535]) {
        for start in starts {
            for ending in endings {
                let mut bytes = start.to_vec();
                bytes.resize(length - ending.len(), 4);
                bytes.extend(ending);
                visit(&bytes);
            }
        }
    }
}

/// Every sort of n, alone and with something after it: a bad n is answered at once.
fn sizes(visit: Visit) {
    let sizes = [
        0, 1, 2, 255, 256, 257, 4_095, 4_096, 4_097, 4_098, 4_352, 8_192, 8_193, 32_767, 32_768,
        36_864, 65_535,
    ];
    let followers: [&[u8]; 8] = [
        &[],
        &[0],
        &[1],
        &[2],
        &[2, 0, 0],
        &[1, 1, 0],
        &[5],
        &[2, 0, 0, 5],
    ];
    for size in sizes {
        let [low, high] = u16::to_le_bytes(size);
        for follower in followers {
            visit(&[&[1, low, high], follower].concat());
        }
        visit(&[1, low]);
    }
    // 256 machines and 1 differ in the byte's place only.
    visit(&Draft::of_tree(&[0; 256]).report().bytes);
}

/// Samples cut short at every byte.
fn cuts(visit: Visit) {
    for sample in samples() {
        for length in 0..sample.bytes.len() {
            visit(&sample.bytes[..length]);
        }
    }
}

/// A kind that is unknown, or known and out of place, at every place where a record can begin.
fn kinds(visit: Visit) {
    let all: Vec<u8> = (0..=255).collect();
    let some: Vec<u8> = (0..=9).chain(0x80..=0x86).chain([254, 255]).collect();
    for (index, sample) in samples().iter().enumerate() {
        let bytes = &sample.bytes;
        let kinds = if index == 0 { &all } else { &some };
        let places = sample.records.iter().copied().chain([bytes.len()]);
        for place in places {
            let (before, after) = bytes.split_at(place);
            for &kind in kinds {
                // Alone at the end of the file, then put in with what follows, then in the place of the kind there.
                visit(&[before, &[kind]].concat());
                visit(&[before, &[kind], after].concat());
                visit(&[before, &[kind], after.get(1..).unwrap_or_default()].concat());
                // The same kind with a body, whole or cut short by the end of the file.
                for length in 1..=body_length(kind).unwrap_or(0) {
                    let body = &[1, 0, 0, 0][..length];
                    visit(&[before, &[kind], body].concat());
                    visit(&[before, &[kind], body, after].concat());
                }
            }
        }
    }
}

/// Good files by chance with a byte changed, put in or left out, or cut short, or two of these.
fn changes(visit: Visit) {
    let mut chance = Chance::seeded(7);
    for _ in 0..6_000 {
        let n = chance.between(1, 40);
        let mut bytes = by_chance(n, &mut chance).bytes;
        for _ in 0..chance.between(1, 2) {
            change(&mut bytes, &mut chance);
        }
        visit(&bytes);
    }
}

fn change(bytes: &mut Vec<u8>, chance: &mut Chance) {
    if bytes.is_empty() {
        return;
    }
    let at = chance.below(bytes.len());
    match chance.below(6) {
        0 => bytes[at] ^= 1 << chance.below(8),
        1 => bytes[at] = chance.byte(),
        2 => bytes[at] = chance.below(7) as u8,
        3 => bytes.insert(at, chance.below(7) as u8),
        4 => drop(bytes.remove(at)),
        _ => bytes.truncate(at),
    }
}

/// Every file of one byte, and files by chance: of bytes, of records with small numbers, and of such behind a whole tree.
fn noise(visit: Visit) {
    for byte in 0..=255 {
        visit(&[byte]);
    }
    let mut chance = Chance::seeded(8);
    for _ in 0..1_000 {
        let length = chance.below(64);
        let bytes: Vec<u8> = (0..length).map(|_| chance.byte()).collect();
        visit(&bytes);
    }
    for _ in 0..3_000 {
        visit(&records(&[1, 2, 2, 3, 3, 4, 5], 4, &mut chance));
    }
    for _ in 0..3_000 {
        let n = chance.between(1, 6);
        let up: Vec<usize> = (0..n).map(|v| chance.below(v.max(1))).collect();
        let after = records(&[2, 3, 3, 3, 4, 4, 4, 4, 5, 5], n + 1, &mut chance);
        visit(&[Draft::of_tree(&up).bytes, after].concat());
    }
}

/// Up to 15 records of these kinds with numbers below `bound`.
fn records(kinds: &[u8], bound: usize, chance: &mut Chance) -> Vec<u8> {
    let mut bytes = Vec::new();
    for _ in 0..chance.below(16) {
        let kind = chance.pick(kinds);
        bytes.push(kind);
        for _ in 0..body_length(kind).unwrap_or(0) / 2 {
            bytes.extend([chance.below(bound) as u8, 0]);
        }
    }
    bytes
}
