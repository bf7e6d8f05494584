//! Plans by chance for the writer, as they are and spoilt, into buffers that hold anything.

use crate::call_plans::{about, length, written};
use crate::calls::Take;
use crate::chance::Chance;
use crate::cross_links::MIXED;
use crate::plan::{Plan, Planned};
use crate::shapes;

pub fn all(take: Take) {
    let mut chance = Chance::seeded(14);
    for _ in 0..1_200 {
        random(take, &mut chance);
    }
    for _ in 0..40 {
        large(take, &mut chance);
    }
}

/// A plan of up to 40 machines, spoilt once in three times.
fn random(take: Take, chance: &mut Chance) {
    let n = chance.between(1, 40);
    let planned = Planned::by_chance(n, chance);
    let (mut up, mut plan) = (planned.up.clone(), planned.plan());
    if chance.once_in(3) {
        for _ in 0..chance.between(1, 2) {
            spoil(&mut up, &mut plan, chance);
        }
    }
    let rooms = match length(&up, &plan) {
        Some(length) => {
            let (shorter, longer) = (chance.below(length), length + chance.between(2, 300));
            vec![shorter, length - 1, length, length + 1, longer]
        }
        None => vec![chance.below(400)],
    };
    let buffers = rooms.iter().map(|&room| filled(room, chance)).collect();
    take(written(&up, &plan, buffers));
}

/// A buffer full of one byte, or of any.
pub fn filled(room: usize, chance: &mut Chance) -> Vec<usize> {
    if chance.once_in(2) {
        return vec![chance.pick(&[0, 4, 5, 255]); room];
    }
    (0..room).map(|_| chance.below(256)).collect()
}

/// One thing of a tree or its plan changed, mostly so that it is refused.
fn spoil(up: &mut [usize], plan: &mut Plan, chance: &mut Chance) {
    let n = up.len();
    let end = chance.pick(&[0, n - 1, n, n + 256, 65_535]);
    let (numbers, batches) = (plan.links.len(), plan.lengths.len());
    match chance.below(8) {
        0 => up[chance.below(n)] = end,
        1 => plan.reports.push(1),
        2 => drop(plan.reports.pop()),
        3 => drop(plan.links.pop()),
        4 if numbers > 0 => plan.links[chance.below(numbers)] = end,
        5 if numbers > 0 => {
            // Both ends the same, in range or not.
            let at = chance.below(numbers) / 2 * 2;
            plan.links[at..].iter_mut().take(2).for_each(|a| *a = end);
        }
        6 if batches > 0 => {
            // A number of one batch goes to another, or to the same, or comes from nowhere.
            plan.lengths[chance.below(batches)] += 1;
            let other = &mut plan.lengths[chance.below(batches)];
            *other = other.saturating_sub(1);
        }
        _ => plan.lengths.push(chance.pick(&[0, 1, 2, 65_534])),
    }
}

/// A plan of hundreds of machines and links.
fn large(take: Take, chance: &mut Chance) {
    let n = chance.between(200, 1_000);
    let up = shapes::by_chance(n, chance);
    let sizes: Vec<usize> = (0..chance.between(1, 4))
        .map(|_| chance.below(300))
        .collect();
    let planned = Planned::of_sizes(up, MIXED, &sizes, chance);
    take(about(&planned.up, &planned.plan(), 0));
}
