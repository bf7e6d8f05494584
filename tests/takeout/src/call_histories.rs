//! Larger sites by chance: batch after batch with refused ones among them, and tables that are damaged afterwards.

use crate::calls::Take;
use crate::chance::Chance;
use crate::cross_links::{links, numbers, Draw, DRAWS, MIXED};
use crate::file::{Link, BATCH_LIMIT, MACHINE_LIMIT};
use crate::large_sites;
use crate::lent::Lent;
use crate::reading::{Document01, Reading};
use crate::search::chokes;
use crate::shapes::{self, tree, RANDOM, SHUFFLED};
use crate::text::{Case, Letter};

/// Sites of 5 to 60 machines with damage to the tables that are left, and of 30 to 200 without.
pub fn all(take: Take) {
    let mut chance = Chance::seeded(12);
    for _ in 0..1_500 {
        let n = chance.between(5, 60);
        around(n, &mut chance, take);
    }
    for _ in 0..3_000 {
        let n = chance.between(30, 200);
        take(History::by_chance(n, &mut chance).case);
    }
}

/// Sites of hundreds of machines, of thousands in every shape, and one of as many machines and links as the calls take.
pub fn large(take: Take) {
    let mut chance = Chance::seeded(13);
    for _ in 0..60 {
        let n = chance.between(100, 700);
        around(n, &mut chance, take);
    }
    for site in large_sites::of_every_shape(&mut chance) {
        let batches = site.batches.iter().map(|links| numbers(links)).collect();
        take(History::of(&site.up, batches, &mut chance).case);
    }
    // The second time the batch changes nothing.
    let up = tree(RANDOM, SHUFFLED, MACHINE_LIMIT, &mut chance);
    let batch = numbers(&links(MIXED, BATCH_LIMIT, &up, &mut chance));
    take(History::of(&up, vec![batch.clone(), batch], &mut chance).case);
}

/// A history, and what it left: with a number changed here and there, and with slices of other lengths.
fn around(n: usize, chance: &mut Chance, take: Take) {
    let history = History::by_chance(n, chance);
    take(history.case);
    for _ in 0..3 {
        take(after(damaged(&history.left, chance), chance));
    }
    take(after(cut(&history.left, chance), chance));
}

/// A history of calls, and what is left after it.
struct History {
    case: Case,
    left: Lent,
}

impl History {
    /// Up to eight batches on a tree of n machines.
    fn by_chance(n: usize, chance: &mut Chance) -> History {
        let up = shapes::by_chance(n, chance);
        let draw = chance.pick(&DRAWS);
        let batches = (0..chance.between(1, 8))
            .map(|_| batch(&up, draw, chance))
            .collect();
        History::of(&up, batches, chance)
    }

    /// These batches one after another, with the tables after each and now and then a report.
    fn of(up: &[usize], batches: Vec<Vec<usize>>, chance: &mut Chance) -> History {
        let mut case = Case {
            lent: Lent::of_tree(up),
            letters: vec![Letter::Start],
        };
        let mut left = case.lent.clone();
        let _ = Document01.start(&mut left);
        let mut links: Vec<Link> = Vec::new();
        for batch in batches {
            if Document01.add(&mut left, &batch).is_ok() {
                links.extend(batch.chunks_exact(2).map(|ends| (ends[0], ends[1])));
            }
            case.letters.extend([Letter::Add(batch), Letter::Tables]);
            if chance.once_in(3) {
                case.letters.push(Letter::Report);
            }
        }
        case.letters.extend([Letter::Report, Letter::Tables]);
        let _ = Document01.report(&mut left);
        assert_eq!(
            chokes(up, &links).bytes(),
            (left.machines.clone(), left.links.clone()),
            "taking out and tables: {left:?}"
        );
        History { case, left }
    }
}

/// A few links, and once in three times something that may get the batch refused.
pub fn batch(up: &[usize], draw: Draw, chance: &mut Chance) -> Vec<usize> {
    let n = up.len();
    let most = chance.pick(&[1, 3, 2 + n / 4]);
    let count = chance.below(most + 1);
    let mut batch = numbers(&links(draw, count, up, chance));
    if chance.once_in(3) {
        let end = chance.pick(&[0, n - 1, n, n + 1, 65_535]);
        match (chance.below(3), batch.len()) {
            (0, _) | (_, 0) => batch.push(end),
            (1, length) => batch[chance.below(length)] = end,
            (_, length) => {
                // Both ends the same, in range or not.
                let at = chance.below(length / 2) * 2;
                (batch[at], batch[at + 1]) = (end, end);
            }
        }
    }
    batch
}

/// A batch, a report and every slice, on tables as they come.
fn after(lent: Lent, chance: &mut Chance) -> Case {
    let letters = vec![
        Letter::Add(batch(&lent.up, MIXED, chance)),
        Letter::Report,
        Letter::Tables,
    ];
    Case { lent, letters }
}

/// One to three entries changed, most of them to numbers that might be right.
fn damaged(lent: &Lent, chance: &mut Chance) -> Lent {
    let mut damaged = lent.clone();
    let n = lent.up.len();
    for _ in 0..chance.between(1, 3) {
        let v = chance.below(n);
        match chance.below(5) {
            0 => damaged.depth[v] = chance.pick(&[0, lent.depth[v] + 1, n, 65_535]),
            1 => damaged.group[v] = chance.pick(&[v, 0, n / 2, n, 65_535]),
            2 => damaged.group[v] = lent.group[chance.below(n)],
            _ => damaged.mark[v] = chance.pick(&[0, 1, 1, 2, 2, 3, 255]),
        }
    }
    damaged
}

/// One or two of the five slices an entry longer or shorter.
fn cut(lent: &Lent, chance: &mut Chance) -> Lent {
    let mut cut = lent.clone();
    for _ in 0..chance.between(1, 2) {
        let slice = match chance.below(5) {
            0 => &mut cut.depth,
            1 => &mut cut.group,
            2 => &mut cut.mark,
            3 => &mut cut.machines,
            _ => &mut cut.links,
        };
        if chance.once_in(2) {
            slice.push(0);
        } else {
            slice.pop();
        }
    }
    cut
}
