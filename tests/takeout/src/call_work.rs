//! Histories that cause as much work as their trees allow: batch after batch, with refused ones among them where there are
//! links at all, until every mark is as high as it goes. The law that their lines keep is in `work`.

use crate::call_histories::batch;
use crate::calls::Take;
use crate::chance::Chance;
use crate::cross_links::{numbers, DRAWS};
use crate::file::{Link, BATCH_LIMIT, MACHINE_LIMIT};
use crate::lent::Lent;
use crate::reached::Reached;
use crate::reading::Document01;
use crate::search::chokes;
use crate::shapes::{self, tree, PATH, RANDOM, SHUFFLED, STAR};
use crate::sites::trees;
use crate::text::{Case, Letter};
use crate::work::{hub_children, most, works, Work};

pub fn all(take: Take) {
    worked(take);
    from_every_table(take);
    of_five(take);
    by_chance(take);
}

/// Document 01's worked sites P3, P5, P7 and P8, each with its batch and by how much that makes marks rise. P8's rise could be
/// one more, the others' are the most already.
const WORKED: [(&[usize], &[Link], usize); 4] = [
    (&[0, 0], &[(0, 1)], 1),
    (&[0, 0, 0], &[(1, 2)], 2),
    (&[0, 0, 1], &[(0, 2)], 3),
    (&[0, 0, 1, 2, 3, 0], &[(1, 5), (1, 3), (2, 4)], 7),
];

fn worked(take: Take) {
    for (up, links, rise) in WORKED {
        let case = to_the_most(up, vec![numbers(links)], BATCH_LIMIT);
        assert_eq!(after(&case, 1).rises, rise, "a worked site: {up:?}");
        take(case);
    }
}

/// On every tree of up to 4 machines: link by link to each table that a history leaves, and on from there. The marks of these
/// tables are counted as well.
fn from_every_table(take: Take) {
    let (mut tables, mut one_more) = (0, 0);
    for reached in (1..=4).flat_map(trees).map(|up| Reached::on(&up)) {
        let up = &reached.fresh.up;
        let sums = reached.tables.keys().map(|(_, marks)| marks.iter().sum());
        assert_eq!(sums.max(), Some(most(up)), "marks added up: {up:?}");
        for links in reached.tables.values() {
            let batches = links.iter().map(|&link| numbers(&[link])).collect();
            let case = to_the_most(up, batches, BATCH_LIMIT);
            let Work { rises, moves, .. } = after(&case, links.len());
            assert_eq!(
                moves,
                taken_out_moves(up, links),
                "labels: {up:?} {links:?}"
            );
            tables += 1;
            one_more += usize::from(moves == rises + 1);
            take(case);
        }
    }
    println!(
        "takeout: {tables} tables that histories leave: the marks add up to the most of each tree and never to more; \
         for {one_more} of them one label more moved than they add up to, and never two"
    );
}

/// Every tree of 5 machines, link by link.
fn of_five(take: Take) {
    for up in trees(5) {
        take(to_the_most(&up, Vec::new(), 1));
    }
}

/// Trees of every shape, with up to three batches by chance first.
fn by_chance(take: Take) {
    let mut chance = Chance::seeded(19);
    for (count, least, greatest) in [(900, 2, 40), (100, 40, 400)] {
        for _ in 0..count {
            let n = chance.between(least, greatest);
            let up = shapes::by_chance(n, &mut chance);
            let draw = chance.pick(&DRAWS);
            let batches = (0..chance.below(4))
                .map(|_| batch(&up, draw, &mut chance))
                .collect();
            take(to_the_most(&up, batches, 1 + chance.pick(&[n / 4, n])));
        }
    }
}

/// A path, a star and a tree by chance of as many machines as a site has, with as many links in a batch as it takes.
pub fn large(take: Take) {
    let mut chance = Chance::seeded(20);
    let [path, star, random] =
        [PATH, STAR, RANDOM].map(|shape| tree(shape, SHUFFLED, MACHINE_LIMIT, &mut chance));
    let expected = [(8_189, 8_189), (4_095, 4_096), (8_183, 6_153)];
    for (up, (sum, labels)) in [path, star, random].iter().zip(expected) {
        let case = to_the_most(up, Vec::new(), BATCH_LIMIT);
        let batches = case.letters.len() / 3 - 1;
        let Work {
            rises,
            moves,
            refusals,
        } = after(&case, batches);
        assert_eq!((rises, moves), (sum, labels), "as many machines as may be");
        assert!(refusals > 0, "a refused batch has a value");
        take(case);
    }
}

/// `trial` takes 64 letters of a site, the bracket behind them included.
const MOST_LETTERS: usize = 63;

/// These batches on fresh tables, and behind them the links that bring the marks to the most, so many a batch. Before each of
/// those comes the same with a bad link at its end, which is refused. After Start and each batch come a report and the tables.
fn to_the_most(up: &[usize], mut batches: Vec<Vec<usize>>, size: usize) -> Case {
    for links in [raising(up), joining(up)].concat().chunks(size) {
        let no_machine = up.len();
        batches.push(numbers(&[links, &[(0, no_machine)]].concat()));
        batches.push(numbers(links));
    }
    let calls = batches.into_iter().map(Letter::Add);
    let letters: Vec<Letter> = std::iter::once(Letter::Start)
        .chain(calls)
        .flat_map(|call| [call, Letter::Report, Letter::Tables])
        .collect();
    assert!(letters.len() <= MOST_LETTERS, "trial takes every letter");
    Case {
        lent: Lent::of_tree(up),
        letters,
    }
}

/// Links that bring each mark as high as it goes: one from each machine but the hub to the up of its up. For the hub's
/// children that is one more cable beside their uplink.
fn raising(up: &[usize]) -> Vec<Link> {
    (0..up.len())
        .filter(|&v| up[v] != v)
        .map(|v| (v, up[up[v]]))
        .collect()
}

/// Links that join the hub's children. No mark rises by them any more, but the hub's label moves.
fn joining(up: &[usize]) -> Vec<Link> {
    let children = hub_children(up);
    children.windows(2).map(|two| (two[0], two[1])).collect()
}

/// The work after so many batches, by takeout's own reading.
fn after(case: &Case, batches: usize) -> Work {
    let (line, _) = case.printed(&Document01);
    let works = works(&case.lent.up, &line).expect("takeout's own reading keeps the law");
    let mut after = works.into_iter().skip(batches);
    after.next().expect("there are so many batches")
}

/// How many labels are others with these links than with none, by taking out.
fn taken_out_moves(up: &[usize], links: &[Link]) -> usize {
    let labels = |links| {
        let (machines, uplinks) = chokes(up, links).bytes();
        [machines, uplinks].concat()
    };
    let both = labels(&[]).into_iter().zip(labels(links));
    both.filter(|(was, is)| was != is).count()
}
