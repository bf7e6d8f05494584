//! Stand-ins for `trial` that answer its text by takeout's own reading, each with a fault: `calls` has to catch them.

use std::io::{self, BufWriter, Read, Write};

use crate::file::{refuse, Refusal};
use crate::lent::{line, Answer, Lent};
use crate::reading::{Document01, Reading};
use crate::rules::{Rule, RULES};
use crate::text::{self, Part};

/// The names of all faulty readings. Every rule behind code 6 is left out by one.
pub fn names() -> Vec<String> {
    let others = OTHERS.iter().map(|(name, _)| name.to_string());
    let rules = RULES.iter().map(|(rule, _)| without(rule));
    others.chain(rules).collect()
}

pub fn named(name: &str) -> Option<Box<dyn Reading>> {
    if let Some(place) = RULES.iter().position(|(rule, _)| without(rule) == name) {
        return Some(Box::new(RuleLeftOut(place)));
    }
    let (_, make) = OTHERS.iter().find(|(other, _)| *other == name)?;
    Some(make())
}

fn without(rule: &str) -> String {
    format!("no-{rule}-rule")
}

/// Answers the text on standard input.
pub fn serve(reading: &dyn Reading) -> io::Result<()> {
    let mut text = Vec::new();
    io::stdin().read_to_end(&mut text)?;
    let mut out = BufWriter::new(io::stdout().lock());
    for part in text::read(&text) {
        match part {
            Part::Plain(byte) => out.write_all(&[byte])?,
            Part::Site(case) => out.write_all(case.printed(reading).0.as_bytes())?,
        }
    }
    out.flush()
}

type Make = fn() -> Box<dyn Reading>;

const OTHERS: [(&str, Make); 19] = [
    ("nine-before-eight", || Box::new(NineBeforeEight)),
    ("odd-length-taken", || Box::new(OddLengthTaken)),
    ("last-slice-named", || Box::new(LastSliceNamed)),
    ("hub-depth-one", || Box::new(HubDepthOne)),
    ("rise-one-too-much", || Box::new(RiseOneTooMuch)),
    ("links-counted", || Box::new(LinksCounted)),
    ("marks-totalled", || Box::new(MarksTotalled)),
    ("last-rise-missed", || Box::new(LastRiseMissed)),
    ("greatest-name", || Box::new(GreatestName)),
    ("good-links-first", || Box::new(GoodLinksFirst)),
    ("carried-at-w", || Box::new(CarriedAtW)),
    ("carried-below-w", || Box::new(CarriedBelowW)),
    ("ringed-for-good", || Box::new(RingedForGood)),
    ("stops-at-ringed", || Box::new(StopsAtRinged)),
    ("stops-after-sixteen", || Box::new(StopsAfterSixteen)),
    ("meets-too-high", || Box::new(MeetsTooHigh)),
    ("members-left-behind", || Box::new(MembersLeftBehind)),
    ("groups-forgotten", || Box::new(GroupsForgotten)),
    ("ringed-is-enough", || Box::new(RingedIsEnough)),
];

/// One rule behind code 6 is not looked at.
struct RuleLeftOut(usize);

impl Reading for RuleLeftOut {
    fn rules(&self) -> Vec<Rule> {
        let mut rules = Document01.rules();
        rules.remove(self.0);
        rules
    }
}

/// Equal ends are looked for before ends out of range.
struct NineBeforeEight;

impl Reading for NineBeforeEight {
    fn check_link(&self, n: usize, index: usize, a: usize, b: usize) -> Result<(), Refusal> {
        if a == b {
            return refuse(9, index);
        }
        Document01.check_link(n, index, a, b)
    }
}

/// A number left over at the end of a batch is passed over.
struct OddLengthTaken;

impl Reading for OddLengthTaken {
    fn check_batch(&self, lent: &mut Lent, batch: &[usize]) -> Result<(), Refusal> {
        let whole = batch.len() / 2 * 2;
        Document01.check_batch(lent, &batch[..whole])
    }
}

/// Of two slices of a wrong length the later is named.
struct LastSliceNamed;

impl Reading for LastSliceNamed {
    fn check_lengths(&self, n: usize, slices: &[&[usize]]) -> Result<(), Refusal> {
        match slices.iter().rposition(|slice| slice.len() != n) {
            Some(place) => refuse(2, place + 1),
            None => Ok(()),
        }
    }
}

/// Depths count machines and not steps.
struct HubDepthOne;

impl Reading for HubDepthOne {
    fn steps(&self, up: &[usize], v: usize) -> usize {
        line(up, v).len()
    }
}

struct RiseOneTooMuch;

impl Reading for RiseOneTooMuch {
    fn rise(&self, before: &[usize], after: &[usize]) -> usize {
        Document01.rise(before, after) + 1
    }
}

/// Add answers how many links it took.
struct LinksCounted;

impl Reading for LinksCounted {
    fn add(&self, lent: &mut Lent, batch: &[usize]) -> Answer {
        Document01.add(lent, batch)?;
        Ok(batch.len() / 2)
    }
}

/// Add answers the marks added up, whatever they were before.
struct MarksTotalled;

impl Reading for MarksTotalled {
    fn rise(&self, _: &[usize], after: &[usize]) -> usize {
        after.iter().sum()
    }
}

/// The last machine's rise is not counted.
struct LastRiseMissed;

impl Reading for LastRiseMissed {
    fn rise(&self, before: &[usize], after: &[usize]) -> usize {
        let last = after.len() - 1;
        Document01.rise(&before[..last], &after[..last])
    }
}

/// A group is named by its greatest machine.
struct GreatestName;

impl Reading for GreatestName {
    fn name(&self, members: &[usize]) -> usize {
        *members.iter().max().expect("a group has a member")
    }
}

/// The good links before a bad one are used.
struct GoodLinksFirst;

impl Reading for GoodLinksFirst {
    fn check_batch(&self, lent: &mut Lent, batch: &[usize]) -> Result<(), Refusal> {
        let outcome = Document01.check_batch(lent, batch);
        if let Err(Refusal {
            code: 8 | 9,
            value: index,
        }) = outcome
        {
            for ends in batch[..2 * index].chunks_exact(2) {
                self.link(lent, ends[0], ends[1]);
            }
        }
        outcome
    }
}

/// The paper's words taken literally: whatever is on a ring is safe where the ring's meeting machine is not its parent, and
/// the meeting machine itself is on the ring.
struct CarriedAtW;

impl Reading for CarriedAtW {
    fn raise(&self, lent: &mut Lent, arm: &[usize], w: usize) {
        Document01.raise(lent, arm, w);
        if lent.up[w] != w {
            lent.mark[w] = 2;
        }
    }
}

/// A child of the ring's meeting machine gets no lower mark than the others.
struct CarriedBelowW;

impl Reading for CarriedBelowW {
    fn raise(&self, lent: &mut Lent, arm: &[usize], _: usize) {
        for &x in arm {
            lent.mark[x] = 2;
        }
    }
}

/// A mark of 1 rises no more.
struct RingedForGood;

impl Reading for RingedForGood {
    fn raise(&self, lent: &mut Lent, arm: &[usize], w: usize) {
        let bare = arm.iter().copied().filter(|&x| lent.mark[x] == 0);
        Document01.raise(lent, &bare.collect::<Vec<_>>(), w);
    }
}

/// The way up ends at the first machine that is ringed already.
struct StopsAtRinged;

impl Reading for StopsAtRinged {
    fn raise(&self, lent: &mut Lent, arm: &[usize], w: usize) {
        let fresh = arm.iter().take_while(|&&x| lent.mark[x] == 0).count();
        Document01.raise(lent, &arm[..fresh], w);
    }
}

/// The way up ends after sixteen machines.
struct StopsAfterSixteen;

impl Reading for StopsAfterSixteen {
    fn raise(&self, lent: &mut Lent, arm: &[usize], w: usize) {
        Document01.raise(lent, &arm[..arm.len().min(16)], w);
    }
}

/// Where both arms of a ring have three machines or more, it closes one machine nearer the hub.
struct MeetsTooHigh;

impl Reading for MeetsTooHigh {
    fn meet(&self, from_a: &[usize], from_b: &[usize]) -> usize {
        let w = Document01.meet(from_a, from_b);
        let arms = [from_a, from_b].map(|line| line.iter().take_while(|&&x| x != w).count());
        let above = from_a.get(arms[0] + 1).unwrap_or(&w);
        if arms.iter().all(|&arm| arm >= 3) {
            *above
        } else {
            w
        }
    }
}

/// When two groups join, the machines that named them get the new name and the other members keep the old.
struct MembersLeftBehind;

impl Reading for MembersLeftBehind {
    fn join(&self, lent: &mut Lent, one: usize, other: usize) {
        let names = [lent.group[one], lent.group[other]];
        for name in names {
            lent.group[name] = self.name(&names);
        }
    }
}

/// Each batch begins with every machine alone.
struct GroupsForgotten;

impl Reading for GroupsForgotten {
    fn check_batch(&self, lent: &mut Lent, batch: &[usize]) -> Result<(), Refusal> {
        Document01.check_batch(lent, batch)?;
        lent.group = (0..lent.up.len()).collect();
        Ok(())
    }
}

/// A machine is no choke once every machine below it is ringed, carried past it or not.
struct RingedIsEnough;

impl Reading for RingedIsEnough {
    fn report(&self, lent: &mut Lent) -> Answer {
        Document01.report(lent)?;
        for w in 0..lent.up.len() {
            let ringed = |&v: &usize| lent.mark[v] >= 1;
            if lent.machines[w] == 1 && lent.children(w).iter().all(ringed) {
                lent.machines[w] = 0;
            }
        }
        Ok(lent.machines.iter().filter(|&&byte| byte != 0).count())
    }
}
