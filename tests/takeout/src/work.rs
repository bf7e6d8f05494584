//! The work that a site causes, read off the line that a program prints for a history: by how much Add says that marks rose,
//! and how many labels moved. The labels are the machine bytes and the link bytes of the reports.

use crate::text::Case;

/// What a history has caused so far.
pub struct Work {
    /// The values of Add's answers with code 0, added up. What was refused adds nothing.
    pub rises: usize,
    /// How many labels changed from a report to the next.
    pub moves: usize,
    /// The values of Add's refusals, added up: what would be too much.
    pub refusals: usize,
}

/// The most that the marks of a tree add up to: 2 for each machine but the hub, less 1 for each of the hub's children.
pub fn most(up: &[usize]) -> usize {
    2 * (up.len() - 1) - hub_children(up).len()
}

pub fn hub_children(up: &[usize]) -> Vec<usize> {
    (0..up.len())
        .filter(|&v| up[v] != v && up[up[v]] == up[v])
        .collect()
}

/// The law of a history that ends with every mark as high as it goes: what Add answered comes to the most that it can.
pub fn law(case: &Case, line: &str) -> Result<(), String> {
    let (works, most) = (works(&case.lent.up, line)?, most(&case.lent.up));
    match works.last() {
        Some(work) if work.rises == most => Ok(()),
        _ => Err(format!(
            "what Add answered does not come to {most} in the end"
        )),
    }
}

/// The work after Start and after each batch, where the line has a report and the tables. It keeps the law of every history:
/// what Add answered comes to the marks added up and never passes the most, a label moves only to 0, and so at most once, and
/// no more labels move than marks rise by, but for one.
pub fn works(up: &[usize], line: &str) -> Result<Vec<Work>, String> {
    let shown = shown(line).ok_or("no history has this line")?;
    let mut works = Vec::new();
    let mut moves = 0;
    for (place, now) in shown.iter().enumerate() {
        moves += moved(&shown[place.saturating_sub(1)], now)?;
        let work = Work {
            rises: now.rises,
            moves,
            refusals: now.refusals,
        };
        bounded(&work, now.marks.iter().sum(), most(up))?;
        works.push(work);
    }
    Ok(works)
}

fn bounded(&Work { rises, moves, .. }: &Work, marks: usize, most: usize) -> Result<(), String> {
    let comes = format!("what Add answered comes to {rises}");
    if rises != marks {
        return Err(format!("{comes}, and the marks to {marks}"));
    }
    if rises > most {
        return Err(format!("{comes}, and {most} is the most"));
    }
    if moves > rises + 1 {
        return Err(format!("{comes}, and {moves} labels moved"));
    }
    Ok(())
}

/// How many labels are others than before.
fn moved(before: &Shown, now: &Shown) -> Result<usize, String> {
    let labels = before.labels().zip(now.labels());
    let others: Vec<_> = labels.filter(|(was, is)| was != is).collect();
    match others.iter().find(|(_, is)| **is != 0) {
        Some((was, is)) => Err(format!("a label moved from {was} to {is}")),
        None => Ok(others.len()),
    }
}

/// What a line shows where it has the tables.
#[derive(Clone, Default)]
struct Shown {
    /// The values of Add's answers with code 0 up to there, added up.
    rises: usize,
    /// Those of its refusals.
    refusals: usize,
    marks: Vec<usize>,
    machines: Vec<usize>,
    links: Vec<usize>,
}

impl Shown {
    fn labels(&self) -> impl Iterator<Item = &usize> {
        self.machines.iter().chain(&self.links)
    }
}

/// None where the line has other words than the answers and tables of a history.
fn shown(line: &str) -> Option<Vec<Shown>> {
    let mut words = line.split([' ', ';']).filter(|word| !word.is_empty());
    let mut now = Shown::default();
    let mut shown = Vec::new();
    while let Some(word) = words.next() {
        let said = words.next()?;
        match word {
            "start" | "add" | "report" => {
                let (code, value) = (number(said)?, number(words.next()?)?);
                match (word, code) {
                    ("add", 0) => now.rises += value,
                    ("add", _) => now.refusals += value,
                    _ => {}
                }
            }
            "depths" | "groups" => {}
            "marks" => now.marks = numbers(said)?,
            "machines" => now.machines = numbers(said)?,
            "links" => {
                // The last of the tables.
                now.links = numbers(said)?;
                shown.push(now.clone());
            }
            _ => return None,
        }
    }
    Some(shown)
}

fn number(word: &str) -> Option<usize> {
    word.parse().ok()
}

fn numbers(word: &str) -> Option<Vec<usize>> {
    word.split(',').map(number).collect()
}
