//! Sorts of things to try, and counts of what came of them.

use std::collections::BTreeMap;

/// A sort of things to try.
#[derive(Clone, Copy)]
pub struct Class<Each> {
    /// What they are called. The class is picked by the first word.
    pub things: &'static str,
    /// What makes them, the same in the same order each time, and for calls the law of their lines.
    pub each: Each,
}

/// The classes of a list of names with commas between; none if a name is unknown.
pub fn named<Each: Copy>(all: &[Class<Each>], names: &str) -> Option<Vec<Class<Each>>> {
    let first_word = |class: &Class<Each>| class.things.split(' ').next();
    names
        .split(',')
        .map(|name| {
            all.iter()
                .copied()
                .find(|class| first_word(class) == Some(name))
        })
        .collect()
}

/// How often each code came, whatever its number; 0 is what was not refused.
#[derive(Default)]
pub struct Codes(BTreeMap<usize, usize>);

impl Codes {
    pub fn count(&mut self, code: usize) {
        *self.0.entry(code).or_default() += 1;
    }

    pub fn add(&mut self, other: &Codes) {
        for (&code, &times) in &other.0 {
            *self.0.entry(code).or_default() += times;
        }
    }

    /// So many sound, and so many refused with each code that came.
    pub fn line(&self) -> String {
        let sound = self.0.get(&0).copied().unwrap_or(0);
        let mut line = format!("{} sound", grouped(sound));
        for (code, &times) in self.0.range(1..) {
            line += &format!(", {} refused with {code}", grouped(times));
        }
        line
    }
}

/// A number with a comma before every three last digits.
pub fn grouped(number: usize) -> String {
    match number {
        0..1_000 => number.to_string(),
        _ => format!("{},{:03}", grouped(number / 1_000), number % 1_000),
    }
}
