//! The text of `trial`: sites in brackets with the letters of what is done, written, read, and answered by a reading.

use crate::lent::{Answer, Lent};
use crate::plan::Plan;
use crate::reading::Reading;

/// What a letter asks for.
#[derive(Clone, Debug, PartialEq)]
pub enum Letter {
    Start,
    Add(Vec<usize>),
    Report,
    /// The site file of a plan over the site's tree, into a buffer.
    Write {
        plan: Plan,
        buffer: Vec<usize>,
    },
    /// Every table as it is then.
    Tables,
    /// The end of a line inside the brackets.
    Newline,
}

impl Letter {
    /// How many numbers the lists of a plan and its buffer have.
    pub fn listed(&self) -> usize {
        match self {
            Letter::Write { plan, buffer } => {
                plan.links.len() + plan.lengths.len() + plan.reports.len() + buffer.len()
            }
            _ => 0,
        }
    }
}

/// A site in brackets.
#[derive(Clone)]
pub struct Case {
    pub lent: Lent,
    pub letters: Vec<Letter>,
}

/// A part of a text.
pub enum Part {
    /// A byte outside brackets, which is printed as it is.
    Plain(u8),
    Site(Case),
}

impl Case {
    pub fn text(&self) -> String {
        let lent = &self.lent;
        let slices = [
            &lent.up,
            &lent.depth,
            &lent.group,
            &lent.mark,
            &lent.machines,
            &lent.links,
        ];
        let lists: String = slices.into_iter().map(|slice| list(slice)).collect();
        let letters: String = self.letters.iter().map(letter).collect();
        format!("[{lists}{letters}]")
    }

    /// What is printed for the site, and the code of each answer.
    pub fn printed(&self, reading: &dyn Reading) -> (String, Vec<usize>) {
        let mut lent = self.lent.clone();
        let mut line = String::new();
        let mut codes = Vec::new();
        for letter in &self.letters {
            let mut after = String::new();
            let (word, answer) = match letter {
                Letter::Start => ("start", reading.start(&mut lent)),
                Letter::Add(batch) => ("add", reading.add(&mut lent, batch)),
                Letter::Report => ("report", reading.report(&mut lent)),
                Letter::Write { plan, buffer } => {
                    let mut buffer = buffer.clone();
                    let answer = reading.writer().write(&lent.up, plan, &mut buffer);
                    after = table("buffer", &buffer);
                    ("write", answer)
                }
                Letter::Tables => {
                    line += &tables(&lent);
                    continue;
                }
                Letter::Newline => {
                    line.push('\n');
                    continue;
                }
            };
            let (code, value) = numbers_of(answer);
            line += &format!(" {word} {code} {value}{after}");
            codes.push(code);
        }
        (line, codes)
    }
}

fn numbers_of(answer: Answer) -> (usize, usize) {
    match answer {
        Ok(value) => (0, value),
        Err(refusal) => (refusal.code, refusal.value),
    }
}

fn tables(lent: &Lent) -> String {
    [
        ("depths", &lent.depth),
        ("groups", &lent.group),
        ("marks", &lent.mark),
        ("machines", &lent.machines),
        ("links", &lent.links),
    ]
    .into_iter()
    .map(|(name, numbers)| table(name, numbers))
    .collect()
}

/// A name, and the numbers of a table behind it.
fn table(name: &str, numbers: &[usize]) -> String {
    match numbers {
        [] => format!("; {name}"),
        _ => format!("; {name} {}", with_commas(numbers)),
    }
}

fn letter(letter: &Letter) -> String {
    match letter {
        Letter::Start => "S".to_string(),
        Letter::Add(batch) => format!("A{}", list(batch)),
        Letter::Report => "R".to_string(),
        Letter::Write { plan, buffer } => {
            let lists = [&plan.links, &plan.lengths, &plan.reports, buffer];
            lists
                .into_iter()
                .fold("W".to_string(), |text, numbers| text + &list(numbers))
        }
        Letter::Tables => "T".to_string(),
        Letter::Newline => "\n".to_string(),
    }
}

/// A list as short as it can be said: the last number stands for the rest, or with a plus they count on from it.
fn list(numbers: &[usize]) -> String {
    let length = numbers.len();
    if length == 0 {
        return "0 ".to_string();
    }
    // The place from which on every number has that distance from the one before.
    let tail = |step: usize| {
        (1..length)
            .rev()
            .take_while(|&place| numbers[place] == numbers[place - 1] + step)
            .last()
            .map_or(length - 1, |place| place - 1)
    };
    let (same, counting) = (tail(0), tail(1));
    let (last, end) = if counting < same {
        (counting, '+')
    } else {
        (same, ' ')
    };
    format!("{length}:{}{end}", with_commas(&numbers[..=last]))
}

fn with_commas(numbers: &[usize]) -> String {
    let numbers: Vec<String> = numbers.iter().map(usize::to_string).collect();
    numbers.join(",")
}

/// The parts of a text. What is no letter of `trial` says nothing, and a text that ends inside brackets ends there.
pub fn read(text: &[u8]) -> Vec<Part> {
    let mut rest = Rest(text);
    let mut parts = Vec::new();
    while let Some(byte) = rest.byte() {
        parts.push(match byte {
            b'[' => Part::Site(rest.site()),
            _ => Part::Plain(byte),
        });
    }
    parts
}

/// What is still to be read.
struct Rest<'a>(&'a [u8]);

impl Rest<'_> {
    fn byte(&mut self) -> Option<u8> {
        let (&byte, rest) = self.0.split_first()?;
        self.0 = rest;
        Some(byte)
    }

    fn site(&mut self) -> Case {
        let lent = Lent {
            up: self.list(),
            depth: self.list(),
            group: self.list(),
            mark: self.list(),
            machines: self.list(),
            links: self.list(),
        };
        let mut letters = Vec::new();
        while let Some(byte) = self.byte() {
            match byte {
                b']' => break,
                b'S' => letters.push(Letter::Start),
                b'A' => letters.push(Letter::Add(self.list())),
                b'R' => letters.push(Letter::Report),
                b'W' => letters.push(self.write()),
                b'T' => letters.push(Letter::Tables),
                b'\n' => letters.push(Letter::Newline),
                _ => {}
            }
        }
        Case { lent, letters }
    }

    fn write(&mut self) -> Letter {
        let plan = Plan {
            links: self.list(),
            lengths: self.list(),
            reports: self.list(),
        };
        let buffer = self.list();
        Letter::Write { plan, buffer }
    }

    fn list(&mut self) -> Vec<usize> {
        let (length, _) = self.number();
        let mut numbers = Vec::new();
        let (mut value, mut end) = (0, Some(b','));
        for _ in 0..length {
            match end {
                Some(b',') => (value, end) = self.number(),
                Some(b'+') => value += 1,
                _ => {}
            }
            numbers.push(value);
        }
        numbers
    }

    /// A number, and the byte that ended it.
    fn number(&mut self) -> (usize, Option<u8>) {
        let mut value = 0;
        loop {
            match self.byte() {
                Some(digit @ b'0'..=b'9') => value = value * 10 + usize::from(digit - b'0'),
                end => return (value, end),
            }
        }
    }
}
