//! Stand-ins for `labels` that answer the stream by takeout's own reading, each with a fault: `compare` has to catch them.

use std::io::{self, BufReader, BufWriter, Read, Write};

use crate::answer::answer;
use crate::file::{self, Link, Refusal};
use crate::lent::line;
use crate::search::{chokes, Chokes};

/// What a faulty program prints for a site file.
type Faulty = fn(&[u8]) -> String;

const FAULTY: [(&str, Faulty); 6] = [
    ("swap-reasons", |file| {
        answer(&file::read(file), reasons_swapped).lines
    }),
    ("doubled-uplink", |file| {
        answer(&file::read(file), uplinks_undoubled).lines
    }),
    ("long-rings-open", |file| {
        answer(&file::read(file), long_rings_open).lines
    }),
    ("ten-for-twelve", ten_for_twelve),
    ("cross-link", cross_link_named),
    ("later-links-lost", later_links_lost),
];

pub fn names() -> Vec<&'static str> {
    FAULTY.iter().map(|&(name, _)| name).collect()
}

pub fn named(name: &str) -> Option<Faulty> {
    let (_, faulty) = FAULTY.iter().find(|(other, _)| *other == name)?;
    Some(*faulty)
}

/// Answers each file of the stream on standard input, until the stream ends.
pub fn serve(faulty: Faulty) -> io::Result<()> {
    let mut stream = BufReader::with_capacity(1 << 16, io::stdin().lock());
    let mut out = BufWriter::with_capacity(1 << 16, io::stdout().lock());
    let mut length = [0; 2];
    while stream.read_exact(&mut length).is_ok() {
        let mut file = vec![0; usize::from(u16::from_le_bytes(length))];
        stream.read_exact(&mut file)?;
        out.write_all(faulty(&file).as_bytes())?;
        out.write_all(b".\n")?;
    }
    out.flush()
}

/// Reasons 1 and 2 change places.
fn reasons_swapped(up: &[usize], links: &[Link]) -> Chokes {
    let mut chokes = chokes(up, links);
    for byte in &mut chokes.machines {
        *byte = [0, 2, 1][usize::from(*byte)];
    }
    chokes
}

/// A link over an uplink is passed over, as if it were no further cable.
fn uplinks_undoubled(up: &[usize], links: &[Link]) -> Chokes {
    let mut others = links.to_vec();
    others.retain(|&(a, b)| up[a] != b && up[b] != a);
    chokes(up, &others)
}

/// A link whose ring has over a hundred machines is passed over.
fn long_rings_open(up: &[usize], links: &[Link]) -> Chokes {
    let ring = |&(a, b): &Link| {
        let (from_a, from_b) = (line(up, a), line(up, b));
        let arm = |line: &[usize], other: &[usize]| {
            line.iter().take_while(|x| !other.contains(x)).count()
        };
        arm(&from_a, &from_b) + 1 + arm(&from_b, &from_a)
    };
    let mut others = links.to_vec();
    others.retain(|link| ring(link) <= 100);
    chokes(up, &others)
}

/// A known kind out of place is answered as if the file ended there.
fn ten_for_twelve(file: &[u8]) -> String {
    let mut site = file::read(file);
    if let Some(refusal @ Refusal { code: 12, .. }) = &mut site.refusal {
        *refusal = Refusal {
            code: 10,
            value: file.len(),
        };
    }
    answer(&site, chokes).lines
}

/// The latest cross link is named as if it were a choke.
fn cross_link_named(file: &[u8]) -> String {
    let site = file::read(file);
    let latest = site.batches.iter().flatten().last();
    let named = latest.map(|(a, b)| format!("L {a} {b}\n"));
    named.unwrap_or_default() + &answer(&site, chokes).lines
}

/// The links after the first report are passed over.
fn later_links_lost(file: &[u8]) -> String {
    let mut site = file::read(file);
    let first = site.reports.first().copied().unwrap_or(0);
    site.reports.fill(first);
    answer(&site, chokes).lines
}
