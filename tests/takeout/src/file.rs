//! The reader of a site file: what the file says, and the refusal that ends it if there is one.

/// A longer file is refused with 13 before anything in it is looked at.
pub const FILE_LIMIT: usize = 16_384;
/// The most machines a site has.
pub const MACHINE_LIMIT: usize = 4_096;
/// The most links a batch has.
pub const BATCH_LIMIT: usize = 1_024;

/// A cross link, by its two ends.
pub type Link = (usize, usize);

#[derive(Clone, Copy, Debug)]
pub struct Refusal {
    pub code: usize,
    pub value: usize,
}

/// What a site file says up to its end or its refusal.
///
/// If there is a report, `up` is a tree with one hub that reaches every machine, and the links are between different
/// machines of it.
#[derive(Default)]
pub struct SiteFile {
    pub up: Vec<usize>,
    /// The closed batches, in the file's order.
    pub batches: Vec<Vec<Link>>,
    /// For each report, how many of `batches` were closed by then. These numbers never fall.
    pub reports: Vec<usize>,
    pub refusal: Option<Refusal>,
}

/// The length of the body that a kind fixes; none for an unknown kind.
pub fn body_length(kind: u8) -> Option<usize> {
    match kind {
        1 | 2 => Some(2),
        3 => Some(4),
        4 | 5 => Some(0),
        _ => None,
    }
}

pub fn read(file: &[u8]) -> SiteFile {
    let mut site = SiteFile::default();
    site.refusal = site.take_in(file).err();
    site
}

impl SiteFile {
    fn take_in(&mut self, file: &[u8]) -> Result<(), Refusal> {
        if file.len() > FILE_LIMIT {
            return refuse(13, FILE_LIMIT);
        }
        // n, once kind 1 has said it; it is never 0.
        let mut size = None;
        let mut open: Vec<Link> = Vec::new();
        let mut at = 0;
        while at < file.len() {
            let kind = file[at];
            // Within a record an unknown kind goes before a kind out of place, and that before a record cut short.
            let Some(length) = body_length(kind) else {
                return refuse(11, at);
            };
            let whole_tree = size == Some(self.up.len());
            let in_place = match kind {
                1 => size.is_none(),
                2 => size.is_some() && !whole_tree,
                5 => whole_tree && open.is_empty(),
                _ => whole_tree,
            };
            if !in_place {
                return refuse(12, at);
            }
            let Some(body) = file.get(at + 1..at + 1 + length) else {
                return refuse(10, file.len());
            };
            match kind {
                1 => {
                    let n = number(body, 0);
                    check_size(n)?;
                    size = Some(n);
                }
                2 => {
                    self.up.push(number(body, 0));
                    if size == Some(self.up.len()) {
                        check_tree(&self.up)?;
                    }
                }
                3 => {
                    open.push((number(body, 0), number(body, 1)));
                    check_numbers(2 * open.len())?;
                }
                4 => {
                    check_batch(&open, self.up.len())?;
                    self.batches.push(std::mem::take(&mut open));
                }
                _ => self.reports.push(self.batches.len()),
            }
            at += 1 + length;
        }
        if size != Some(self.up.len()) || !open.is_empty() {
            return refuse(10, file.len());
        }
        Ok(())
    }
}

/// Code 1.
pub fn check_size(n: usize) -> Result<(), Refusal> {
    match n {
        1..=MACHINE_LIMIT => Ok(()),
        _ => refuse(1, n),
    }
}

/// Codes 3, 4 and 5, in this order.
pub fn check_tree(up: &[usize]) -> Result<(), Refusal> {
    let n = up.len();
    if let Some(machine) = (0..n).find(|&v| up[v] >= n) {
        return refuse(3, machine);
    }
    let hubs: Vec<usize> = (0..n).filter(|&v| up[v] == v).collect();
    let hub = match hubs[..] {
        [] => return refuse(4, n),
        [hub] => hub,
        [_, second, ..] => return refuse(4, second),
    };
    // A machine that reaches the hub does so in fewer than n steps, and the hub's step stays at the hub.
    let reaches = |machine: usize| {
        let mut here = machine;
        for _ in 0..n {
            if here == hub {
                return true;
            }
            here = up[here];
        }
        false
    };
    match (0..n).find(|&v| !reaches(v)) {
        Some(machine) => refuse(5, machine),
        None => Ok(()),
    }
}

/// Code 7, of a batch of so many numbers.
pub fn check_numbers(length: usize) -> Result<(), Refusal> {
    if length % 2 == 1 || length > 2 * BATCH_LIMIT {
        return refuse(7, length);
    }
    Ok(())
}

/// Codes 8 and 9, link by link, 8 first within a link.
fn check_batch(batch: &[Link], n: usize) -> Result<(), Refusal> {
    for (index, &(a, b)) in batch.iter().enumerate() {
        check_link(n, index, a, b)?;
    }
    Ok(())
}

pub fn check_link(n: usize, index: usize, a: usize, b: usize) -> Result<(), Refusal> {
    if a >= n || b >= n {
        return refuse(8, index);
    }
    if a == b {
        return refuse(9, index);
    }
    Ok(())
}

fn number(body: &[u8], index: usize) -> usize {
    usize::from(u16::from_le_bytes([body[2 * index], body[2 * index + 1]]))
}

pub fn refuse(code: usize, value: usize) -> Result<(), Refusal> {
    Err(Refusal { code, value })
}
