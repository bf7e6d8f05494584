//! Writing a site file, record by record, without asking whether it is a good one.

use crate::file::Link;

/// Takes each file that a generator makes.
pub type Visit<'a> = &'a mut dyn FnMut(&[u8]);

/// A site file in the making.
#[derive(Clone, Default)]
pub struct Draft {
    pub bytes: Vec<u8>,
    /// The offset of each record.
    pub records: Vec<usize>,
}

impl Draft {
    /// A file that says n and the up table and no more.
    pub fn of_tree(up: &[usize]) -> Draft {
        let size = Draft::default().record(1, &[up.len()]);
        up.iter().fold(size, |draft, &up| draft.record(2, &[up]))
    }

    /// Links that are not closed yet.
    pub fn links(self, links: &[Link]) -> Draft {
        links
            .iter()
            .fold(self, |draft, &(a, b)| draft.record(3, &[a, b]))
    }

    /// A whole batch: its links and its close.
    pub fn batch(self, links: &[Link]) -> Draft {
        self.links(links).record(4, &[])
    }

    pub fn report(self) -> Draft {
        self.record(5, &[])
    }

    fn record(mut self, kind: u8, numbers: &[usize]) -> Draft {
        self.records.push(self.bytes.len());
        self.bytes.push(kind);
        for &number in numbers {
            let number = u16::try_from(number).expect("numbers of a site file have 16 bits");
            self.bytes.extend(number.to_le_bytes());
        }
        self
    }
}
