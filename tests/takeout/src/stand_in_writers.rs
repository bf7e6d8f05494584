//! Stand-ins for `trial` whose writer has a fault: the plans of `calls` have to catch them.

use crate::draft::Draft;
use crate::file::{
    check_link, check_numbers, check_size, check_tree, refuse, Link, Refusal, FILE_LIMIT,
};
use crate::lent::Answer;
use crate::plan::Plan;
use crate::reading::Reading;
use crate::writing::{pairs, Document02, Writing};

type Make = fn() -> Box<dyn Reading>;

const FAULTY: [(&str, Make); 20] = [
    ("no-report", || with(NoReport)),
    ("only-one-asks", || with(OnlyOneAsks)),
    ("close-forgotten", || with(CloseForgotten)),
    ("report-before-close", || with(ReportBeforeClose)),
    ("bytes-swapped", || with(BytesSwapped)),
    ("high-byte-lost", || with(HighByteLost)),
    ("next-byte-cleared", || with(NextByteCleared)),
    ("last-byte-missed", || with(LastByteMissed)),
    ("lengths-before-tree", || with(LengthsBeforeTree)),
    ("lengths-after-batches", || with(LengthsAfterBatches)),
    ("lengths-in-links", || with(LengthsInLinks)),
    ("sixteen-bit-sum", || with(SixteenBitSum)),
    ("reports-not-counted", || with(ReportsNotCounted)),
    ("all-sevens-first", || with(AllSevensFirst)),
    ("index-goes-on", || with(IndexGoesOn)),
    ("room-before-limit", || with(RoomBeforeLimit)),
    ("full-file-refused", || with(FullFileRefused)),
    ("exact-buffer-refused", || with(ExactBufferRefused)),
    ("room-told", || with(RoomTold)),
    ("written-before-fourteen", || with(WrittenBeforeFourteen)),
];

pub fn names() -> Vec<&'static str> {
    FAULTY.iter().map(|&(name, _)| name).collect()
}

pub fn named(name: &str) -> Option<Box<dyn Reading>> {
    let (_, make) = FAULTY.iter().find(|(other, _)| *other == name)?;
    Some(make())
}

/// Takeout's own reading but for the writer.
struct With<W>(W);

impl<W: Writing> Reading for With<W> {
    fn writer(&self) -> &dyn Writing {
        &self.0
    }
}

fn with(writer: impl Writing + 'static) -> Box<dyn Reading> {
    Box::new(With(writer))
}

/// No report is ever asked.
struct NoReport;

impl Writing for NoReport {
    fn asked(&self, _: usize) -> bool {
        false
    }
}

/// A byte of 1 asks for a report, and no other.
struct OnlyOneAsks;

impl Writing for OnlyOneAsks {
    fn asked(&self, byte: usize) -> bool {
        byte == 1
    }
}

/// An empty batch is not closed.
struct CloseForgotten;

impl Writing for CloseForgotten {
    fn closed(&self, draft: Draft, batch: &[Link]) -> Draft {
        match batch {
            [] => draft,
            _ => draft.batch(batch),
        }
    }
}

/// The report asked after a batch comes after the one before it.
struct ReportBeforeClose;

impl Writing for ReportBeforeClose {
    fn file(&self, up: &[usize], plan: &Plan) -> Draft {
        let mut draft = Draft::of_tree(up);
        for (batch, &byte) in plan.batches().into_iter().zip(&plan.reports) {
            if self.asked(byte) {
                draft = draft.report();
            }
            draft = draft.batch(&pairs(batch));
        }
        draft
    }
}

/// The high byte of a number comes first.
struct BytesSwapped;

impl Writing for BytesSwapped {
    fn file(&self, up: &[usize], plan: &Plan) -> Draft {
        changed(Document02.file(up, plan), |number| number.swap(0, 1))
    }
}

/// The high byte of a number is always 0.
struct HighByteLost;

impl Writing for HighByteLost {
    fn file(&self, up: &[usize], plan: &Plan) -> Draft {
        changed(Document02.file(up, plan), |number| number[1] = 0)
    }
}

/// A file with each number of its records changed.
fn changed(mut draft: Draft, change: fn(&mut [u8])) -> Draft {
    let mut ends: Vec<usize> = draft.records[1..].to_vec();
    ends.push(draft.bytes.len());
    for (&start, end) in draft.records.iter().zip(ends) {
        draft.bytes[start + 1..end].chunks_mut(2).for_each(change);
    }
    draft
}

/// The byte after the file, where the buffer has one, becomes 0.
struct NextByteCleared;

impl Writing for NextByteCleared {
    fn lay(&self, file: &[u8], buffer: &mut [usize]) {
        Document02.lay(file, buffer);
        if let Some(next) = buffer.get_mut(file.len()) {
            *next = 0;
        }
    }
}

/// The last byte of a file of 16,384 bytes is not written.
struct LastByteMissed;

impl Writing for LastByteMissed {
    fn lay(&self, file: &[u8], buffer: &mut [usize]) {
        let written = file.len().min(FILE_LIMIT - 1);
        Document02.lay(&file[..written], buffer);
    }
}

/// Code 27 goes before those of the tree.
struct LengthsBeforeTree;

impl Writing for LengthsBeforeTree {
    fn write(&self, up: &[usize], plan: &Plan, buffer: &mut [usize]) -> Answer {
        check_size(up.len())?;
        self.check_lengths(plan)?;
        check_tree(up)?;
        Document02.write(up, plan, buffer)
    }
}

/// Code 27 comes after 7.
struct LengthsAfterBatches;

impl Writing for LengthsAfterBatches {
    fn check_lengths(&self, plan: &Plan) -> Result<(), Refusal> {
        Document02.check_lengths(plan).or_else(|refusal| {
            for &length in &plan.lengths {
                check_numbers(length)?;
            }
            Err(refusal)
        })
    }
}

/// The lengths are taken to count links.
struct LengthsInLinks;

impl Writing for LengthsInLinks {
    fn write(&self, up: &[usize], plan: &Plan, buffer: &mut [usize]) -> Answer {
        let mut plan = plan.clone();
        plan.lengths.iter_mut().for_each(|length| *length *= 2);
        Document02.write(up, &plan, buffer)
    }
}

/// The lengths are added up in 16 bits.
struct SixteenBitSum;

impl Writing for SixteenBitSum {
    fn total(&self, lengths: &[usize]) -> usize {
        Document02.total(lengths) % 65_536
    }
}

/// How many report bytes there are is not looked at.
struct ReportsNotCounted;

impl Writing for ReportsNotCounted {
    fn check_lengths(&self, plan: &Plan) -> Result<(), Refusal> {
        if self.total(&plan.lengths) != plan.links.len() {
            return refuse(27, plan.lengths.len());
        }
        Ok(())
    }
}

/// The lengths of all batches are looked at before the first link.
struct AllSevensFirst;

impl Writing for AllSevensFirst {
    fn check_batches(&self, n: usize, batches: &[&[usize]]) -> Result<(), Refusal> {
        for batch in batches {
            check_numbers(batch.len())?;
        }
        Document02.check_batches(n, batches)
    }
}

/// The index of a bad link counts the links of the batches before it as well.
struct IndexGoesOn;

impl Writing for IndexGoesOn {
    fn check_batches(&self, n: usize, batches: &[&[usize]]) -> Result<(), Refusal> {
        let mut index = 0;
        for batch in batches {
            check_numbers(batch.len())?;
            for (a, b) in pairs(batch) {
                check_link(n, index, a, b)?;
                index += 1;
            }
        }
        Ok(())
    }
}

/// Code 14 goes before 13.
struct RoomBeforeLimit;

impl Writing for RoomBeforeLimit {
    fn check_room(&self, length: usize, room: usize) -> Result<(), Refusal> {
        if room < length {
            return refuse(14, length);
        }
        Document02.check_room(length, room)
    }
}

/// A file of 16,384 bytes is too long.
struct FullFileRefused;

impl Writing for FullFileRefused {
    fn check_room(&self, length: usize, room: usize) -> Result<(), Refusal> {
        if length == FILE_LIMIT {
            return refuse(13, FILE_LIMIT);
        }
        Document02.check_room(length, room)
    }
}

/// A buffer just as long as the file is too short.
struct ExactBufferRefused;

impl Writing for ExactBufferRefused {
    fn check_room(&self, length: usize, room: usize) -> Result<(), Refusal> {
        Document02.check_room(length, room.saturating_sub(1))
    }
}

/// Code 14 has the buffer's length for its value.
struct RoomTold;

impl Writing for RoomTold {
    fn check_room(&self, length: usize, room: usize) -> Result<(), Refusal> {
        match Document02.check_room(length, room) {
            Err(Refusal { code: 14, .. }) => refuse(14, room),
            outcome => outcome,
        }
    }
}

/// What there is room for is written before code 14 is given.
struct WrittenBeforeFourteen;

impl Writing for WrittenBeforeFourteen {
    fn write(&self, up: &[usize], plan: &Plan, buffer: &mut [usize]) -> Answer {
        let outcome = Document02.write(up, plan, buffer);
        if let Err(Refusal { code: 14, .. }) = outcome {
            self.lay(&self.file(up, plan).bytes, buffer);
        }
        outcome
    }
}
