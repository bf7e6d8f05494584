//! Document 02's writer of a site file, by its words: the whole file is made, then measured, then laid into the buffer.

use crate::draft::Draft;
use crate::file::{
    check_link, check_numbers, check_size, check_tree, refuse, Link, Refusal, FILE_LIMIT,
};
use crate::lent::Answer;
use crate::plan::Plan;

/// A reading of document 02. Each stand-in has one part of its own in place of what is said here.
pub trait Writing {
    /// The file of a plan over a tree, into the front of a buffer.
    fn write(&self, up: &[usize], plan: &Plan, buffer: &mut [usize]) -> Answer {
        check_size(up.len())?;
        check_tree(up)?;
        self.check_plan(up.len(), plan)?;
        let file = self.file(up, plan).bytes;
        self.check_room(file.len(), buffer.len())?;
        self.lay(&file, buffer);
        Ok(file.len())
    }

    /// Code 27, and then 7 to 9.
    fn check_plan(&self, n: usize, plan: &Plan) -> Result<(), Refusal> {
        self.check_lengths(plan)?;
        self.check_batches(n, &plan.batches())
    }

    /// Code 27.
    fn check_lengths(&self, plan: &Plan) -> Result<(), Refusal> {
        let batches = plan.lengths.len();
        if plan.reports.len() != batches || self.total(&plan.lengths) != plan.links.len() {
            return refuse(27, batches);
        }
        Ok(())
    }

    fn total(&self, lengths: &[usize]) -> usize {
        lengths.iter().sum()
    }

    /// Codes 7 to 9 of the first bad batch.
    fn check_batches(&self, n: usize, batches: &[&[usize]]) -> Result<(), Refusal> {
        for batch in batches {
            check_numbers(batch.len())?;
            for (index, (a, b)) in pairs(batch).into_iter().enumerate() {
                check_link(n, index, a, b)?;
            }
        }
        Ok(())
    }

    /// The tree, and each batch with its report where one is asked.
    fn file(&self, up: &[usize], plan: &Plan) -> Draft {
        let mut draft = Draft::of_tree(up);
        for (batch, &byte) in plan.batches().into_iter().zip(&plan.reports) {
            draft = self.closed(draft, &pairs(batch));
            if self.asked(byte) {
                draft = draft.report();
            }
        }
        draft
    }

    fn closed(&self, draft: Draft, batch: &[Link]) -> Draft {
        draft.batch(batch)
    }

    /// Whether a report byte asks for a report.
    fn asked(&self, byte: usize) -> bool {
        byte != 0
    }

    /// Codes 13 and 14.
    fn check_room(&self, length: usize, room: usize) -> Result<(), Refusal> {
        if length > FILE_LIMIT {
            return refuse(13, FILE_LIMIT);
        }
        if room < length {
            return refuse(14, length);
        }
        Ok(())
    }

    fn lay(&self, file: &[u8], buffer: &mut [usize]) {
        for (to, &byte) in buffer.iter_mut().zip(file) {
            *to = usize::from(byte);
        }
    }
}

/// Takeout's own reading.
pub struct Document02;

impl Writing for Document02 {}

/// The links of a batch. A number left over at its end is none.
pub fn pairs(batch: &[usize]) -> Vec<Link> {
    batch
        .chunks_exact(2)
        .map(|ends| (ends[0], ends[1]))
        .collect()
}
