//! Counting what came of many scripts.

use std::fmt;

use crate::board::Events;
use crate::player::Record;

const HIGHEST_REFUSAL: usize = 18;

/// Sums over any number of played scripts.
#[derive(Clone, Debug, Default)]
pub struct Tally {
    pub scripts: u64,
    pub answer_lines: u64,
    /// How often each refusal number came; number 0 counts accepted lines.
    pub refusals: [u64; HIGHEST_REFUSAL + 1],
    pub events: Events,
}

impl Tally {
    pub fn add(&mut self, record: &Record) {
        self.scripts += 1;
        self.answer_lines += record.answers.len() as u64;
        for answer in &record.answers {
            self.refusals[answer.refusal as usize] += 1;
        }
        if let Some(board) = &record.board {
            self.add_events(board.events());
        }
    }

    fn add_events(&mut self, more: Events) {
        self.events.granted_updates += more.granted_updates;
        self.events.granted_readers += more.granted_readers;
        self.events.warped += more.warped;
        self.events.skipped_writes += more.skipped_writes;
        self.events.removed_versions += more.removed_versions;
    }
}

impl fmt::Display for Tally {
    fn fmt(&self, out: &mut fmt::Formatter<'_>) -> fmt::Result {
        let events = &self.events;
        let granted = events.granted_updates + events.granted_readers;
        writeln!(out, "scripts            {}", self.scripts)?;
        writeln!(out, "answer lines       {}", self.answer_lines)?;
        writeln!(out, "accepted lines     {}", self.refusals[0])?;
        for (number, count) in self.refusals.iter().enumerate().skip(1) {
            writeln!(out, "refusal {number:2}         {count}")?;
        }
        writeln!(out, "granted commits    {granted}")?;
        writeln!(out, "  of updates       {}", events.granted_updates)?;
        writeln!(out, "  of readers       {}", events.granted_readers)?;
        writeln!(out, "  warped           {}", events.warped)?;
        writeln!(out, "skipped writes     {}", events.skipped_writes)?;
        writeln!(out, "removed versions   {}", events.removed_versions)
    }
}
