//! What each rule refuses on work that a layout has.

use std::error::Error;

use reference::call::Mode;

use crate::history::{Fate, Transaction, transactions};
use crate::sides::answers_of_both;
use crate::spare::could_be_put_in;
use crate::wire::{Kind, RuleName, Setup};
use crate::work::{Mix, script};

/// Codes decide nothing at a commit, so all are played on a board of locomotives: it has so many
/// codes that a code read tells which write it came from.
fn mix(name: &'static str, items: u32) -> Mix {
    Mix {
        name,
        setup: Setup { kind: Kind::Drive, rule: RuleName::Now, items, seats: 32 },
        guests: 50,
        readers: 10,
        reader_reads: 1..=4,
        update_reads: 1..=2,
        writes: 1..=1,
        read_first: 100,
        abreast: 32,
    }
}

pub fn layouts() -> [Mix; 4] {
    [
        Mix { guests: 90, readers: 20, ..mix("many guests, 8 locomotives", 8) },
        Mix { readers: 40, reader_reads: 40..=60, ..mix("long readers, 12 items", 12) },
        Mix {
            update_reads: 2..=2,
            writes: 8..=8,
            read_first: 0,
            ..mix("yard, eight writes, 64 turnouts", 64)
        },
        Mix {
            update_reads: 3..=5,
            writes: 2..=2,
            read_first: 50,
            ..mix("busy main line, 24 blocks", 24)
        },
    ]
}

/// What came of the commits of one script.
#[derive(Clone, Copy, Debug, Default)]
pub struct Tally {
    pub reader_commits: usize,
    pub update_commits: usize,
    pub updates_granted: usize,
    /// Granted at a place below the next.
    pub warped: usize,
    pub refused_by_rule: usize,
    /// Refused by the rule, and could be put into the board's own order.
    pub spare: usize,
    pub refused_full: usize,
}

impl Tally {
    fn add(&mut self, transaction: &Transaction, granted: &[&Transaction], items: u32) {
        match transaction.mode {
            Mode::Reader => self.reader_commits += 1,
            Mode::Update => self.update_commits += 1,
        }
        match (transaction.fate, transaction.mode) {
            (Fate::Granted { natural, place }, Mode::Update) => {
                self.updates_granted += 1;
                self.warped += usize::from(place < natural);
            }
            (Fate::Granted { .. }, Mode::Reader) => {}
            (Fate::Refused(14), _) => {
                self.refused_by_rule += 1;
                self.spare += usize::from(could_be_put_in(granted, transaction, items));
            }
            (Fate::Refused(_), _) => self.refused_full += 1,
        }
    }

    pub fn commits(&self) -> usize {
        self.reader_commits + self.update_commits
    }

    /// How many of 100 commits were granted.
    pub fn granted_share(&self) -> f64 {
        let granted = self.reader_commits + self.updates_granted;
        100.0 * granted as f64 / self.commits() as f64
    }

    /// How many of 100 commits of updates were granted.
    pub fn updates_granted_share(&self) -> f64 {
        100.0 * self.updates_granted as f64 / self.update_commits as f64
    }
}

pub fn tally(
    layout: &Mix,
    abreast: usize,
    rule: RuleName,
    seed: u64,
    length: usize,
) -> Result<Tally, Box<dyn Error>> {
    let mix = Mix { setup: Setup { rule, ..layout.setup }, abreast, ..layout.clone() };
    let script = script(&mix, seed, length);
    let answers = answers_of_both(&script)?;
    let all = transactions(&script.requests, &answers);
    let mut tally = Tally::default();
    let mut granted: Vec<&Transaction> = Vec::new();
    for transaction in &all {
        tally.add(transaction, &granted, mix.setup.items);
        if transaction.is_granted() {
            granted.push(transaction);
        }
    }
    Ok(tally)
}
