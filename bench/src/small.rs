//! Many small random histories, each refusal of which is judged by trying every order.

use std::error::Error;
use std::fmt;

use crate::history::{Fate, Transaction, transactions};
use crate::sides::answers_of_both;
use crate::spare::{Verdict, could_be_put_in, judge};
use crate::wire::{Kind, RuleName, Setup};
use crate::work::{Mix, script};

/// At most so many transactions are ordered, the refused one counted.
const MOST: usize = 7;

/// What came of the refusals of many small histories.
#[derive(Clone, Copy, Debug, Default)]
pub struct Tally {
    pub update_commits: usize,
    pub updates_granted: usize,
    pub refused_by_rule: usize,
    pub needed: usize,
    pub spare_if_reordered: usize,
    pub spare: usize,
}

/// The judge calls a grant impossible.
#[derive(Clone, Copy, Debug)]
pub struct JudgeErrs;

impl fmt::Display for JudgeErrs {
    fn fmt(&self, out: &mut fmt::Formatter<'_>) -> fmt::Result {
        write!(out, "the judge finds no place for a transaction that the board granted")
    }
}

impl Error for JudgeErrs {}

fn mix(rule: RuleName) -> Mix {
    Mix {
        name: "small",
        setup: Setup { kind: Kind::Drive, rule, items: 3, seats: 4 },
        guests: 50,
        readers: 15,
        reader_reads: 1..=3,
        update_reads: 0..=2,
        writes: 1..=2,
        read_first: 40,
        abreast: 4,
    }
}

/// Plays `count` histories under a rule and judges every refusal among their first transactions.
pub fn tally(rule: RuleName, count: u64) -> Result<Tally, Box<dyn Error>> {
    let mut tally = Tally::default();
    for seed in 0..count {
        let script = script(&mix(rule), seed, 60);
        let answers = answers_of_both(&script)?;
        let all = transactions(&script.requests, &answers);
        tally.add(&all[..MOST.min(all.len())], script.setup.items)?;
    }
    Ok(tally)
}

impl Tally {
    fn add(&mut self, all: &[Transaction], items: u32) -> Result<(), JudgeErrs> {
        let mut granted: Vec<&Transaction> = Vec::new();
        for transaction in all {
            match transaction.fate {
                Fate::Granted { natural, .. } => {
                    // The board found a place, so the judge must find one too.
                    if !could_be_put_in(&granted, transaction, items) {
                        return Err(JudgeErrs);
                    }
                    // A reader has natural number 0.
                    self.updates_granted += usize::from(natural > 0);
                    self.update_commits += usize::from(natural > 0);
                    granted.push(transaction);
                }
                Fate::Refused(refusal) => {
                    self.update_commits += 1;
                    if refusal == 14 {
                        self.refused_by_rule += 1;
                        self.count(judge(&granted, transaction, items));
                    }
                }
            }
        }
        Ok(())
    }

    fn count(&mut self, verdict: Verdict) {
        match verdict {
            Verdict::Needed => self.needed += 1,
            Verdict::SpareIfReordered => self.spare_if_reordered += 1,
            Verdict::Spare => self.spare += 1,
        }
    }
}
