//! The transactions of a played script, read off its requests and answers.

use std::cmp::Reverse;
use std::collections::BTreeMap;

use reference::call::{Call, Mode};

use crate::wire::{Answer, Request};

#[derive(Clone, Copy, Debug, PartialEq, Eq)]
pub enum Step {
    /// What was read of an item.
    Read {
        item: u32,
        code: u32,
    },
    Write {
        item: u32,
        code: u32,
    },
}

#[derive(Clone, Copy, Debug, PartialEq, Eq)]
pub enum Fate {
    Granted {
        natural: u32,
        place: u32,
    },
    /// The number of the refusal: 14 where the rule refused.
    Refused(u32),
}

/// A transaction whose commit was answered.
#[derive(Clone, Debug)]
pub struct Transaction {
    pub mode: Mode,
    /// Where in the list it began, and where its commit was answered.
    pub began: usize,
    pub ended: usize,
    pub steps: Vec<Step>,
    pub fate: Fate,
}

impl Transaction {
    pub fn is_granted(&self) -> bool {
        matches!(self.fate, Fate::Granted { .. })
    }

    /// Where a granted one stands: by place, updates ahead of readers; at one place the larger
    /// natural number first; readers as they began.
    pub fn standing(&self) -> Option<Standing> {
        match (self.fate, self.mode) {
            (Fate::Granted { natural, place }, Mode::Update) => {
                Some(Standing { place, turn: Turn::Update(Reverse(natural)) })
            }
            (Fate::Granted { place, .. }, Mode::Reader) => {
                Some(Standing { place, turn: Turn::Reader(self.began) })
            }
            (Fate::Refused(_), _) => None,
        }
    }
}

#[derive(Clone, Copy, Debug, PartialEq, Eq, PartialOrd, Ord)]
pub struct Standing {
    place: u32,
    turn: Turn,
}

#[derive(Clone, Copy, Debug, PartialEq, Eq, PartialOrd, Ord)]
enum Turn {
    Update(Reverse<u32>),
    Reader(usize),
}

/// Gathers the transactions, in the order in which they ended.
#[derive(Default)]
struct Gatherer {
    open: BTreeMap<u32, Transaction>,
    ended: Vec<Transaction>,
}

impl Gatherer {
    fn take(&mut self, index: usize, call: Call, answer: Answer) {
        let accepted = answer.refusal == 0;
        match call {
            Call::Begin { seat, mode, .. } if accepted => self.begin(index, seat, mode),
            Call::Read { seat, item, .. } if accepted => {
                self.step(seat, Step::Read { item, code: answer.first });
            }
            Call::Write { seat, item, code, .. } if accepted => {
                self.step(seat, Step::Write { item, code });
            }
            Call::Commit { seat, .. } => self.end(index, seat, answer),
            Call::Abandon { seat, .. } | Call::Revoke { seat } if accepted => {
                self.open.remove(&seat);
            }
            _ => {}
        }
    }

    fn begin(&mut self, index: usize, seat: u32, mode: Mode) {
        let fresh = Transaction {
            mode,
            began: index,
            ended: index,
            steps: Vec::new(),
            fate: Fate::Refused(0),
        };
        self.open.insert(seat, fresh);
    }

    fn step(&mut self, seat: u32, step: Step) {
        let open = self.open.get_mut(&seat).expect("an accepted step has an open transaction");
        open.steps.push(step);
    }

    /// A commit with no open transaction was refused, and ends nothing.
    fn end(&mut self, index: usize, seat: u32, answer: Answer) {
        if let Some(mut transaction) = self.open.remove(&seat) {
            transaction.ended = index;
            transaction.fate = match answer.refusal {
                0 => Fate::Granted { natural: answer.first, place: answer.second },
                refusal => Fate::Refused(refusal),
            };
            self.ended.push(transaction);
        }
    }
}

/// The transactions whose commit was answered, in the order of those answers.
pub fn transactions(requests: &[Request], answers: &[Answer]) -> Vec<Transaction> {
    let mut gatherer = Gatherer::default();
    for (index, (request, answer)) in requests.iter().zip(answers).enumerate() {
        if let Ok(call) = Call::try_from(*request) {
            gatherer.take(index, call, *answer);
        }
    }
    gatherer.ended
}
