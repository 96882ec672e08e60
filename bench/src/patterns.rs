//! The small patterns on which schemes of validation differ, played under each rule.

use std::error::Error;

use reference::call::{Call, Class, Mode};

use crate::history::{Fate, transactions};
use crate::sides::answers_of_both;
use crate::spare::{Verdict, judge};
use crate::wire::{Kind, Request, RuleName, Script, Setup};

/// What one of the transactions, by its seat, does next.
#[derive(Clone, Copy)]
enum Act {
    Begin(u32),
    Read(u32, u32),
    Write(u32, u32),
    Commit(u32),
}

pub struct Pattern {
    pub name: &'static str,
    pub story: &'static str,
    acts: &'static [Act],
}

use Act::{Begin, Commit, Read, Write};

/// The last commit of each is the one in question. Items are 0 (x), 1 (y) and 2 (z).
pub const PATTERNS: [Pattern; 6] = [
    Pattern {
        name: "write after read",
        story: "A reads x; B writes x and commits; A writes y",
        acts: &[Begin(0), Read(0, 0), Begin(1), Write(1, 0), Commit(1), Write(0, 1), Commit(0)],
    },
    Pattern {
        name: "read after write",
        story: "A writes x; B reads x, writes y and commits; A commits",
        acts: &[Begin(0), Write(0, 0), Begin(1), Read(1, 0), Write(1, 1), Commit(1), Commit(0)],
    },
    Pattern {
        name: "read, then overwritten",
        story: "A reads x; B reads and writes x and commits; A writes x",
        acts: &[
            Begin(0),
            Read(0, 0),
            Begin(1),
            Read(1, 0),
            Write(1, 0),
            Commit(1),
            Write(0, 0),
            Commit(0),
        ],
    },
    Pattern {
        name: "two between, one after the other",
        story: "A reads x; B writes x and commits; C begins, reads y, writes z, commits; A writes y",
        acts: &[
            Begin(0),
            Read(0, 0),
            Begin(1),
            Write(1, 0),
            Commit(1),
            Begin(2),
            Read(2, 1),
            Write(2, 2),
            Commit(2),
            Write(0, 1),
            Commit(0),
        ],
    },
    Pattern {
        name: "two between, side by side",
        story: "the same, but C began before B committed",
        acts: &[
            Begin(0),
            Read(0, 0),
            Begin(1),
            Begin(2),
            Write(1, 0),
            Commit(1),
            Read(2, 1),
            Write(2, 2),
            Commit(2),
            Write(0, 1),
            Commit(0),
        ],
    },
    Pattern {
        name: "a moved grant missed",
        story: "C reads y; A reads x; B writes x and commits; A writes y and commits; C writes z",
        acts: &[
            Begin(0),
            Begin(1),
            Begin(2),
            Read(2, 1),
            Read(0, 0),
            Write(1, 0),
            Commit(1),
            Write(0, 1),
            Commit(0),
            Write(2, 2),
            Commit(2),
        ],
    },
];

/// What a rule said to each commit of a pattern, and what the judge says of the last.
pub struct Outcome {
    /// In the order of the commits.
    pub granted: Vec<bool>,
    /// None where the last commit was granted.
    pub verdict: Option<Verdict>,
}

fn script(pattern: &Pattern, rule: RuleName, class: Class) -> Script {
    let setup = Setup { kind: Kind::Drive, rule, items: 3, seats: 3 };
    let mut calls: Vec<Call> = (0..3).map(|seat| Call::Admit { seat, class }).collect();
    for (index, act) in pattern.acts.iter().enumerate() {
        calls.push(match *act {
            Begin(seat) => Call::Begin { seat, pass: seat + 1, mode: Mode::Update },
            Read(seat, item) => Call::Read { seat, pass: seat + 1, item },
            // Every write its own code, so that a read tells which one it saw.
            Write(seat, item) => Call::Write { seat, pass: seat + 1, item, code: 1 + index as u32 },
            Commit(seat) => Call::Commit { seat, pass: seat + 1 },
        });
    }
    Script { setup, requests: calls.into_iter().map(Request::from).collect() }
}

pub fn play(pattern: &Pattern, rule: RuleName, class: Class) -> Result<Outcome, Box<dyn Error>> {
    let script = script(pattern, rule, class);
    let answers = answers_of_both(&script)?;
    let all = transactions(&script.requests, &answers);
    let (last, earlier) = all.split_last().ok_or("a pattern has a commit")?;
    let granted: Vec<_> = earlier.iter().filter(|one| one.is_granted()).collect();
    let verdict = match last.fate {
        Fate::Granted { .. } => None,
        Fate::Refused(14) => Some(judge(&granted, last, script.setup.items)),
        Fate::Refused(other) => return Err(format!("refusal {other} in a pattern").into()),
    };
    Ok(Outcome { granted: all.iter().map(|one| one.is_granted()).collect(), verdict })
}
