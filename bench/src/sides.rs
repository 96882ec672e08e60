//! The two boards, each behind the same call: a list of requests in, a list of answers out.

use std::fmt;
use std::sync::atomic::{AtomicU64, Ordering};

use reference::board::Board;
use reference::call::Call;
use reference::kind::{Drive, Kind as ReferenceKind, Switch};
use reference::rule::Rule;

use crate::wire::{Answer, Kind, Request, RuleName, Script, Setup};

mod foreign {
    use super::{Answer, Request};

    unsafe extern "C" {
        pub fn station_run(
            kind: u32,
            rule: u32,
            items: u32,
            seats: u32,
            requests: *const Request,
            request_count: usize,
            answers: *mut Answer,
            answer_count: usize,
        ) -> u32;
        pub safe fn station_version_bytes(kind: u32) -> usize;
        pub safe fn station_board_bytes(kind: u32) -> usize;
    }
}

/// Why a list of requests was not played.
#[derive(Clone, Copy, Debug, PartialEq, Eq)]
pub enum NotPlayed {
    BadSetup,
    Uneven,
    NoMemory,
    /// A status that the library does not have.
    Unknown(u32),
}

impl fmt::Display for NotPlayed {
    fn fmt(&self, out: &mut fmt::Formatter<'_>) -> fmt::Result {
        write!(out, "the requests were not played: {self:?}")
    }
}

impl std::error::Error for NotPlayed {}

/// Which board plays.
#[derive(Clone, Copy, Debug, PartialEq, Eq)]
pub enum Side {
    Proved,
    Reference,
}

impl Side {
    /// Plays the requests on a new board.
    pub fn run(
        self,
        setup: Setup,
        requests: &[Request],
        answers: &mut [Answer],
    ) -> Result<(), NotPlayed> {
        match self {
            Side::Proved => run_proved(setup, requests, answers),
            Side::Reference => run_reference(setup, requests, answers),
        }
    }

    pub fn answers(self, script: &Script) -> Result<Vec<Answer>, NotPlayed> {
        let mut answers = vec![Answer::default(); script.requests.len()];
        self.run(script.setup, &script.requests, &mut answers)?;
        Ok(answers)
    }
}

fn run_proved(setup: Setup, requests: &[Request], answers: &mut [Answer]) -> Result<(), NotPlayed> {
    // SAFETY: both pointers come from slices of the lengths passed beside them, the structs are
    // laid out as C lays them, and the function keeps neither pointer.
    let status = unsafe {
        foreign::station_run(
            setup.kind.number(),
            setup.rule.number(),
            setup.items,
            setup.seats,
            requests.as_ptr(),
            requests.len(),
            answers.as_mut_ptr(),
            answers.len(),
        )
    };
    match status {
        0 => Ok(()),
        1 => Err(NotPlayed::BadSetup),
        2 => Err(NotPlayed::Uneven),
        3 => Err(NotPlayed::NoMemory),
        other => Err(NotPlayed::Unknown(other)),
    }
}

fn run_reference(
    setup: Setup,
    requests: &[Request],
    answers: &mut [Answer],
) -> Result<(), NotPlayed> {
    if requests.len() != answers.len() {
        return Err(NotPlayed::Uneven);
    }
    match setup.kind {
        Kind::Drive => play_reference::<Drive>(setup, requests, answers),
        Kind::Switch => play_reference::<Switch>(setup, requests, answers),
    }
}

fn play_reference<K: ReferenceKind>(
    setup: Setup,
    requests: &[Request],
    answers: &mut [Answer],
) -> Result<(), NotPlayed> {
    let rule = reference_rule(setup.rule);
    let mut board =
        Board::<K>::new(setup.items, setup.seats, rule).map_err(|_| NotPlayed::BadSetup)?;
    for (request, answer) in requests.iter().zip(answers) {
        *answer = match Call::try_from(*request) {
            Ok(call) => board.call(call).into(),
            Err(wrong) => wrong.into(),
        };
    }
    Ok(())
}

fn reference_rule(name: RuleName) -> Rule {
    match name {
        RuleName::Now => Rule::Now,
        RuleName::Warp => Rule::Warp,
        RuleName::HomeNow => Rule::home(Rule::Now),
        RuleName::HomeWarp => Rule::home(Rule::Warp),
    }
}

/// Bytes that the proved board takes.
pub struct Sizes {
    pub version: usize,
    /// A board without its versions.
    pub board: usize,
}

pub fn sizes(kind: Kind) -> Sizes {
    Sizes {
        version: foreign::station_version_bytes(kind.number()),
        board: foreign::station_board_bytes(kind.number()),
    }
}

/// Plays a script on both boards and gives the answers, or tells where they differ.
pub fn answers_of_both(script: &Script) -> Result<Vec<Answer>, Box<dyn std::error::Error>> {
    let proved = Side::Proved.answers(script)?;
    let plain = Side::Reference.answers(script)?;
    same_answers(script, &proved, &plain)?;
    Ok(proved)
}

/// The first request that the two boards answer differently.
#[derive(Debug)]
pub struct Differ {
    index: usize,
    request: Request,
    proved: Answer,
    reference: Answer,
}

impl fmt::Display for Differ {
    fn fmt(&self, out: &mut fmt::Formatter<'_>) -> fmt::Result {
        write!(
            out,
            "the boards differ at request {}, {:?}: proved {:?}, reference {:?}",
            self.index, self.request, self.proved, self.reference
        )
    }
}

impl std::error::Error for Differ {}

/// How many answers have been compared so far.
static COMPARED: AtomicU64 = AtomicU64::new(0);

pub fn compared() -> u64 {
    COMPARED.load(Ordering::Relaxed)
}

pub fn same_answers(script: &Script, proved: &[Answer], plain: &[Answer]) -> Result<(), Differ> {
    COMPARED.fetch_add(proved.len() as u64, Ordering::Relaxed);
    let mut pairs = proved.iter().zip(plain);
    match pairs.position(|(one, other)| one != other) {
        None => Ok(()),
        Some(index) => Err(Differ {
            index,
            request: script.requests[index],
            proved: proved[index],
            reference: plain[index],
        }),
    }
}

#[cfg(test)]
mod tests {
    use super::*;

    const SIDES: [Side; 2] = [Side::Proved, Side::Reference];

    fn setup(items: u32, seats: u32) -> Setup {
        Setup { kind: Kind::Switch, rule: RuleName::Warp, items, seats }
    }

    #[test]
    fn both_refuse_a_board_out_of_range_and_write_nothing() {
        let untouched = Answer { refusal: 7, first: 8, second: 9 };
        for (items, seats) in [(0, 1), (257, 1), (1, 0), (1, 33)] {
            for side in SIDES {
                let mut answers = [untouched];
                let outcome = side.run(setup(items, seats), &[Request::default()], &mut answers);
                assert_eq!(outcome, Err(NotPlayed::BadSetup));
                assert_eq!(answers, [untouched]);
            }
        }
    }

    #[test]
    fn both_refuse_uneven_lists() {
        for side in SIDES {
            let outcome = side.run(setup(1, 1), &[Request::default()], &mut []);
            assert_eq!(outcome, Err(NotPlayed::Uneven));
        }
    }

    #[test]
    fn both_answer_a_request_that_stands_for_no_call() {
        let requests = vec![
            Request { op: 9, ..Request::default() },
            Request { op: 0, value: 5, ..Request::default() },
        ];
        let script = Script { setup: setup(1, 1), requests };
        let faults = [0, 4].map(|first| Answer { refusal: 17, first, second: 0 });
        assert_eq!(answers_of_both(&script).expect("they agree"), faults);
    }
}
