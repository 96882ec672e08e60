//! The eight calls, what they answer, and why they are refused.

/// Who holds a seat.
#[derive(Clone, Copy, Debug, PartialEq, Eq)]
pub enum Class {
    Member,
    Guest,
}

/// What a transaction is opened for.
#[derive(Clone, Copy, Debug, PartialEq, Eq)]
pub enum Mode {
    Reader,
    Update,
}

/// One call at the board.
#[derive(Clone, Copy, Debug, PartialEq, Eq)]
pub enum Call {
    Admit { seat: u32, class: Class },
    Revoke { seat: u32 },
    Begin { seat: u32, pass: u32, mode: Mode },
    Read { seat: u32, pass: u32, item: u32 },
    Write { seat: u32, pass: u32, item: u32, code: u32 },
    Commit { seat: u32, pass: u32 },
    Abandon { seat: u32, pass: u32 },
    Show { item: u32 },
}

/// What an accepted call answers.
#[derive(Clone, Copy, Debug, PartialEq, Eq)]
pub enum Reply {
    /// Nothing to tell: revoke, write, abandon.
    Done,
    /// The pass that admit gave.
    Pass(u32),
    /// The start of the transaction that begin opened.
    Start(u32),
    /// The code that read or show found.
    Code(u32),
    /// The natural number and the place of a granted commit.
    Granted { natural: u32, place: u32 },
}

/// Why the board refuses, in the order in which the questions are asked.
#[derive(Clone, Copy, Debug, PartialEq, Eq)]
pub enum Refusal {
    BadSetup,
    UnknownSeat,
    SeatTaken,
    NoPassLeft,
    SeatEmpty,
    WrongPass,
    AlreadyOpen,
    NothingOpen,
    UnknownItem,
    ReaderWrites,
    UnknownCode,
    WriteListFull,
    ClockAtEnd,
    /// Names the lowest marked item with a missed version.
    NotGranted {
        item: u32,
    },
    /// Names the lowest listed item whose versions would be too many.
    TooManyVersions {
        item: u32,
    },
}

impl Refusal {
    /// The number of the question that was answered with "no".
    pub fn number(self) -> u32 {
        match self {
            Refusal::BadSetup => 1,
            Refusal::UnknownSeat => 2,
            Refusal::SeatTaken => 3,
            Refusal::NoPassLeft => 4,
            Refusal::SeatEmpty => 5,
            Refusal::WrongPass => 6,
            Refusal::AlreadyOpen => 7,
            Refusal::NothingOpen => 8,
            Refusal::UnknownItem => 9,
            Refusal::ReaderWrites => 10,
            Refusal::UnknownCode => 11,
            Refusal::WriteListFull => 12,
            Refusal::ClockAtEnd => 13,
            Refusal::NotGranted { .. } => 14,
            Refusal::TooManyVersions { .. } => 15,
        }
    }

    /// What the refusal names, or 0.
    pub fn named(self) -> u32 {
        match self {
            Refusal::NotGranted { item } | Refusal::TooManyVersions { item } => item,
            _ => 0,
        }
    }

    /// Does a commit refused like this drop its transaction?
    pub fn drops_transaction(self) -> bool {
        matches!(self.number(), 13..=15)
    }
}

/// The answer to one call.
pub type Outcome = Result<Reply, Refusal>;
