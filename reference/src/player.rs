//! Playing a script line by line.

use std::fmt;

use crate::board::{Board, Events};
use crate::call::{Call, Outcome, Refusal, Reply};
use crate::kind::{Drive, Kind, Switch};
use crate::script::{self, BoardName, Fault, Header, SCRIPT_MOST};

pub const LINE_NUMBER_MOST: u32 = 9_999_999;

/// A board of either kind.
pub enum AnyBoard {
    Drive(Board<Drive>),
    Switch(Board<Switch>),
}

impl AnyBoard {
    pub fn new(header: &Header) -> Result<AnyBoard, Refusal> {
        let (items, seats, rule) = (header.items, header.seats, header.rule.clone());
        match header.board {
            BoardName::Drive => Board::new(items, seats, rule).map(AnyBoard::Drive),
            BoardName::Switch => Board::new(items, seats, rule).map(AnyBoard::Switch),
        }
    }

    pub fn call(&mut self, call: Call) -> Outcome {
        match self {
            AnyBoard::Drive(board) => board.call(call),
            AnyBoard::Switch(board) => board.call(call),
        }
    }

    pub fn events(&self) -> Events {
        match self {
            AnyBoard::Drive(board) => board.events(),
            AnyBoard::Switch(board) => board.events(),
        }
    }

    pub fn items(&self) -> u32 {
        match self {
            AnyBoard::Drive(board) => board.items(),
            AnyBoard::Switch(board) => board.items(),
        }
    }

    /// The code of the rest state.
    pub fn rest_code(&self) -> u32 {
        match self {
            AnyBoard::Drive(_) => Drive::code(Drive::REST),
            AnyBoard::Switch(_) => Switch::code(Switch::REST),
        }
    }

    /// How many codes an item of this board has.
    pub fn codes(&self) -> u32 {
        match self {
            AnyBoard::Drive(_) => Drive::COUNT,
            AnyBoard::Switch(_) => Switch::COUNT,
        }
    }

    pub fn check_shape(&self) -> Result<(), String> {
        match self {
            AnyBoard::Drive(board) => board.check_shape(),
            AnyBoard::Switch(board) => board.check_shape(),
        }
    }

    /// What show answers for every item.
    pub fn shown(&mut self) -> Vec<u32> {
        let codes = (0..self.items()).map(|item| match self.call(Call::Show { item }) {
            Ok(Reply::Code(code)) => code,
            other => panic!("show of item {item} answered {other:?}"),
        });
        codes.collect()
    }
}

/// One answer line.
#[derive(Clone, Copy, Debug, PartialEq, Eq)]
pub struct AnswerLine {
    pub line: u32,
    /// 0 if the line was accepted.
    pub refusal: u32,
    pub first: u32,
    pub second: u32,
}

impl AnswerLine {
    fn of(line: u32, outcome: Result<Reply, Fault>) -> AnswerLine {
        let (refusal, first, second) = match outcome {
            Ok(Reply::Done) => (0, 0, 0),
            Ok(Reply::Pass(number) | Reply::Start(number) | Reply::Code(number)) => (0, number, 0),
            Ok(Reply::Granted { natural, place }) => (0, natural, place),
            Err(fault) => (fault.number(), fault.named(), 0),
        };
        AnswerLine { line, refusal, first, second }
    }
}

impl fmt::Display for AnswerLine {
    fn fmt(&self, out: &mut fmt::Formatter<'_>) -> fmt::Result {
        write!(out, "{} {} {} {}", self.line, self.refusal, self.first, self.second)
    }
}

/// A script being played, past its header.
pub struct Session {
    pub board: AnyBoard,
    line: u32,
}

/// What became of one line.
pub struct Played {
    pub answer: AnswerLine,
    /// The call and its outcome, if the line was well-formed.
    pub call: Option<(Call, Outcome)>,
}

impl Session {
    /// Plays the header. A refused one gives its answer line.
    pub fn open(header_line: &[u8]) -> Result<Session, AnswerLine> {
        let board = script::read_header(header_line)
            .and_then(|header| AnyBoard::new(&header).map_err(Fault::Board));
        match board {
            Ok(board) => Ok(Session { board, line: 1 }),
            Err(fault) => Err(AnswerLine::of(1, Err(fault))),
        }
    }

    /// Plays one later line.
    pub fn play_line(&mut self, line: &[u8]) -> Played {
        self.line = (self.line + 1).min(LINE_NUMBER_MOST);
        match script::read_call(line) {
            Err(fault) => Played { answer: AnswerLine::of(self.line, Err(fault)), call: None },
            Ok(call) => {
                let outcome = self.board.call(call);
                let answer = AnswerLine::of(self.line, outcome.map_err(Fault::Board));
                Played { answer, call: Some((call, outcome)) }
            }
        }
    }
}

/// All that came of a script.
#[derive(Default)]
pub struct Record {
    pub answers: Vec<AnswerLine>,
    pub log: Vec<(Call, Outcome)>,
    /// The board at the end, if the header was good.
    pub board: Option<AnyBoard>,
}

impl Record {
    /// The answer lines as they are printed.
    pub fn text(&self) -> String {
        self.answers.iter().map(|answer| format!("{answer}\n")).collect()
    }
}

/// Plays a whole script.
pub fn play(script: &[u8]) -> Record {
    let mut record = Record::default();
    if script.len() > SCRIPT_MOST {
        record.answers.push(AnswerLine::of(0, Err(Fault::TooLong)));
        return record;
    }
    let lines = script::lines(script);
    let mut session = match Session::open(lines[0]) {
        Ok(session) => session,
        Err(answer) => {
            record.answers.push(answer);
            return record;
        }
    };
    for line in &lines[1..] {
        let played = session.play_line(line);
        record.answers.push(played.answer);
        record.log.extend(played.call);
    }
    record.board = Some(session.board);
    record
}
