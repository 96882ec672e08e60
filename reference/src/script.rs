//! Reading the lines of a script.

use crate::call::{Call, Class, Mode, Refusal};
use crate::rule::Rule;

pub const SCRIPT_MOST: usize = 32_768;
pub const LINE_MOST: usize = 96;
pub const DIGITS_MOST: usize = 7;

/// Why a line is refused.
#[derive(Clone, Copy, Debug, PartialEq, Eq)]
pub enum Fault {
    /// The board refuses the call of a well-formed line.
    Board(Refusal),
    TooLong,
    /// Names the byte where the wrong part starts, or the line's length.
    WrongPart {
        at: u32,
    },
    /// Names the byte where the value starts.
    WrongNumber {
        at: u32,
    },
}

impl Fault {
    pub fn number(self) -> u32 {
        match self {
            Fault::Board(refusal) => refusal.number(),
            Fault::TooLong => 16,
            Fault::WrongPart { .. } => 17,
            Fault::WrongNumber { .. } => 18,
        }
    }

    pub fn named(self) -> u32 {
        match self {
            Fault::Board(refusal) => refusal.named(),
            Fault::TooLong => 0,
            Fault::WrongPart { at } | Fault::WrongNumber { at } => at,
        }
    }
}

/// Which board the header asks for.
#[derive(Clone, Copy, Debug, PartialEq, Eq)]
pub enum BoardName {
    Drive,
    Switch,
}

/// The first line of a script.
#[derive(Clone, Debug)]
pub struct Header {
    pub board: BoardName,
    pub items: u32,
    pub seats: u32,
    pub rule: Rule,
}

/// The lines of a script, without their newlines. A newline ends a line and
/// begins none; an empty script is one empty line.
pub fn lines(script: &[u8]) -> Vec<&[u8]> {
    let body = script.strip_suffix(b"\n").unwrap_or(script);
    body.split(|&byte| byte == b'\n').collect()
}

pub fn read_header(line: &[u8]) -> Result<Header, Fault> {
    let mut pairs = Pairs::of(line)?;
    let board = pairs.word("board", board_name)?;
    let items = pairs.number("items")?;
    let seats = pairs.number("seats")?;
    let rule = pairs.word("rule", rule_name)?;
    pairs.end()?;
    Ok(Header { board, items, seats, rule })
}

pub fn read_call(line: &[u8]) -> Result<Call, Fault> {
    let mut pairs = Pairs::of(line)?;
    let op = pairs.word("op", op_name)?;
    let call = match op {
        Op::Admit => {
            let seat = pairs.number("seat")?;
            let class = pairs.word("class", class_name)?;
            Call::Admit { seat, class }
        }
        Op::Revoke => {
            let seat = pairs.number("seat")?;
            Call::Revoke { seat }
        }
        Op::Begin => {
            let seat = pairs.number("seat")?;
            let pass = pairs.number("pass")?;
            let mode = pairs.word("mode", mode_name)?;
            Call::Begin { seat, pass, mode }
        }
        Op::Read => {
            let seat = pairs.number("seat")?;
            let pass = pairs.number("pass")?;
            let item = pairs.number("item")?;
            Call::Read { seat, pass, item }
        }
        Op::Write => {
            let seat = pairs.number("seat")?;
            let pass = pairs.number("pass")?;
            let item = pairs.number("item")?;
            let code = pairs.number("code")?;
            Call::Write { seat, pass, item, code }
        }
        Op::Commit => {
            let seat = pairs.number("seat")?;
            let pass = pairs.number("pass")?;
            Call::Commit { seat, pass }
        }
        Op::Abandon => {
            let seat = pairs.number("seat")?;
            let pass = pairs.number("pass")?;
            Call::Abandon { seat, pass }
        }
        Op::Show => {
            let item = pairs.number("item")?;
            Call::Show { item }
        }
    };
    pairs.end()?;
    Ok(call)
}

#[derive(Clone, Copy)]
enum Op {
    Admit,
    Revoke,
    Begin,
    Read,
    Write,
    Commit,
    Abandon,
    Show,
}

fn op_name(word: &[u8]) -> Option<Op> {
    match word {
        b"admit" => Some(Op::Admit),
        b"revoke" => Some(Op::Revoke),
        b"begin" => Some(Op::Begin),
        b"read" => Some(Op::Read),
        b"write" => Some(Op::Write),
        b"commit" => Some(Op::Commit),
        b"abandon" => Some(Op::Abandon),
        b"show" => Some(Op::Show),
        _ => None,
    }
}

fn class_name(word: &[u8]) -> Option<Class> {
    match word {
        b"member" => Some(Class::Member),
        b"guest" => Some(Class::Guest),
        _ => None,
    }
}

fn mode_name(word: &[u8]) -> Option<Mode> {
    match word {
        b"reader" => Some(Mode::Reader),
        b"update" => Some(Mode::Update),
        _ => None,
    }
}

fn board_name(word: &[u8]) -> Option<BoardName> {
    match word {
        b"drive" => Some(BoardName::Drive),
        b"switch" => Some(BoardName::Switch),
        _ => None,
    }
}

fn rule_name(word: &[u8]) -> Option<Rule> {
    match word {
        b"now" => Some(Rule::Now),
        b"warp" => Some(Rule::Warp),
        b"home-now" => Some(Rule::home(Rule::Now)),
        b"home-warp" => Some(Rule::home(Rule::Warp)),
        _ => None,
    }
}

/// A piece of a line and the byte where it starts.
#[derive(Clone, Copy)]
struct Part<'a> {
    at: usize,
    bytes: &'a [u8],
}

/// The parts of a line, taken from the left.
struct Pairs<'a> {
    parts: std::vec::IntoIter<Part<'a>>,
    line_length: usize,
}

impl<'a> Pairs<'a> {
    /// Question 16, then the line is cut at each space.
    fn of(line: &'a [u8]) -> Result<Pairs<'a>, Fault> {
        if line.len() > LINE_MOST {
            return Err(Fault::TooLong);
        }
        let mut parts = Vec::new();
        let mut at = 0;
        for bytes in line.split(|&byte| byte == b' ') {
            parts.push(Part { at, bytes });
            at += bytes.len() + 1;
        }
        Ok(Pairs { parts: parts.into_iter(), line_length: line.len() })
    }

    /// A pair whose value is one of the listed words, else fault 17.
    fn word<T>(&mut self, key: &str, listed: fn(&[u8]) -> Option<T>) -> Result<T, Fault> {
        let (part, value) = self.value(key)?;
        listed(value.bytes).ok_or(wrong_part(part.at))
    }

    /// A pair with a number; 17 is asked before 18.
    fn number(&mut self, key: &str) -> Result<u32, Fault> {
        let (_, value) = self.value(key)?;
        number(value.bytes).ok_or(Fault::WrongNumber { at: value.at as u32 })
    }

    /// The next part, which must have the expected key, and its value.
    fn value(&mut self, key: &str) -> Result<(Part<'a>, Part<'a>), Fault> {
        let part = self.parts.next().ok_or(wrong_part(self.line_length))?;
        let after_key = part.bytes.strip_prefix(key.as_bytes());
        let bytes =
            after_key.and_then(|rest| rest.strip_prefix(b"=")).ok_or(wrong_part(part.at))?;
        Ok((part, Part { at: part.at + key.len() + 1, bytes }))
    }

    /// Does no part follow the last?
    fn end(&mut self) -> Result<(), Fault> {
        match self.parts.next() {
            Some(part) => Err(wrong_part(part.at)),
            None => Ok(()),
        }
    }
}

fn wrong_part(at: usize) -> Fault {
    Fault::WrongPart { at: at as u32 }
}

/// Decimal, one to seven digits, no leading zero except 0 itself.
fn number(value: &[u8]) -> Option<u32> {
    let right_length = (1..=DIGITS_MOST).contains(&value.len());
    let all_digits = value.iter().all(u8::is_ascii_digit);
    let leading_zero = value.len() > 1 && value[0] == b'0';
    if !right_length || !all_digits || leading_zero {
        return None;
    }
    Some(value.iter().fold(0, |sum, &digit| sum * 10 + u32::from(digit - b'0')))
}
