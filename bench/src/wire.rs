//! Requests and answers as both boards take and give them.

use reference::call::{Call, Class, Mode, Outcome, Reply};

/// A call by numbers; `station.h` has their meaning.
#[repr(C)]
#[derive(Clone, Copy, Debug, Default, PartialEq, Eq)]
pub struct Request {
    pub op: u32,
    pub seat: u32,
    pub pass: u32,
    pub item: u32,
    pub value: u32,
}

#[repr(C)]
#[derive(Clone, Copy, Debug, Default, PartialEq, Eq)]
pub struct Answer {
    pub refusal: u32,
    pub first: u32,
    pub second: u32,
}

#[derive(Clone, Copy, Debug, PartialEq, Eq)]
pub enum Kind {
    Drive,
    Switch,
}

impl Kind {
    pub const ALL: [Kind; 2] = [Kind::Drive, Kind::Switch];

    pub fn number(self) -> u32 {
        match self {
            Kind::Drive => 0,
            Kind::Switch => 1,
        }
    }

    pub fn name(self) -> &'static str {
        match self {
            Kind::Drive => "drive",
            Kind::Switch => "switch",
        }
    }

    /// How many codes an item has.
    pub fn codes(self) -> u32 {
        match self {
            Kind::Drive => 8_382,
            Kind::Switch => 35,
        }
    }
}

#[derive(Clone, Copy, Debug, PartialEq, Eq)]
pub enum RuleName {
    Now,
    Warp,
    HomeNow,
    HomeWarp,
}

impl RuleName {
    pub const ALL: [RuleName; 4] =
        [RuleName::Now, RuleName::Warp, RuleName::HomeNow, RuleName::HomeWarp];

    pub fn number(self) -> u32 {
        match self {
            RuleName::Now => 0,
            RuleName::Warp => 1,
            RuleName::HomeNow => 2,
            RuleName::HomeWarp => 3,
        }
    }

    pub fn name(self) -> &'static str {
        match self {
            RuleName::Now => "now",
            RuleName::Warp => "warp",
            RuleName::HomeNow => "home-now",
            RuleName::HomeWarp => "home-warp",
        }
    }
}

/// What a board is made for.
#[derive(Clone, Copy, Debug)]
pub struct Setup {
    pub kind: Kind,
    pub rule: RuleName,
    pub items: u32,
    pub seats: u32,
}

/// A list of requests and the board to play it on.
#[derive(Clone, Debug)]
pub struct Script {
    pub setup: Setup,
    pub requests: Vec<Request>,
}

impl From<Call> for Request {
    fn from(call: Call) -> Request {
        let none = Request::default();
        match call {
            Call::Admit { seat, class } => {
                Request { op: 0, seat, value: u32::from(class == Class::Guest), ..none }
            }
            Call::Revoke { seat } => Request { op: 1, seat, ..none },
            Call::Begin { seat, pass, mode } => {
                Request { op: 2, seat, pass, value: u32::from(mode == Mode::Update), ..none }
            }
            Call::Read { seat, pass, item } => Request { op: 3, seat, pass, item, ..none },
            Call::Write { seat, pass, item, code } => {
                Request { op: 4, seat, pass, item, value: code }
            }
            Call::Commit { seat, pass } => Request { op: 5, seat, pass, ..none },
            Call::Abandon { seat, pass } => Request { op: 6, seat, pass, ..none },
            Call::Show { item } => Request { op: 7, item, ..none },
        }
    }
}

/// The field of a request that has no meaning, counted from 0.
#[derive(Clone, Copy, Debug, PartialEq, Eq)]
pub struct WrongField(pub u32);

impl TryFrom<Request> for Call {
    type Error = WrongField;

    fn try_from(request: Request) -> Result<Call, WrongField> {
        let Request { op, seat, pass, item, value } = request;
        Ok(match op {
            0 => Call::Admit { seat, class: class(value)? },
            1 => Call::Revoke { seat },
            2 => Call::Begin { seat, pass, mode: mode(value)? },
            3 => Call::Read { seat, pass, item },
            4 => Call::Write { seat, pass, item, code: value },
            5 => Call::Commit { seat, pass },
            6 => Call::Abandon { seat, pass },
            7 => Call::Show { item },
            _ => return Err(WrongField(0)),
        })
    }
}

fn class(value: u32) -> Result<Class, WrongField> {
    match value {
        0 => Ok(Class::Member),
        1 => Ok(Class::Guest),
        _ => Err(WrongField(4)),
    }
}

fn mode(value: u32) -> Result<Mode, WrongField> {
    match value {
        0 => Ok(Mode::Reader),
        1 => Ok(Mode::Update),
        _ => Err(WrongField(4)),
    }
}

impl From<Outcome> for Answer {
    fn from(outcome: Outcome) -> Answer {
        let (refusal, first, second) = match outcome {
            Ok(Reply::Done) => (0, 0, 0),
            Ok(Reply::Pass(number) | Reply::Start(number) | Reply::Code(number)) => (0, number, 0),
            Ok(Reply::Granted { natural, place }) => (0, natural, place),
            Err(refusal) => (refusal.number(), refusal.named(), 0),
        };
        Answer { refusal, first, second }
    }
}

impl From<WrongField> for Answer {
    fn from(WrongField(field): WrongField) -> Answer {
        Answer { refusal: 17, first: field, second: 0 }
    }
}

#[cfg(test)]
mod tests {
    use super::*;

    const CALLS: [Call; 8] = [
        Call::Admit { seat: 1, class: Class::Guest },
        Call::Revoke { seat: 2 },
        Call::Begin { seat: 3, pass: 4, mode: Mode::Update },
        Call::Read { seat: 5, pass: 6, item: 7 },
        Call::Write { seat: 8, pass: 9, item: 10, code: 11 },
        Call::Commit { seat: 12, pass: 13 },
        Call::Abandon { seat: 14, pass: 15 },
        Call::Show { item: 16 },
    ];

    #[test]
    fn a_call_comes_back_from_its_request() {
        for (op, call) in CALLS.into_iter().enumerate() {
            let request = Request::from(call);
            assert_eq!(request.op, op as u32);
            assert_eq!(Call::try_from(request), Ok(call));
        }
    }

    #[test]
    fn a_wrong_field_is_named() {
        let wrong_op = Request { op: 8, ..Request::default() };
        assert_eq!(Call::try_from(wrong_op), Err(WrongField(0)));
        for op in [0, 2] {
            let wrong_value = Request { op, value: 2, ..Request::default() };
            assert_eq!(Call::try_from(wrong_value), Err(WrongField(4)));
        }
    }
}
