//! The kinds of item: what states there are and how they are numbered.

use std::fmt::Debug;

/// A kind of item. `code` and `state` undo each other on states and on codes
/// below `COUNT`.
pub trait Kind {
    type State: Copy + Debug + PartialEq;
    /// How many codes there are.
    const COUNT: u32;
    /// The state of an item that nobody has written.
    const REST: Self::State;
    fn code(state: Self::State) -> u32;
    /// Only for a code below `COUNT`.
    fn state(code: u32) -> Self::State;
}

/// Who drives a locomotive.
#[derive(Clone, Copy, Debug, PartialEq, Eq)]
pub enum Holder {
    Nobody,
    Seat(u32),
}

/// The state of a locomotive.
#[derive(Clone, Copy, Debug, PartialEq, Eq)]
pub struct Locomotive {
    /// 0 to 126.
    pub speed: u32,
    /// 0 or 1.
    pub direction: u32,
    pub holder: Holder,
}

/// The kind of item on a board called `drive`.
pub struct Drive;

impl Kind for Drive {
    type State = Locomotive;
    const COUNT: u32 = 33 * 2 * 127;
    const REST: Locomotive = Locomotive { speed: 0, direction: 0, holder: Holder::Nobody };

    fn code(state: Locomotive) -> u32 {
        let holder = match state.holder {
            Holder::Nobody => 0,
            Holder::Seat(seat) => seat + 1,
        };
        (holder * 2 + state.direction) * 127 + state.speed
    }

    fn state(code: u32) -> Locomotive {
        let holder = match code / 127 / 2 {
            0 => Holder::Nobody,
            number => Holder::Seat(number - 1),
        };
        Locomotive { speed: code % 127, direction: code / 127 % 2, holder }
    }
}

/// The state of a turnout.
#[derive(Clone, Copy, Debug, PartialEq, Eq)]
pub enum Turnout {
    Unknown,
    Straight,
    Diverging,
    LockedFor(u32),
}

/// The kind of item on a board called `switch`.
pub struct Switch;

impl Kind for Switch {
    type State = Turnout;
    const COUNT: u32 = 35;
    const REST: Turnout = Turnout::Unknown;

    fn code(state: Turnout) -> u32 {
        match state {
            Turnout::Unknown => 0,
            Turnout::Straight => 1,
            Turnout::Diverging => 2,
            Turnout::LockedFor(seat) => 3 + seat,
        }
    }

    fn state(code: u32) -> Turnout {
        match code {
            0 => Turnout::Unknown,
            1 => Turnout::Straight,
            2 => Turnout::Diverging,
            locked => Turnout::LockedFor(locked - 3),
        }
    }
}

#[cfg(test)]
mod tests {
    use super::*;

    fn is_lawful<K: Kind>() {
        assert!(K::COUNT >= 2);
        assert!(K::code(K::REST) < K::COUNT);
        for code in 0..K::COUNT {
            let state = K::state(code);
            assert_eq!(K::code(state), code);
            assert_eq!(K::state(K::code(state)), state);
        }
    }

    #[test]
    fn both_kinds_are_lawful() {
        is_lawful::<Drive>();
        is_lawful::<Switch>();
    }

    #[test]
    fn counts_and_ends_of_the_ranges() {
        assert_eq!(Drive::COUNT, 8_382);
        assert_eq!(Switch::COUNT, 35);
        let last = Locomotive { speed: 126, direction: 1, holder: Holder::Seat(31) };
        assert_eq!(Drive::code(last), 8_381);
        assert_eq!(Switch::code(Turnout::LockedFor(31)), 34);
        assert_eq!(Drive::code(Drive::REST), 0);
        assert_eq!(Switch::code(Switch::REST), 0);
    }
}
