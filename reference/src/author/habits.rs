//! What kinds of script there are, and how an author of each behaves.

use super::patterns::Pattern;
use crate::random::Dice;

/// A kind of script.
#[derive(Clone, Copy, Debug, PartialEq, Eq)]
pub enum Profile {
    /// A bit of everything.
    Mixed,
    /// Many overlapping updates that miss versions.
    Warp,
    /// Readers that stay open long, and full version lists.
    Readers,
    /// Seats that are revoked and admitted again, wrong passes.
    Churn,
    /// Unknown seats, items and codes; ninth writes.
    Bounds,
    /// Many items and many seats.
    Wide,
    /// Many damaged lines.
    Damaged,
    /// A damaged header.
    BadHeader,
    /// Empty scripts, bare headers, random bytes.
    Scraps,
    /// As long as a script may be, or longer.
    Huge,
}

pub fn choose_profile(dice: &mut Dice) -> Profile {
    dice.weigh(&[
        (34, Profile::Mixed),
        (70, Profile::Warp),
        (32, Profile::Readers),
        (12, Profile::Churn),
        (16, Profile::Bounds),
        (12, Profile::Wide),
        (16, Profile::Damaged),
        (8, Profile::BadHeader),
        (3, Profile::Scraps),
        (2, Profile::Huge),
    ])
}

/// How many lines a script has, if nobody asks for a count.
pub fn choose_lines(profile: Profile, dice: &mut Dice) -> usize {
    if profile == Profile::BadHeader {
        return dice.between(1, 12);
    }
    match dice.below(100) {
        0..8 => dice.between(2, 20),
        8..85 => dice.between(25, 65),
        85..97 => dice.between(65, 120),
        _ => dice.between(120, 350),
    }
}

/// How an author behaves; the numbers without a unit are percentages or
/// weights.
#[derive(Clone, Debug)]
pub struct Habits {
    pub board: &'static str,
    pub rule: &'static str,
    pub items: u32,
    pub seats: u32,
    pub favourite_items: usize,
    pub favourite_seats: usize,
    /// How often a whole pattern is written rather than one free step.
    pub pattern: usize,
    pub patterns: &'static [(usize, Pattern)],
    /// How often a free step comes between two lines of a pattern.
    pub disturb: usize,
    /// Well-formed calls with arguments that need not fit.
    pub loose: usize,
    /// Items and codes that need not fit, in a call that fits otherwise.
    pub slip: usize,
    /// Damaged lines.
    pub damage: usize,
    pub revoke: usize,
    pub show: usize,
    pub guest: usize,
    /// How often a free transaction is a reader.
    pub reader: usize,
    /// How often an open reader goes on reading.
    pub patience: usize,
    /// Weights of an open update's steps.
    pub read: usize,
    pub write: usize,
    pub commit: usize,
    /// Are some items mostly read and others mostly written?
    pub roles: bool,
}

const ALL_PATTERNS: &[(usize, Pattern)] = &[
    (4, Pattern::Fan),
    (4, Pattern::Deep),
    (3, Pattern::LateReader),
    (3, Pattern::Beneath),
    (3, Pattern::Chain),
    (3, Pattern::Touched),
    (2, Pattern::Hold),
    (1, Pattern::FullSkip),
    (1, Pattern::NineWrites),
    (2, Pattern::Churn),
];

const WARP_PATTERNS: &[(usize, Pattern)] = &[
    (6, Pattern::Fan),
    (5, Pattern::Deep),
    (3, Pattern::LateReader),
    (3, Pattern::Beneath),
    (3, Pattern::Chain),
    (4, Pattern::Touched),
    (2, Pattern::FullSkip),
];

const READER_PATTERNS: &[(usize, Pattern)] = &[
    (5, Pattern::Hold),
    (3, Pattern::LateReader),
    (2, Pattern::Deep),
    (1, Pattern::Fan),
    (1, Pattern::FullSkip),
];

const CHURN_PATTERNS: &[(usize, Pattern)] = &[(5, Pattern::Churn), (1, Pattern::Fan)];

const BOUND_PATTERNS: &[(usize, Pattern)] =
    &[(5, Pattern::NineWrites), (2, Pattern::Hold), (1, Pattern::Deep)];

impl Habits {
    pub fn of(profile: Profile, dice: &mut Dice) -> Habits {
        let usual = Habits::usual(dice);
        match profile {
            Profile::Warp => Habits::warping(usual, dice),
            Profile::Readers => Habits {
                items: dice.between(1, 4) as u32,
                pattern: 16,
                patterns: READER_PATTERNS,
                disturb: dice.pick(&[0, 8]),
                slip: dice.pick(&[0, 10]),
                reader: 45,
                patience: 90,
                ..usual
            },
            Profile::Churn => {
                Habits { pattern: 15, patterns: CHURN_PATTERNS, loose: 12, revoke: 8, ..usual }
            }
            Profile::Bounds => Habits {
                items: dice.between(9, 20) as u32,
                favourite_items: dice.between(2, 12),
                pattern: 14,
                patterns: BOUND_PATTERNS,
                disturb: 3,
                loose: 20,
                slip: 25,
                reader: 35,
                ..usual
            },
            Profile::Wide => Habits {
                items: dice.pick(&[32, 64, 100, 255, 256, 256]),
                seats: dice.pick(&[16, 31, 32, 32]),
                ..usual
            },
            Profile::Damaged => Habits { damage: dice.pick(&[25, 45]), ..usual },
            _ => usual,
        }
    }

    fn usual(dice: &mut Dice) -> Habits {
        let rule = dice.weigh(&[(2, "now"), (5, "warp"), (1, "home-now"), (4, "home-warp")]);
        Habits {
            board: dice.weigh(&[(3, "drive"), (2, "switch")]),
            rule,
            items: dice.weigh(&[(1, 1), (4, 2), (4, 3), (3, 4), (2, 5), (2, 6), (1, 12)]),
            seats: dice.weigh(&[(1, 1), (2, 2), (6, 3), (6, 4), (4, 5), (3, 6), (1, 9)]),
            favourite_items: dice.between(2, 5),
            favourite_seats: dice.between(3, 6),
            pattern: 10,
            patterns: ALL_PATTERNS,
            disturb: 10,
            loose: 4,
            slip: dice.pick(&[0, 3, 8]),
            damage: dice.pick(&[0, 1, 3]),
            revoke: dice.pick(&[0, 1, 2]),
            show: 4,
            guest: dice.pick(&[0, 30, 50, 100]),
            reader: dice.pick(&[5, 20, 35]),
            patience: dice.pick(&[60, 85]),
            read: dice.pick(&[2, 3, 4]),
            write: dice.pick(&[3, 4, 5]),
            commit: dice.pick(&[2, 3]),
            roles: dice.chance(60),
        }
    }

    fn warping(usual: Habits, dice: &mut Dice) -> Habits {
        let (rule, guest) = dice.pick(&[("warp", 30), ("warp", 50), ("home-warp", 20)]);
        Habits {
            rule,
            guest,
            items: dice.between(2, 6) as u32,
            seats: dice.between(3, 6) as u32,
            pattern: dice.pick(&[15, 50, 85]),
            patterns: WARP_PATTERNS,
            disturb: dice.pick(&[0, 5, 20]),
            loose: 1,
            slip: dice.pick(&[0, 1]),
            damage: dice.pick(&[0, 0, 1]),
            revoke: dice.pick(&[0, 0, 1]),
            reader: dice.pick(&[3, 10, 20]),
            read: 2,
            write: 3,
            commit: dice.pick(&[2, 3]),
            roles: true,
            ..usual
        }
    }
}
