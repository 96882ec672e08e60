//! How the cost of one call grows with items, seats, open transactions and list length.
//!
//! The cost of a call is taken from two scripts, one with many of it and one without: the
//! difference of their times over the count.

use std::error::Error;

use reference::call::{Call, Class, Mode};

use crate::timing::race;
use crate::wire::{Kind, Request, RuleName, Script, Setup};

const CALLS: u32 = 40_000;
const ROUNDS: usize = 7;

/// Nanoseconds of one call.
#[derive(Clone, Copy, Debug)]
pub struct Cost {
    pub proved: f64,
    pub reference: f64,
}

/// The size of a board and what is open on it while a call is measured.
#[derive(Clone, Copy, Debug)]
pub struct Scene {
    pub items: u32,
    pub seats: u32,
    /// Other seats with an open update.
    pub open: u32,
    /// Versions of each of the items 0 to 3 that the measured transaction finds newer than its own.
    pub newer: u32,
}

impl Scene {
    pub const SMALL: Scene = Scene { items: 4, seats: 32, open: 0, newer: 0 };
}

/// What is measured.
#[derive(Clone, Copy, Debug, PartialEq, Eq)]
pub enum Measured {
    /// A read by an update, which marks.
    Read,
    /// A read by a reader.
    ReaderRead,
    /// A write of an item that is listed already.
    Write,
    /// A whole transaction: begin, read, write, commit.
    Transaction,
    /// The same without the write, so that lists stay as they are.
    ReadCommit,
    /// Begin and abandon.
    BeginAbandon,
}

impl Measured {
    pub const ALL: [Measured; 6] = [
        Measured::Read,
        Measured::ReaderRead,
        Measured::Write,
        Measured::Transaction,
        Measured::ReadCommit,
        Measured::BeginAbandon,
    ];

    pub fn name(self) -> &'static str {
        match self {
            Measured::Read => "read (update)",
            Measured::ReaderRead => "read (reader)",
            Measured::Write => "write",
            Measured::Transaction => "begin+read+write+commit",
            Measured::ReadCommit => "begin+read+commit",
            Measured::BeginAbandon => "begin+abandon",
        }
    }

    fn mode(self) -> Mode {
        match self {
            Measured::ReaderRead => Mode::Reader,
            _ => Mode::Update,
        }
    }
}

/// Seat 0 is the one that is measured.
const SEAT: u32 = 0;
const PASS: u32 = 1;

fn setup(scene: Scene) -> Setup {
    Setup { kind: Kind::Drive, rule: RuleName::Warp, items: scene.items, seats: scene.seats }
}

fn begin(seat: u32, mode: Mode) -> Call {
    Call::Begin { seat, pass: seat + 1, mode }
}

/// All seats are admitted, some have begun, seat 0 too where it measures single calls, and versions
/// newer than its start are stored.
fn before(scene: Scene, measured: Measured) -> Vec<Call> {
    let mut calls: Vec<Call> =
        (0..scene.seats).map(|seat| Call::Admit { seat, class: Class::Member }).collect();
    calls.extend((1..=scene.open.min(scene.seats - 1)).map(|seat| begin(seat, Mode::Update)));
    let single = matches!(measured, Measured::Read | Measured::ReaderRead | Measured::Write);
    if single {
        calls.push(begin(SEAT, measured.mode()));
    }
    let writer = scene.seats - 1;
    for _ in 0..scene.newer {
        calls.push(begin(writer, Mode::Update));
        calls.extend((0..scene.items.min(4)).map(|item| write(writer, item)));
        calls.push(Call::Commit { seat: writer, pass: writer + 1 });
    }
    if measured == Measured::Write {
        calls.extend((0..scene.items.min(4)).map(|item| write(SEAT, item)));
    }
    calls
}

fn write(seat: u32, item: u32) -> Call {
    Call::Write { seat, pass: seat + 1, item, code: 1 + item }
}

/// The calls that are counted as one, for the turn with this number.
fn turn(measured: Measured, items: u32, number: u32) -> Vec<Call> {
    // Within four items, so that neither lists nor caches grow with the board.
    let item = number % items.min(4);
    let (seat, pass) = (SEAT, PASS);
    match measured {
        Measured::Read | Measured::ReaderRead => vec![Call::Read { seat, pass, item }],
        Measured::Write => vec![write(seat, item)],
        Measured::Transaction => vec![
            begin(seat, Mode::Update),
            Call::Read { seat, pass, item },
            write(seat, item),
            Call::Commit { seat, pass },
        ],
        Measured::ReadCommit => vec![
            begin(seat, Mode::Update),
            Call::Read { seat, pass, item },
            Call::Commit { seat, pass },
        ],
        Measured::BeginAbandon => {
            vec![begin(seat, Mode::Update), Call::Abandon { seat, pass }]
        }
    }
}

fn script(setup: Setup, calls: &[Call]) -> Script {
    Script { setup, requests: calls.iter().copied().map(Request::from).collect() }
}

pub fn cost(scene: Scene, measured: Measured) -> Result<Cost, Box<dyn Error>> {
    let without = before(scene, measured);
    let mut with = without.clone();
    with.extend((0..CALLS).flat_map(|number| turn(measured, scene.items, number)));
    difference(setup(scene), &without, &with, CALLS)
}

/// Begin, write and commit, again and again of one item, whose list grows by one each time up to
/// `longest`: an old transaction at another seat keeps it, and is then dropped.
pub fn commit_cost(longest: u32) -> Result<Cost, Box<dyn Error>> {
    let scene = Scene::SMALL;
    let without = before(scene, Measured::Transaction);
    let pinned = 1;
    let grants = longest - 1;
    let mut with = without.clone();
    let mut bare = without;
    for _ in 0..CALLS / grants {
        let pin = begin(pinned, Mode::Update);
        let unpin = Call::Abandon { seat: pinned, pass: pinned + 1 };
        bare.extend([pin, unpin]);
        with.push(pin);
        for _ in 0..grants {
            let commit = Call::Commit { seat: SEAT, pass: PASS };
            with.extend([begin(SEAT, Mode::Update), write(SEAT, 0), commit]);
        }
        with.push(unpin);
    }
    difference(setup(scene), &bare, &with, CALLS / grants * grants)
}

fn difference(
    setup: Setup,
    without: &[Call],
    with: &[Call],
    count: u32,
) -> Result<Cost, Box<dyn Error>> {
    let base = race(&script(setup, without), ROUNDS)?;
    let full = race(&script(setup, with), ROUNDS)?;
    let each = |full: f64, base: f64| (full - base) * 1e9 / f64::from(count);
    Ok(Cost {
        proved: each(full.proved, base.proved),
        reference: each(full.reference, base.reference),
    })
}
