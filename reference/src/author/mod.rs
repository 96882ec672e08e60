//! The author of random scripts.
//!
//! An author plays each line on a reference board while writing, so that it
//! knows the passes and the open transactions, and most lines are accepted.

mod damage;
mod habits;
mod patterns;

use crate::call::{Call, Class, Mode, Outcome, Reply};
use crate::player::Session;
use crate::random::Dice;
use crate::script::SCRIPT_MOST;
use habits::{Habits, Profile};

/// Where a script that should fit stops growing.
const ROOM: usize = 32_000;
/// A number that no seat, pass, item or code of a small script reaches.
const FAR_AWAY: u32 = 9_999_999;

/// Writes the script of a seed. Without a count of lines, the seed gives one.
pub fn write_script(seed: u64, lines: Option<usize>) -> Vec<u8> {
    let mut dice = Dice::new(seed);
    let profile = habits::choose_profile(&mut dice);
    let usual_lines = habits::choose_lines(profile, &mut dice);
    let lines = lines.unwrap_or(usual_lines);
    match profile {
        Profile::Scraps => scraps(&mut dice),
        Profile::Huge => huge(&mut dice),
        _ => ordinary(profile, lines, &mut dice),
    }
}

fn ordinary(profile: Profile, lines: usize, dice: &mut Dice) -> Vec<u8> {
    let mut author = Author::new(profile, lines, ROOM, dice.clone());
    if profile == Profile::BadHeader {
        author.damage_header();
    }
    author.write_on();
    let mut text = author.text;
    if author.dice.chance(15) {
        text.pop();
    }
    text
}

/// Scripts that are hardly scripts at all.
fn scraps(dice: &mut Dice) -> Vec<u8> {
    let header: &[u8] = b"board=switch items=3 seats=2 rule=home-now";
    match dice.below(8) {
        0 => Vec::new(),
        1 => b"\n".repeat(dice.between(1, 4)),
        2 => header.to_vec(),
        3 => [header, b"\n"].concat(),
        4 => [header, &b"\n".repeat(dice.between(2, 6))].concat(),
        5 => [header, b"\r\nop=show item=0\r\n"].concat(),
        6 => [header, b"\n", &noise_bytes(dice)].concat(),
        _ => noise_bytes(dice),
    }
}

fn noise_bytes(dice: &mut Dice) -> Vec<u8> {
    let length = dice.between(1, 300);
    (0..length).map(|_| if dice.chance(4) { b'\n' } else { dice.below(256) as u8 }).collect()
}

/// Scripts about as long as a script may be, or longer.
fn huge(dice: &mut Dice) -> Vec<u8> {
    let length = match dice.below(8) {
        0..3 => SCRIPT_MOST,
        3..6 => SCRIPT_MOST + 1,
        6 => dice.between(SCRIPT_MOST - 700, SCRIPT_MOST - 1),
        _ => dice.between(SCRIPT_MOST, 60_000),
    };
    let ending: &[u8] = if dice.chance(50) { b"op=show item=0\n" } else { b"op=show item=0" };
    let profile = dice.pick(&[Profile::Mixed, Profile::Warp, Profile::Readers, Profile::Damaged]);
    let room = length - ending.len() - 1;
    let mut author = Author::new(profile, usize::MAX, room, dice.clone());
    author.write_on();
    let mut text = author.text;
    fill(&mut text, room, dice);
    text.push(b'\n');
    text.extend_from_slice(ending);
    text
}

/// Adds lines of no meaning up to a length.
fn fill(text: &mut Vec<u8>, length: usize, dice: &mut Dice) {
    while text.len() < length {
        text.push(if dice.chance(2) { b'\n' } else { b'x' });
    }
}

/// What the author knows of a seat.
#[derive(Clone, Copy, Debug, PartialEq, Eq)]
enum Note {
    Empty,
    Idle { pass: u32 },
    Open { pass: u32, mode: Mode },
}

impl Note {
    fn pass(self) -> Option<u32> {
        match self {
            Note::Empty => None,
            Note::Idle { pass } | Note::Open { pass, .. } => Some(pass),
        }
    }
}

struct Author {
    dice: Dice,
    habits: Habits,
    /// The header as it would be without damage, played; then each line.
    session: Session,
    text: Vec<u8>,
    /// How many more lines are wanted.
    lines_left: usize,
    /// How long the text may become.
    room: usize,
    notes: Vec<Note>,
    old_passes: Vec<u32>,
    /// The items and seats that most lines are about.
    favourite_items: Vec<u32>,
    favourite_seats: Vec<u32>,
    codes_used: u32,
}

impl Author {
    fn new(profile: Profile, lines: usize, room: usize, mut dice: Dice) -> Author {
        let habits = Habits::of(profile, &mut dice);
        let header = header_line(&habits);
        let Ok(session) = Session::open(header.as_bytes()) else {
            unreachable!("the author's own header is good");
        };
        let favourite_items = some_of(habits.items, habits.favourite_items, &mut dice);
        let favourite_seats = some_of(habits.seats, habits.favourite_seats, &mut dice);
        Author {
            dice,
            session,
            text: format!("{header}\n").into_bytes(),
            lines_left: lines.saturating_sub(1),
            room,
            notes: vec![Note::Empty; habits.seats as usize],
            old_passes: Vec::new(),
            favourite_items,
            favourite_seats,
            codes_used: 0,
            habits,
        }
    }

    /// Puts a bad header in the place of the good one.
    fn damage_header(&mut self) {
        let good = header_line(&self.habits);
        let bad = damage::damaged_header(good.as_bytes(), &self.habits, &mut self.dice);
        self.text = bad;
        self.text.push(b'\n');
    }

    /// Writes until enough lines are there.
    fn write_on(&mut self) {
        while !self.is_done() {
            if self.dice.chance(self.habits.pattern) {
                self.pattern();
            } else {
                self.free_step();
            }
        }
    }

    fn is_done(&self) -> bool {
        self.lines_left == 0
    }

    // ---- Writing lines ----

    /// Writes a line, plays it and notes what came of it. Once enough lines
    /// are there, nothing happens.
    fn say(&mut self, line: &[u8]) {
        if self.is_done() {
            return;
        }
        if self.text.len() + line.len() + 1 > self.room {
            self.lines_left = 0;
            return;
        }
        self.lines_left -= 1;
        self.text.extend_from_slice(line);
        self.text.push(b'\n');
        if let Some((call, outcome)) = self.session.play_line(line).call {
            self.note(call, outcome);
        }
    }

    /// Writes the line of a call. It may come out damaged.
    fn tell(&mut self, call: Call) {
        let line = line_of(call);
        if self.dice.chance(self.habits.damage) {
            let bad = damage::damaged(line.as_bytes(), &mut self.dice);
            self.say(&bad);
            if self.dice.chance(50) {
                return;
            }
        }
        self.say(line.as_bytes());
    }

    fn note(&mut self, call: Call, outcome: Outcome) {
        match (call, outcome) {
            (Call::Admit { seat, .. }, Ok(Reply::Pass(pass))) => {
                self.notes[seat as usize] = Note::Idle { pass };
            }
            (Call::Revoke { seat }, Ok(_)) => {
                self.old_passes.extend(self.notes[seat as usize].pass());
                self.notes[seat as usize] = Note::Empty;
            }
            (Call::Begin { seat, pass, mode }, Ok(_)) => {
                self.notes[seat as usize] = Note::Open { pass, mode };
            }
            (Call::Commit { seat, pass } | Call::Abandon { seat, pass }, Ok(_)) => {
                self.notes[seat as usize] = Note::Idle { pass };
            }
            (Call::Commit { seat, pass }, Err(refusal)) if refusal.drops_transaction() => {
                self.notes[seat as usize] = Note::Idle { pass };
            }
            _ => {}
        }
    }

    // ---- One step without a plan ----

    fn free_step(&mut self) {
        if self.dice.chance(self.habits.loose) {
            return self.loose_step();
        }
        if self.dice.chance(self.habits.show) {
            let item = self.any_item();
            return self.tell(Call::Show { item });
        }
        let seat = self.any_seat();
        if self.dice.chance(self.habits.revoke) {
            return self.tell(Call::Revoke { seat });
        }
        match self.notes[seat as usize] {
            Note::Empty => self.admit(seat),
            Note::Idle { .. } => {
                let reader = self.dice.chance(self.habits.reader);
                self.begin(seat, if reader { Mode::Reader } else { Mode::Update });
            }
            Note::Open { mode: Mode::Reader, .. } => self.reader_step(seat),
            Note::Open { mode: Mode::Update, .. } => self.update_step(seat),
        }
    }

    fn reader_step(&mut self, seat: u32) {
        if self.dice.chance(self.habits.slip) {
            self.misfit_write(seat);
        } else if self.dice.chance(self.habits.patience) {
            let item = self.any_item();
            self.read(seat, item);
        } else if self.dice.chance(80) {
            self.commit(seat);
        } else {
            self.abandon(seat);
        }
    }

    fn update_step(&mut self, seat: u32) {
        #[derive(Clone, Copy)]
        enum Step {
            Read,
            Write,
            Commit,
            Abandon,
        }
        if self.dice.chance(self.habits.slip) {
            return self.misfit_write(seat);
        }
        let weights = [
            (self.habits.read, Step::Read),
            (self.habits.write, Step::Write),
            (self.habits.commit, Step::Commit),
            (2, Step::Abandon),
        ];
        match self.dice.weigh(&weights) {
            Step::Read => {
                let item = self.item_to_read();
                self.read(seat, item);
            }
            Step::Write => {
                let item = self.item_to_write();
                self.write(seat, item);
            }
            Step::Commit => self.commit(seat),
            Step::Abandon => self.abandon(seat),
        }
    }

    /// A well-formed call with arguments that need not fit.
    fn loose_step(&mut self) {
        let seat = self.loose_seat();
        let pass = self.loose_pass(seat);
        let item = self.loose_item();
        let code = self.loose_code();
        let class = self.any_class();
        let mode = self.dice.pick(&[Mode::Reader, Mode::Update]);
        let call = self.dice.weigh(&[
            (3, Call::Admit { seat, class }),
            (1, Call::Revoke { seat }),
            (4, Call::Begin { seat, pass, mode }),
            (6, Call::Read { seat, pass, item }),
            (8, Call::Write { seat, pass, item, code }),
            (4, Call::Commit { seat, pass }),
            (3, Call::Abandon { seat, pass }),
            (3, Call::Show { item }),
        ]);
        self.tell(call);
    }

    fn loose_seat(&mut self) -> u32 {
        if self.dice.chance(85) {
            return self.any_seat();
        }
        let count = self.habits.seats;
        self.dice.pick(&[count, count + 1, 31, 32, 255, FAR_AWAY])
    }

    fn loose_pass(&mut self, seat: u32) -> u32 {
        let known = self.notes.get(seat as usize).and_then(|note| note.pass());
        match known {
            Some(pass) if self.dice.chance(70) => pass,
            _ => self.wrong_pass(),
        }
    }

    fn wrong_pass(&mut self) -> u32 {
        let neighbour = self.any_seat();
        let of_neighbour = self.notes[neighbour as usize].pass().unwrap_or(0);
        let old = match self.old_passes.len() {
            0 => 0,
            count => self.old_passes[self.dice.below(count)],
        };
        let small = self.dice.below(8) as u32;
        self.dice.pick(&[0, of_neighbour, old, old, small, FAR_AWAY])
    }

    fn loose_item(&mut self) -> u32 {
        if self.dice.chance(60) {
            return self.any_item();
        }
        let count = self.habits.items;
        self.dice.pick(&[count, count + 1, 255, 256, FAR_AWAY])
    }

    fn loose_code(&mut self) -> u32 {
        if self.dice.chance(40) {
            return self.fresh_code();
        }
        let count = self.session.board.codes();
        self.dice.pick(&[count - 1, count, count + 1, 34, 35, 8_381, 8_382, FAR_AWAY, 0])
    }

    // ---- Choices ----

    fn any_class(&mut self) -> Class {
        if self.dice.chance(self.habits.guest) { Class::Guest } else { Class::Member }
    }

    fn any_seat(&mut self) -> u32 {
        if self.dice.chance(95) {
            self.dice.pick(&self.favourite_seats)
        } else {
            self.dice.below(self.habits.seats as usize) as u32
        }
    }

    fn any_item(&mut self) -> u32 {
        if self.dice.chance(95) {
            self.dice.pick(&self.favourite_items)
        } else {
            self.dice.below(self.habits.items as usize) as u32
        }
    }

    /// Where items have roles, the first half of the favourites is mostly
    /// read and the second half mostly written without being read.
    fn item_to_read(&mut self) -> u32 {
        let half = self.favourite_items.len().div_ceil(2);
        if self.habits.roles && self.dice.chance(85) {
            self.dice.pick(&self.favourite_items[..half])
        } else {
            self.any_item()
        }
    }

    fn item_to_write(&mut self) -> u32 {
        let half = self.favourite_items.len() / 2;
        if self.habits.roles && self.dice.chance(70) {
            self.dice.pick(&self.favourite_items[half..])
        } else {
            self.any_item()
        }
    }

    /// Codes that mostly differ from one write to the next.
    fn fresh_code(&mut self) -> u32 {
        let count = self.session.board.codes();
        if self.dice.chance(5) {
            return self.dice.pick(&[0, count - 1]);
        }
        self.codes_used += 1;
        self.codes_used * 7 % (count - 1) + 1
    }

    // ---- The calls with the pass that is known ----

    fn known_pass(&self, seat: u32) -> u32 {
        self.notes[seat as usize].pass().unwrap_or(0)
    }

    fn admit(&mut self, seat: u32) {
        let class = self.any_class();
        self.tell(Call::Admit { seat, class });
    }

    fn begin(&mut self, seat: u32, mode: Mode) {
        let pass = self.known_pass(seat);
        self.tell(Call::Begin { seat, pass, mode });
    }

    fn read(&mut self, seat: u32, item: u32) {
        let pass = self.known_pass(seat);
        let item = if self.dice.chance(self.habits.slip) { self.loose_item() } else { item };
        self.tell(Call::Read { seat, pass, item });
    }

    fn write(&mut self, seat: u32, item: u32) {
        let pass = self.known_pass(seat);
        let code = self.fresh_code();
        self.tell(Call::Write { seat, pass, item, code });
    }

    /// A write whose item and code need not fit.
    fn misfit_write(&mut self, seat: u32) {
        let pass = self.known_pass(seat);
        let item = self.loose_item();
        let code = self.loose_code();
        self.tell(Call::Write { seat, pass, item, code });
    }

    fn commit(&mut self, seat: u32) {
        let pass = self.known_pass(seat);
        self.tell(Call::Commit { seat, pass });
    }

    fn abandon(&mut self, seat: u32) {
        let pass = self.known_pass(seat);
        self.tell(Call::Abandon { seat, pass });
    }

    fn show(&mut self, item: u32) {
        self.tell(Call::Show { item });
    }
}

fn header_line(habits: &Habits) -> String {
    let Habits { board, items, seats, rule, .. } = habits;
    format!("board={board} items={items} seats={seats} rule={rule}")
}

/// `count` different numbers below `limit`, or all of them.
fn some_of(limit: u32, count: usize, dice: &mut Dice) -> Vec<u32> {
    let mut all: Vec<u32> = (0..limit).collect();
    dice.shuffle(&mut all);
    all.truncate(count);
    all
}

fn line_of(call: Call) -> String {
    match call {
        Call::Admit { seat, class } => {
            let class = match class {
                Class::Member => "member",
                Class::Guest => "guest",
            };
            format!("op=admit seat={seat} class={class}")
        }
        Call::Revoke { seat } => format!("op=revoke seat={seat}"),
        Call::Begin { seat, pass, mode } => {
            let mode = match mode {
                Mode::Reader => "reader",
                Mode::Update => "update",
            };
            format!("op=begin seat={seat} pass={pass} mode={mode}")
        }
        Call::Read { seat, pass, item } => format!("op=read seat={seat} pass={pass} item={item}"),
        Call::Write { seat, pass, item, code } => {
            format!("op=write seat={seat} pass={pass} item={item} code={code}")
        }
        Call::Commit { seat, pass } => format!("op=commit seat={seat} pass={pass}"),
        Call::Abandon { seat, pass } => format!("op=abandon seat={seat} pass={pass}"),
        Call::Show { item } => format!("op=show item={item}"),
    }
}
