//! Seeded work: many seats, each going through one transaction after the other, interleaved at random.

use std::collections::VecDeque;
use std::ops::RangeInclusive;

use reference::call::{Call, Class, Mode};
use reference::random::Dice;

use crate::wire::{Request, Script, Setup};

/// What the seats of a board do.
#[derive(Clone, Debug)]
pub struct Mix {
    pub name: &'static str,
    pub setup: Setup,
    /// How many of 100 seats are held by guests.
    pub guests: usize,
    /// How many of 100 transactions are readers.
    pub readers: usize,
    /// How many items a reader reads.
    pub reader_reads: RangeInclusive<usize>,
    /// How many items an update reads besides those that it writes.
    pub update_reads: RangeInclusive<usize>,
    pub writes: RangeInclusive<usize>,
    /// How many of 100 written items are read first.
    pub read_first: usize,
    /// How many transactions are open side by side; the other seats are idle meanwhile.
    pub abreast: usize,
}

/// Codes that differ for as long as the kind has any left; then they come again.
struct Codes {
    given: u32,
    count: u32,
}

impl Codes {
    /// Never code 0, the rest state's.
    fn next(&mut self) -> u32 {
        self.given += 1;
        1 + self.given % (self.count - 1)
    }
}

/// What one seat still has to send.
struct Seat {
    seat: u32,
    pass: u32,
    queue: VecDeque<Call>,
}

impl Seat {
    fn send(&mut self, dice: &mut Dice, mix: &Mix, codes: &mut Codes) -> Call {
        if self.queue.is_empty() {
            self.plan(dice, mix, codes);
        }
        self.queue.pop_front().expect("a planned transaction has calls")
    }

    fn plan(&mut self, dice: &mut Dice, mix: &Mix, codes: &mut Codes) {
        let (seat, pass) = (self.seat, self.pass);
        let mode = if dice.chance(mix.readers) { Mode::Reader } else { Mode::Update };
        self.queue.push_back(Call::Begin { seat, pass, mode });
        match mode {
            Mode::Reader => self.plan_reads(dice, mix, &mix.reader_reads),
            Mode::Update => self.plan_update(dice, mix, codes),
        }
        self.queue.push_back(Call::Commit { seat, pass });
    }

    fn plan_reads(&mut self, dice: &mut Dice, mix: &Mix, count: &RangeInclusive<usize>) {
        for _ in 0..dice.between(*count.start(), *count.end()) {
            let item = any_item(dice, mix);
            self.queue.push_back(Call::Read { seat: self.seat, pass: self.pass, item });
        }
    }

    fn plan_update(&mut self, dice: &mut Dice, mix: &Mix, codes: &mut Codes) {
        self.plan_reads(dice, mix, &mix.update_reads);
        let (seat, pass) = (self.seat, self.pass);
        for item in written_items(dice, mix) {
            if dice.chance(mix.read_first) {
                self.queue.push_back(Call::Read { seat, pass, item });
            }
            self.queue.push_back(Call::Write { seat, pass, item, code: codes.next() });
        }
    }
}

fn any_item(dice: &mut Dice, mix: &Mix) -> u32 {
    dice.below(mix.setup.items as usize) as u32
}

/// Different items, as many as the mix says or the board has.
fn written_items(dice: &mut Dice, mix: &Mix) -> Vec<u32> {
    let most = mix.setup.items as usize;
    let wanted = dice.between(*mix.writes.start(), *mix.writes.end()).min(most);
    let mut items = Vec::with_capacity(wanted);
    while items.len() < wanted {
        let item = any_item(dice, mix);
        if !items.contains(&item) {
            items.push(item);
        }
    }
    items
}

/// Calls that admit every seat in order, so that seat s has pass s + 1.
pub fn admit_all(seats: u32, guests: usize) -> impl Iterator<Item = Call> {
    (0..seats).map(move |seat| {
        // Guests are spread over the seats.
        let is_guest = (seat as usize * guests) % 100 + guests >= 100;
        Call::Admit { seat, class: if is_guest { Class::Guest } else { Class::Member } }
    })
}

/// A script of `length` requests that the seed fixes.
pub fn script(mix: &Mix, seed: u64, length: usize) -> Script {
    let mut dice = Dice::new(seed);
    let mut codes = Codes { given: 0, count: mix.setup.kind.codes() };
    let mut requests: Vec<Request> =
        admit_all(mix.setup.seats, mix.guests).map(Request::from).collect();
    let mut seats: Vec<Seat> = (0..mix.setup.seats)
        .map(|seat| Seat { seat, pass: seat + 1, queue: VecDeque::new() })
        .collect();
    // The busy seats stand in front.
    let busy = mix.abreast.min(seats.len());
    while requests.len() < length {
        let sender = dice.below(busy);
        requests.push(seats[sender].send(&mut dice, mix, &mut codes).into());
        if seats[sender].queue.is_empty() {
            // Its transaction has ended; any idle seat, or itself, has the next one.
            let idle = dice.between(busy, seats.len());
            let next = if idle == seats.len() { sender } else { idle };
            seats.swap(sender, next);
        }
    }
    Script { setup: mix.setup, requests }
}
