//! The board: items with their versions, seats with their transactions, and
//! the eight calls.

use std::collections::{BTreeMap, BTreeSet};

use crate::call::{Call, Class, Mode, Outcome, Refusal, Reply};
use crate::kind::Kind;
use crate::rule::{Findings, Rule, Verdict};

pub const ITEMS_MOST: u32 = 256;
pub const SEATS_MOST: u32 = 32;
pub const VERSIONS_MOST: usize = 8;
pub const WRITES_MOST: usize = 8;
pub const CLOCK_START: u32 = 1;
pub const CLOCK_END: u32 = 1_000_000;
pub const PASSES_MOST: u32 = 1_000_000;

/// One version of an item.
struct Version<S> {
    state: S,
    natural: u32,
    place: u32,
}

impl<S> Version<S> {
    fn is_warped(&self) -> bool {
        self.place != self.natural
    }
}

/// An item: its stamp and its versions, highest place first.
struct Item<S> {
    stamp: u32,
    versions: Vec<Version<S>>,
}

impl<S: Copy> Item<S> {
    fn new(rest: S) -> Item<S> {
        let rest_version = Version { state: rest, natural: 0, place: 0 };
        Item { stamp: 0, versions: vec![rest_version] }
    }

    fn newest(&self) -> &Version<S> {
        &self.versions[0]
    }

    fn raise_stamp(&mut self, to: u32) {
        self.stamp = self.stamp.max(to);
    }

    /// Where the newest version stands whose natural number is not above
    /// `limit`, counted from the head.
    fn newest_by_natural(&self, limit: u32) -> usize {
        self.versions
            .iter()
            .position(|version| version.natural <= limit)
            .expect("the last version is old enough for every open transaction")
    }

    /// Where the newest version stands whose place is not above `limit`.
    fn newest_by_place(&self, limit: u32) -> usize {
        self.versions
            .iter()
            .position(|version| version.place <= limit)
            .expect("the last version is old enough for every open transaction")
    }

    /// The versions missed by a transaction that began at `start`: those
    /// newer than the newest one whose natural number is not above `start`.
    fn missed(&self, start: u32) -> &[Version<S>] {
        &self.versions[..self.newest_by_natural(start)]
    }

    fn has_place(&self, place: u32) -> bool {
        self.versions.iter().any(|version| version.place == place)
    }

    /// How many versions there would be after a write at `place`, if those
    /// below the anchor were removed first.
    fn count_after_write(&self, place: u32, least_start: u32) -> usize {
        let down_to_anchor = self.newest_by_natural(least_start) + 1;
        if self.has_place(place) { down_to_anchor } else { down_to_anchor + 1 }
    }

    /// Removes the versions below the anchor and tells how many.
    fn remove_below_anchor(&mut self, least_start: u32) -> usize {
        let before = self.versions.len();
        let anchor = self.newest_by_natural(least_start);
        self.versions.truncate(anchor + 1);
        before - self.versions.len()
    }

    /// Puts a version in by its place, above all lower places.
    fn insert(&mut self, version: Version<S>) {
        let index = self
            .versions
            .iter()
            .position(|other| other.place < version.place)
            .unwrap_or(self.versions.len());
        self.versions.insert(index, version);
    }
}

/// An open transaction.
#[derive(Clone)]
struct Transaction {
    mode: Mode,
    start: u32,
    marks: BTreeSet<u32>,
    writes: BTreeMap<u32, u32>,
}

/// A held seat.
struct Hold {
    pass: u32,
    class: Class,
    open: Option<Transaction>,
}

/// What has happened at commits so far; it decides nothing.
#[derive(Clone, Copy, Debug, Default, PartialEq, Eq)]
pub struct Events {
    pub granted_updates: u64,
    pub granted_readers: u64,
    /// Granted updates whose place is below their natural number.
    pub warped: u64,
    /// Writes skipped because the list had their place already.
    pub skipped_writes: u64,
    /// Versions removed below an anchor.
    pub removed_versions: u64,
}

/// The shared board for one kind of item.
pub struct Board<K: Kind> {
    rule: Rule,
    clock: u32,
    passes: u32,
    items: Vec<Item<K::State>>,
    seats: Vec<Option<Hold>>,
    events: Events,
}

impl<K: Kind> Board<K> {
    /// Question 1: are both counts in range? The memory always suffices here.
    pub fn new(items: u32, seats: u32, rule: Rule) -> Result<Board<K>, Refusal> {
        let in_range = (1..=ITEMS_MOST).contains(&items) && (1..=SEATS_MOST).contains(&seats);
        if !in_range {
            return Err(Refusal::BadSetup);
        }
        Ok(Board {
            rule,
            clock: CLOCK_START,
            passes: 0,
            items: (0..items).map(|_| Item::new(K::REST)).collect(),
            seats: (0..seats).map(|_| None).collect(),
            events: Events::default(),
        })
    }

    pub fn call(&mut self, call: Call) -> Outcome {
        match call {
            Call::Admit { seat, class } => self.admit(seat, class),
            Call::Revoke { seat } => self.revoke(seat),
            Call::Begin { seat, pass, mode } => self.begin(seat, pass, mode),
            Call::Read { seat, pass, item } => self.read(seat, pass, item),
            Call::Write { seat, pass, item, code } => self.write(seat, pass, item, code),
            Call::Commit { seat, pass } => self.commit(seat, pass),
            Call::Abandon { seat, pass } => self.abandon(seat, pass),
            Call::Show { item } => self.show(item),
        }
    }

    pub fn events(&self) -> Events {
        self.events
    }

    pub fn items(&self) -> u32 {
        self.items.len() as u32
    }

    // ---- The eight calls ----

    fn admit(&mut self, seat: u32, class: Class) -> Outcome {
        self.ask_known_seat(seat)?;
        if self.seats[seat as usize].is_some() {
            return Err(Refusal::SeatTaken);
        }
        if self.passes >= PASSES_MOST {
            return Err(Refusal::NoPassLeft);
        }
        self.passes += 1;
        let pass = self.passes;
        self.seats[seat as usize] = Some(Hold { pass, class, open: None });
        Ok(Reply::Pass(pass))
    }

    fn revoke(&mut self, seat: u32) -> Outcome {
        self.ask_known_seat(seat)?;
        self.ask_held(seat)?;
        self.seats[seat as usize] = None;
        Ok(Reply::Done)
    }

    fn begin(&mut self, seat: u32, pass: u32, mode: Mode) -> Outcome {
        let start = self.clock;
        let hold = self.ask_holder(seat, pass)?;
        if hold.open.is_some() {
            return Err(Refusal::AlreadyOpen);
        }
        hold.open =
            Some(Transaction { mode, start, marks: BTreeSet::new(), writes: BTreeMap::new() });
        Ok(Reply::Start(start))
    }

    fn read(&mut self, seat: u32, pass: u32, item: u32) -> Outcome {
        let transaction = self.ask_open(seat, pass)?.clone();
        self.ask_known_item(item)?;
        let code = match transaction.mode {
            Mode::Reader => self.read_as_reader(item, transaction.start),
            Mode::Update => match transaction.writes.get(&item) {
                Some(&own) => own,
                None => self.read_with_mark(seat, item, transaction.start),
            },
        };
        Ok(Reply::Code(code))
    }

    fn read_as_reader(&mut self, item: u32, start: u32) -> u32 {
        let clock = self.clock;
        let item = &mut self.items[item as usize];
        item.raise_stamp(clock);
        K::code(item.versions[item.newest_by_place(start)].state)
    }

    fn read_with_mark(&mut self, seat: u32, item: u32, start: u32) -> u32 {
        self.open_at(seat).marks.insert(item);
        let item = &self.items[item as usize];
        K::code(item.versions[item.newest_by_natural(start)].state)
    }

    fn write(&mut self, seat: u32, pass: u32, item: u32, code: u32) -> Outcome {
        let mode = self.ask_open(seat, pass)?.mode;
        self.ask_known_item(item)?;
        if mode != Mode::Update {
            return Err(Refusal::ReaderWrites);
        }
        if code >= K::COUNT {
            return Err(Refusal::UnknownCode);
        }
        let writes = &mut self.open_at(seat).writes;
        if !writes.contains_key(&item) && writes.len() >= WRITES_MOST {
            return Err(Refusal::WriteListFull);
        }
        writes.insert(item, code);
        Ok(Reply::Done)
    }

    fn commit(&mut self, seat: u32, pass: u32) -> Outcome {
        let transaction = self.ask_open(seat, pass)?.clone();
        let answer = match transaction.mode {
            Mode::Reader => self.commit_reader(&transaction),
            Mode::Update => {
                let class = self.hold_at(seat).class;
                self.commit_update(class, &transaction)
            }
        };
        // Granted or refused, the transaction has ended.
        self.hold_at(seat).open = None;
        answer
    }

    fn commit_reader(&mut self, transaction: &Transaction) -> Outcome {
        self.events.granted_readers += 1;
        Ok(Reply::Granted { natural: 0, place: transaction.start })
    }

    /// The committing transaction still lies open at its seat here, so it
    /// counts for the least start.
    fn commit_update(&mut self, class: Class, transaction: &Transaction) -> Outcome {
        if self.clock >= CLOCK_END {
            return Err(Refusal::ClockAtEnd);
        }
        let findings = self.findings(class, transaction);
        self.raise_marked_stamps(transaction);
        let place = self.ask_rule(&findings, transaction)?;
        let least_start = self.least_open_start();
        self.ask_room(transaction, place, least_start)?;
        let natural = findings.next;
        for (&item, &code) in &transaction.writes {
            self.store(item, code, natural, place, least_start);
        }
        self.clock = natural;
        self.events.granted_updates += 1;
        self.events.warped += u64::from(place < natural);
        Ok(Reply::Granted { natural, place })
    }

    fn abandon(&mut self, seat: u32, pass: u32) -> Outcome {
        self.ask_open(seat, pass)?;
        self.hold_at(seat).open = None;
        Ok(Reply::Done)
    }

    fn show(&self, item: u32) -> Outcome {
        self.ask_known_item(item)?;
        Ok(Reply::Code(K::code(self.items[item as usize].newest().state)))
    }

    // ---- Steps of an update's commit ----

    fn findings(&self, class: Class, transaction: &Transaction) -> Findings {
        let start = transaction.start;
        let missed = || {
            let marks = transaction.marks.iter();
            marks.flat_map(|&item| self.items[item as usize].missed(start))
        };
        let overtaken =
            transaction.writes.keys().any(|&item| self.items[item as usize].stamp >= start);
        Findings {
            start,
            next: self.clock + 1,
            class,
            overtaken,
            earliest_missed: missed().map(|version| version.place).min(),
            missed_warped: missed().any(Version::is_warped),
        }
    }

    fn raise_marked_stamps(&mut self, transaction: &Transaction) {
        for &item in &transaction.marks {
            self.items[item as usize].raise_stamp(self.clock);
        }
    }

    /// Question 14.
    fn ask_rule(&self, findings: &Findings, transaction: &Transaction) -> Result<u32, Refusal> {
        match self.rule.answer(findings) {
            Verdict::Place(place) => Ok(place),
            Verdict::Refused => {
                let item = self.lowest_with_missed(transaction);
                Err(Refusal::NotGranted { item })
            }
        }
    }

    fn lowest_with_missed(&self, transaction: &Transaction) -> u32 {
        let mut marks = transaction.marks.iter().copied();
        marks
            .find(|&item| !self.items[item as usize].missed(transaction.start).is_empty())
            .expect("a rule refuses only where a version was missed")
    }

    /// Question 15, asked of all listed items before any list changes.
    fn ask_room(
        &self,
        transaction: &Transaction,
        place: u32,
        least_start: u32,
    ) -> Result<(), Refusal> {
        let mut listed = transaction.writes.keys().copied();
        let failing = listed.find(|&item| {
            self.items[item as usize].count_after_write(place, least_start) > VERSIONS_MOST
        });
        match failing {
            Some(item) => Err(Refusal::TooManyVersions { item }),
            None => Ok(()),
        }
    }

    fn store(&mut self, item: u32, code: u32, natural: u32, place: u32, least_start: u32) {
        let item = &mut self.items[item as usize];
        self.events.removed_versions += item.remove_below_anchor(least_start) as u64;
        if item.has_place(place) {
            self.events.skipped_writes += 1;
        } else {
            item.insert(Version { state: K::state(code), natural, place });
        }
    }

    fn least_open_start(&self) -> u32 {
        self.open_starts().min().expect("the committing transaction is open")
    }

    fn open_starts(&self) -> impl Iterator<Item = u32> {
        let holds = self.seats.iter().flatten();
        holds.filter_map(|hold| hold.open.as_ref()).map(|open| open.start)
    }

    // ---- Questions shared by several calls ----

    fn ask_known_seat(&self, seat: u32) -> Result<(), Refusal> {
        if (seat as usize) < self.seats.len() { Ok(()) } else { Err(Refusal::UnknownSeat) }
    }

    fn ask_held(&mut self, seat: u32) -> Result<&mut Hold, Refusal> {
        self.seats[seat as usize].as_mut().ok_or(Refusal::SeatEmpty)
    }

    /// Questions 2, 5 and 6.
    fn ask_holder(&mut self, seat: u32, pass: u32) -> Result<&mut Hold, Refusal> {
        self.ask_known_seat(seat)?;
        let hold = self.ask_held(seat)?;
        if hold.pass == pass { Ok(hold) } else { Err(Refusal::WrongPass) }
    }

    /// Questions 2, 5, 6 and 8.
    fn ask_open(&mut self, seat: u32, pass: u32) -> Result<&mut Transaction, Refusal> {
        self.ask_holder(seat, pass)?.open.as_mut().ok_or(Refusal::NothingOpen)
    }

    fn ask_known_item(&self, item: u32) -> Result<(), Refusal> {
        if (item as usize) < self.items.len() { Ok(()) } else { Err(Refusal::UnknownItem) }
    }

    fn hold_at(&mut self, seat: u32) -> &mut Hold {
        self.seats[seat as usize].as_mut().expect("asked before: the seat is held")
    }

    fn open_at(&mut self, seat: u32) -> &mut Transaction {
        self.hold_at(seat).open.as_mut().expect("asked before: a transaction is open")
    }

    // ---- Looking at the board from outside ----

    /// Tells what is wrong with the board's own order, if anything is.
    pub fn check_shape(&self) -> Result<(), String> {
        let least = self.open_starts().min().unwrap_or(self.clock);
        for (number, item) in self.items.iter().enumerate() {
            let complain = |what: &str| Err(format!("item {number}: {what}"));
            let versions = &item.versions;
            if versions.is_empty() || versions.len() > VERSIONS_MOST {
                return complain("too few or too many versions");
            }
            if versions.windows(2).any(|pair| pair[0].place <= pair[1].place) {
                return complain("places do not fall from the head");
            }
            if versions.iter().any(|one| one.place > one.natural || one.natural > self.clock) {
                return complain("a place above its natural number, or one above the clock");
            }
            if versions[versions.len() - 1].natural > least {
                return complain("the last version is too new for an open transaction");
            }
            if item.stamp > self.clock {
                return complain("a stamp above the clock");
            }
        }
        Ok(())
    }
}
