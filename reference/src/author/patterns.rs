//! Short plays with a plot: sequences of calls that lead to the rarer answers.

use super::{Author, Note};
use crate::call::{Call, Mode};

#[derive(Clone, Copy, Debug, PartialEq, Eq)]
pub enum Pattern {
    /// Several updates read one item and write another; one writes the item
    /// that the rest have read and commits first, so the rest are warped to
    /// one place.
    Fan,
    /// An old update that has read an item is warped into the middle of
    /// another item's versions.
    Deep,
    /// A reader reads an item after an update was warped below its start.
    LateReader,
    /// A warped version comes to lie beneath a newer one that an open update
    /// sees.
    Beneath,
    /// An update misses a warped version, perhaps among others.
    Chain,
    /// An old update writes an item that others have touched in one of many
    /// ways, some of which raise its stamp.
    Touched,
    /// A transaction stays open while many commits fill version lists.
    Hold,
    /// A skipped write into a list that has no room for one more version.
    FullSkip,
    /// More writes than a write list takes.
    NineWrites,
    /// A seat is revoked and admitted again, and old passes are shown.
    Churn,
}

/// Who reads the item that an old update is going to write.
#[derive(Clone, Copy, Debug, PartialEq, Eq)]
enum Touch {
    Nobody,
    /// Granted before the old update begins.
    EarlierUpdate,
    Update,
    Reader,
    /// Its commit is refused by the rule.
    RefusedUpdate,
    /// Its commit finds a version list full.
    UpdateWithoutRoom,
    AbandonedUpdate,
    OpenUpdate,
}

const TOUCHES: &[(usize, Touch)] = &[
    (1, Touch::Nobody),
    (1, Touch::EarlierUpdate),
    (1, Touch::Update),
    (1, Touch::Reader),
    (1, Touch::RefusedUpdate),
    (3, Touch::UpdateWithoutRoom),
    (1, Touch::AbandonedUpdate),
    (1, Touch::OpenUpdate),
];

impl Author {
    pub(super) fn pattern(&mut self) {
        match self.dice.weigh(self.habits.patterns) {
            Pattern::Fan => self.fan(),
            Pattern::Deep => self.deep(),
            Pattern::LateReader => self.late_reader(),
            Pattern::Beneath => self.beneath(),
            Pattern::Chain => self.chain(),
            Pattern::Touched => self.touched(),
            Pattern::Hold => self.hold(),
            Pattern::FullSkip => self.full_skip(),
            Pattern::NineWrites => self.nine_writes(),
            Pattern::Churn => self.churn(),
        }
    }

    fn fan(&mut self) {
        let wanted = self.dice.between(3, 5);
        let crew = self.crew(wanted);
        let [first, rest @ ..] = &crew[..] else { return };
        let (x, y) = self.two_items();
        self.begin_all(&crew, Mode::Update);
        for &seat in rest {
            self.read(seat, x);
            self.write(seat, y);
            self.breathe();
        }
        self.write(*first, x);
        if self.dice.chance(30) {
            self.write(*first, y);
        }
        self.commit(*first);
        let mut rest = rest.to_vec();
        self.dice.shuffle(&mut rest);
        for seat in rest {
            self.breathe();
            self.commit(seat);
        }
        self.show(y);
    }

    fn deep(&mut self) {
        let crew = self.crew(2);
        let [old, quick] = crew[..] else { return };
        let (x, y) = self.two_items();
        self.begin(old, Mode::Update);
        self.read(old, x);
        for _ in 0..self.dice.between(2, 8) {
            self.quick_commit_of_some(quick, &[x, y]);
            self.breathe();
        }
        self.write(old, y);
        if self.dice.chance(30) {
            let other = self.any_item();
            self.write(old, other);
        }
        self.commit(old);
        self.show(y);
        let mode = self.dice.pick(&[Mode::Reader, Mode::Update]);
        self.look(quick, mode, &[y, x]);
    }

    fn late_reader(&mut self) {
        let crew = self.crew(3);
        let [old, quick, late] = crew[..] else { return };
        let (x, y) = self.two_items();
        self.begin(old, Mode::Update);
        self.read(old, x);
        self.write(old, y);
        self.breathe();
        self.quick_commit(quick, &[x]);
        for _ in 0..self.dice.between(0, 2) {
            self.quick_commit_of_some(quick, &[x, y]);
        }
        let mode = self.dice.weigh(&[(3, Mode::Reader), (2, Mode::Update)]);
        self.begin(late, mode);
        if self.dice.chance(30) {
            self.quick_commit_of_some(quick, &[x, y]);
        }
        if self.dice.chance(20) {
            self.read(late, y);
        }
        self.commit(old);
        self.breathe();
        self.read(late, y);
        self.read(late, x);
        if self.dice.chance(70) {
            self.end(late);
        }
    }

    fn beneath(&mut self) {
        let crew = self.crew(3);
        let [old, quick, looker] = crew[..] else { return };
        let (x, y) = self.two_items();
        self.begin(old, Mode::Update);
        self.read(old, x);
        self.quick_commit(quick, &[x]);
        self.breathe();
        for _ in 0..self.dice.between(1, 2) {
            self.quick_commit(quick, &[y]);
        }
        self.begin(looker, Mode::Update);
        self.write(old, y);
        self.commit(old);
        self.breathe();
        self.read(looker, y);
        let other = self.any_item();
        self.write(looker, other);
        self.commit(looker);
    }

    fn chain(&mut self) {
        let crew = self.crew(3);
        let [first, second, third] = crew[..] else { return };
        let (x, y) = self.two_items();
        self.begin(second, Mode::Update);
        self.begin(third, Mode::Update);
        self.read(third, y);
        if self.dice.chance(40) {
            self.read(third, x);
        }
        self.read(second, x);
        self.write(second, y);
        if self.dice.chance(35) {
            self.quick_commit(first, &[y]);
        }
        self.quick_commit(first, &[x]);
        if self.dice.chance(35) {
            self.quick_commit(first, &[y]);
        }
        self.breathe();
        self.commit(second);
        if self.dice.chance(35) {
            self.quick_commit(first, &[y]);
        }
        if self.dice.chance(60) {
            let other = self.any_item();
            self.write(third, other);
        }
        self.commit(third);
    }

    fn touched(&mut self) {
        let crew = self.crew(3);
        let [old, quick, toucher] = crew[..] else { return };
        let (x, z) = self.two_items();
        let touch = self.dice.weigh(TOUCHES);
        if touch == Touch::EarlierUpdate {
            self.look(toucher, Mode::Update, &[z]);
        }
        self.begin(old, Mode::Update);
        self.read(old, x);
        if touch == Touch::RefusedUpdate {
            self.look(quick, Mode::Reader, &[x]);
            self.begin(toucher, Mode::Update);
            self.read(toucher, x);
            self.read(toucher, z);
            self.write(toucher, x);
        }
        self.quick_commit(quick, &[x]);
        self.breathe();
        self.touch(touch, toucher, quick, x, z);
        self.write(old, z);
        self.commit(old);
        self.show(z);
        if touch == Touch::OpenUpdate {
            self.commit(toucher);
        }
    }

    /// The part of `touched` that comes after the old update has missed a
    /// version of `x` and before it writes `z`.
    fn touch(&mut self, touch: Touch, toucher: u32, quick: u32, x: u32, z: u32) {
        match touch {
            Touch::Nobody | Touch::EarlierUpdate => {}
            Touch::Update => self.look(toucher, Mode::Update, &[z]),
            Touch::Reader => self.look(toucher, Mode::Reader, &[z]),
            Touch::RefusedUpdate => self.commit(toucher),
            Touch::OpenUpdate | Touch::AbandonedUpdate => {
                self.begin(toucher, Mode::Update);
                self.read(toucher, z);
                if touch == Touch::AbandonedUpdate {
                    self.abandon(toucher);
                }
            }
            Touch::UpdateWithoutRoom => {
                for _ in 0..6 {
                    self.quick_commit(quick, &[x]);
                }
                self.begin(toucher, Mode::Update);
                self.read(toucher, z);
                self.write(toucher, x);
                self.commit(toucher);
            }
        }
    }

    fn hold(&mut self) {
        let crew = self.crew(2);
        let [holder, quick] = crew[..] else { return };
        let mode = self.dice.weigh(&[(3, Mode::Reader), (2, Mode::Update)]);
        let (x, y) = self.two_items();
        let items = match self.dice.below(4) {
            0 => vec![x, y],
            1 => vec![y, x],
            _ => vec![x],
        };
        self.begin(holder, mode);
        if self.dice.chance(30) {
            self.read(holder, y);
        }
        for _ in 0..self.dice.between(7, 9) {
            self.quick_commit(quick, &items);
            self.breathe();
        }
        if self.dice.chance(40) {
            self.quick_commit(quick, &[y, x]);
        }
        if mode == Mode::Update && self.dice.chance(80) {
            self.write(holder, x);
        }
        self.end(holder);
        self.quick_commit(quick, &items);
        self.show(y);
        self.show(x);
    }

    fn full_skip(&mut self) {
        let crew = self.crew(2);
        let [old, quick] = crew[..] else { return };
        let (x, y) = self.two_items();
        self.begin(old, Mode::Update);
        self.read(old, x);
        self.quick_commit(quick, &[x, y]);
        for _ in 0..6 {
            self.quick_commit(quick, &[y]);
        }
        self.breathe();
        self.write(old, y);
        self.commit(old);
        self.show(y);
    }

    fn nine_writes(&mut self) {
        let crew = self.crew(1);
        let [seat] = crew[..] else { return };
        let mut items: Vec<u32> = (0..self.habits.items).collect();
        self.dice.shuffle(&mut items);
        items.truncate(9);
        self.begin(seat, Mode::Update);
        for &item in &items {
            self.write(seat, item);
            self.breathe();
        }
        let again = self.dice.pick(&items);
        self.write(seat, again);
        self.misfit_write(seat);
        self.read(seat, again);
        self.commit(seat);
        self.show(again);
    }

    fn churn(&mut self) {
        let crew = self.crew(1);
        let [seat] = crew[..] else { return };
        let old = self.known_pass(seat);
        let item = self.any_item();
        if self.dice.chance(70) {
            let mode = self.dice.pick(&[Mode::Reader, Mode::Update]);
            self.begin(seat, mode);
            self.read(seat, item);
            self.write(seat, item);
        }
        self.tell(Call::Revoke { seat });
        self.show_pass(seat, old);
        self.admit(seat);
        self.show_pass(seat, old);
        self.breathe();
        self.begin(seat, Mode::Update);
        self.show_pass(seat, old);
        self.read(seat, item);
    }

    /// Shows a pass in some call, whether it is right or not.
    fn show_pass(&mut self, seat: u32, pass: u32) {
        let item = self.any_item();
        let code = self.fresh_code();
        let call = self.dice.pick(&[
            Call::Begin { seat, pass, mode: Mode::Reader },
            Call::Read { seat, pass, item },
            Call::Write { seat, pass, item, code },
            Call::Commit { seat, pass },
            Call::Abandon { seat, pass },
        ]);
        self.tell(call);
    }

    // ---- Pieces of plots ----

    /// Up to `wanted` different seats, held and with nothing open. Seats with
    /// nothing open come first, so that long transactions are left alone
    /// where there are seats enough.
    fn crew(&mut self, wanted: usize) -> Vec<u32> {
        let mut seats = self.favourite_seats.clone();
        self.dice.shuffle(&mut seats);
        seats.sort_by_key(|&seat| match self.notes[seat as usize] {
            Note::Idle { .. } => 0,
            Note::Empty => 1,
            Note::Open { .. } => 2,
        });
        seats.truncate(wanted);
        if seats.len() < wanted.min(3) {
            // Too few seats for a plot: a plain step instead.
            self.free_step();
            return Vec::new();
        }
        for &seat in &seats {
            self.make_ready(seat);
        }
        seats
    }

    fn make_ready(&mut self, seat: u32) {
        match self.notes[seat as usize] {
            Note::Empty => self.admit(seat),
            Note::Idle { .. } => {}
            Note::Open { .. } if self.dice.chance(60) => self.commit(seat),
            Note::Open { .. } => self.abandon(seat),
        }
    }

    /// Two items, different where there are two: one mostly read and one
    /// mostly written.
    fn two_items(&mut self) -> (u32, u32) {
        let x = self.item_to_read();
        let others: Vec<u32> =
            self.favourite_items.iter().copied().filter(|&item| item != x).collect();
        if others.is_empty() {
            return (x, x);
        }
        let y = self.item_to_write();
        if y == x { (x, self.dice.pick(&others)) } else { (x, y) }
    }

    fn begin_all(&mut self, crew: &[u32], mode: Mode) {
        for &seat in crew {
            self.begin(seat, mode);
        }
    }

    /// One short update that writes the items without reading them.
    fn quick_commit(&mut self, seat: u32, items: &[u32]) {
        self.begin(seat, Mode::Update);
        for &item in items {
            self.write(seat, item);
        }
        self.commit(seat);
    }

    fn quick_commit_of_some(&mut self, seat: u32, items: &[u32]) {
        let mut some: Vec<u32> = items.to_vec();
        some.retain(|_| self.dice.chance(65));
        if some.is_empty() {
            some.push(self.dice.pick(items));
        }
        self.quick_commit(seat, &some);
    }

    /// One short transaction that reads the items.
    fn look(&mut self, seat: u32, mode: Mode, items: &[u32]) {
        self.begin(seat, mode);
        for &item in items {
            self.read(seat, item);
        }
        self.commit(seat);
    }

    fn end(&mut self, seat: u32) {
        match self.dice.below(10) {
            0 => self.tell(Call::Revoke { seat }),
            1 | 2 => self.abandon(seat),
            _ => self.commit(seat),
        }
    }

    /// Between two lines of a plot somebody else may do something.
    fn breathe(&mut self) {
        if self.dice.chance(self.habits.disturb) {
            self.free_step();
        }
    }
}
