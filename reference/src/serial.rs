//! The serial order, read off a list of calls and answers alone, and the
//! claims about it.

use std::cmp::Reverse;
use std::collections::{BTreeMap, BTreeSet};

use crate::call::{Call, Mode, Outcome, Reply};

/// A call with its answer.
pub type Entry = (Call, Outcome);

/// One step of a transaction in a serial run.
#[derive(Clone, Copy, Debug)]
enum Step {
    Read { item: u32, answered: u32 },
    Write { item: u32, code: u32 },
}

/// How far a transaction has come.
#[derive(Clone, Copy, Debug, PartialEq, Eq)]
enum Fate {
    Granted {
        natural: u32,
        place: u32,
        ended: usize,
    },
    /// Refused, abandoned, revoked or still open.
    Ungranted,
}

/// A transaction as the list of calls tells it.
#[derive(Clone, Debug)]
struct Transaction {
    mode: Mode,
    start: u32,
    /// Where in the list it began.
    began: usize,
    steps: Vec<Step>,
    fate: Fate,
}

/// A granted transaction.
struct Granted<'a> {
    transaction: &'a Transaction,
    natural: u32,
    place: u32,
    ended: usize,
}

/// Where a granted transaction stands. The order of these keys is the serial
/// order: by place (a reader's is its start), updates ahead of readers; at
/// equal places the larger natural number first; readers as they began.
#[derive(Clone, Copy, Debug, PartialEq, Eq, PartialOrd, Ord)]
enum Standing {
    Update(Reverse<u32>),
    Reader(usize),
}

impl Granted<'_> {
    fn is_update(&self) -> bool {
        self.transaction.mode == Mode::Update
    }

    fn key(&self) -> (u32, Standing) {
        match self.transaction.mode {
            Mode::Update => (self.place, Standing::Update(Reverse(self.natural))),
            Mode::Reader => (self.transaction.start, Standing::Reader(self.transaction.began)),
        }
    }
}

/// Walks over the list and gathers the transactions.
#[derive(Default)]
struct Gatherer {
    open: BTreeMap<u32, Transaction>,
    ended: Vec<Transaction>,
}

impl Gatherer {
    fn take(&mut self, index: usize, (call, outcome): &Entry) {
        match (*call, *outcome) {
            (Call::Begin { seat, mode, .. }, Ok(Reply::Start(start))) => {
                self.begin(seat, mode, start, index);
            }
            (Call::Read { seat, item, .. }, Ok(Reply::Code(answered))) => {
                self.step(seat, Step::Read { item, answered });
            }
            (Call::Write { seat, item, code, .. }, Ok(_)) => {
                self.step(seat, Step::Write { item, code });
            }
            (Call::Commit { seat, .. }, Ok(Reply::Granted { natural, place })) => {
                self.end(seat, Fate::Granted { natural, place, ended: index });
            }
            (Call::Commit { seat, .. }, Err(refusal)) if refusal.drops_transaction() => {
                self.end(seat, Fate::Ungranted);
            }
            (Call::Abandon { seat, .. } | Call::Revoke { seat }, Ok(_)) => {
                self.end(seat, Fate::Ungranted);
            }
            _ => {}
        }
    }

    fn begin(&mut self, seat: u32, mode: Mode, start: u32, began: usize) {
        let fresh = Transaction { mode, start, began, steps: Vec::new(), fate: Fate::Ungranted };
        let earlier = self.open.insert(seat, fresh);
        assert!(earlier.is_none(), "a seat began twice");
    }

    fn step(&mut self, seat: u32, step: Step) {
        let transaction = self.open.get_mut(&seat).expect("an accepted step has a transaction");
        transaction.steps.push(step);
    }

    /// A revoke may find no transaction at its seat.
    fn end(&mut self, seat: u32, fate: Fate) {
        if let Some(mut transaction) = self.open.remove(&seat) {
            transaction.fate = fate;
            self.ended.push(transaction);
        }
    }

    fn all(self) -> Vec<Transaction> {
        self.ended.into_iter().chain(self.open.into_values()).collect()
    }
}

fn transactions(list: &[Entry]) -> Vec<Transaction> {
    let mut gatherer = Gatherer::default();
    for (index, entry) in list.iter().enumerate() {
        gatherer.take(index, entry);
    }
    gatherer.all()
}

/// The granted transactions in the serial order.
fn serial_order(all: &[Transaction]) -> Vec<Granted<'_>> {
    let mut order: Vec<Granted> = all
        .iter()
        .filter_map(|transaction| match transaction.fate {
            Fate::Granted { natural, place, ended } => {
                Some(Granted { transaction, natural, place, ended })
            }
            Fate::Ungranted => None,
        })
        .collect();
    order.sort_by_key(Granted::key);
    order
}

/// The table of codes that a serial run works on.
#[derive(Clone)]
struct Table {
    codes: Vec<u32>,
}

impl Table {
    fn at_rest(items: u32, rest_code: u32) -> Table {
        Table { codes: vec![rest_code; items as usize] }
    }

    /// Runs one transaction; a read must find the code it was answered.
    fn run(&mut self, transaction: &Transaction) -> Result<(), String> {
        for step in &transaction.steps {
            match *step {
                Step::Write { item, code } => self.codes[item as usize] = code,
                Step::Read { item, answered } => {
                    let found = self.codes[item as usize];
                    if found != answered {
                        return Err(format!(
                            "the transaction begun by call {} read {answered} of item {item}, \
                             the serial run has {found}",
                            transaction.began
                        ));
                    }
                }
            }
        }
        Ok(())
    }

    /// Runs only the writes of a transaction.
    fn apply(&mut self, transaction: &Transaction) {
        for step in &transaction.steps {
            if let Step::Write { item, code } = *step {
                self.codes[item as usize] = code;
            }
        }
    }
}

/// A list of calls and answers from a new board on, and what show answers for
/// every item at its end.
pub struct History<'a> {
    pub list: &'a [Entry],
    pub rest_code: u32,
    pub shown: &'a [u32],
}

impl History<'_> {
    /// Checks every claim; the error says which one fails.
    pub fn check(&self) -> Result<(), String> {
        let all = transactions(self.list);
        let order = serial_order(&all);
        check_numbers(&order)?;
        check_real_time(&order)?;
        self.check_granted(&order)?;
        self.check_ungranted(&all, &order)?;
        check_revoked_passes(self.list)
    }

    fn new_table(&self) -> Table {
        Table::at_rest(self.shown.len() as u32, self.rest_code)
    }

    /// Run in order, the granted transactions read what they were answered,
    /// and the table then left is what show tells.
    fn check_granted(&self, order: &[Granted]) -> Result<(), String> {
        let mut table = self.new_table();
        for granted in order {
            table.run(granted.transaction).map_err(|what| format!("granted: {what}"))?;
        }
        if table.codes != self.shown {
            return Err(format!("show tells {:?}, the run leaves {:?}", self.shown, table.codes));
        }
        Ok(())
    }

    /// Each ungranted transaction reads what it was answered on its copy.
    fn check_ungranted(&self, all: &[Transaction], order: &[Granted]) -> Result<(), String> {
        for transaction in all {
            if transaction.fate == Fate::Ungranted {
                let mut copy = self.copy_for(transaction, order);
                copy.run(transaction).map_err(|what| format!("ungranted: {what}"))?;
            }
        }
        Ok(())
    }

    fn copy_for(&self, ungranted: &Transaction, order: &[Granted]) -> Table {
        let mut copy = self.new_table();
        for granted in order.iter().filter(|granted| granted.is_update()) {
            let compared = match ungranted.mode {
                Mode::Update => granted.natural,
                Mode::Reader => granted.place,
            };
            if compared <= ungranted.start {
                copy.apply(granted.transaction);
            }
        }
        copy
    }
}

/// Granted updates are numbered 2, 3, 4 and so on as they are granted, and a
/// place lies above the start and not above the natural number. A granted
/// reader has natural number 0 and its start as place.
fn check_numbers(order: &[Granted]) -> Result<(), String> {
    let mut updates: Vec<&Granted> = order.iter().filter(|one| one.is_update()).collect();
    updates.sort_by_key(|granted| granted.ended);
    for (index, granted) in updates.iter().enumerate() {
        let start = granted.transaction.start;
        let expected = index as u32 + 2;
        let well_placed = start < granted.place && granted.place <= granted.natural;
        if granted.natural != expected || !well_placed {
            return Err(format!(
                "update {expected}: start {start}, natural {}, place {}",
                granted.natural, granted.place
            ));
        }
    }
    for reader in order.iter().filter(|one| !one.is_update()) {
        if (reader.natural, reader.place) != (0, reader.transaction.start) {
            return Err(format!("a reader got {} {}", reader.natural, reader.place));
        }
    }
    Ok(())
}

/// What was granted before another began stands ahead of it.
fn check_real_time(order: &[Granted]) -> Result<(), String> {
    let mut latest_begin = 0;
    for granted in order {
        // `latest_begin` is over all that stand ahead of this one.
        if granted.ended < latest_begin {
            return Err(format!(
                "call {} granted a transaction that stands after one begun later, by call \
                 {latest_begin}",
                granted.ended
            ));
        }
        latest_begin = latest_begin.max(granted.transaction.began);
    }
    Ok(())
}

/// Once a revoke has emptied the seat of a pass, every later call that shows
/// the pass is refused.
fn check_revoked_passes(list: &[Entry]) -> Result<(), String> {
    let mut held: BTreeMap<u32, u32> = BTreeMap::new();
    let mut revoked: BTreeSet<u32> = BTreeSet::new();
    for (index, (call, outcome)) in list.iter().enumerate() {
        match (*call, outcome) {
            (Call::Admit { seat, .. }, Ok(Reply::Pass(pass))) => {
                held.insert(seat, *pass);
            }
            (Call::Revoke { seat }, Ok(_)) => revoked.extend(held.remove(&seat)),
            _ => {}
        }
        let shown = shown_pass(call);
        if outcome.is_ok() && shown.is_some_and(|pass| revoked.contains(&pass)) {
            return Err(format!("call {index} shows a revoked pass and is accepted"));
        }
    }
    Ok(())
}

fn shown_pass(call: &Call) -> Option<u32> {
    match *call {
        Call::Begin { pass, .. }
        | Call::Read { pass, .. }
        | Call::Write { pass, .. }
        | Call::Commit { pass, .. }
        | Call::Abandon { pass, .. } => Some(pass),
        Call::Admit { .. } | Call::Revoke { .. } | Call::Show { .. } => None,
    }
}
