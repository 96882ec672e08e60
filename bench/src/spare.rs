//! Was a refusal needed? An offline judge, which tries orders.
//!
//! A transaction that the rule refused is taken as granted at the moment of its commit, beside all
//! that had been granted by then. An order *explains* them if each that was granted before another
//! began stands ahead of it, and if each, run one by one in the order on a table that starts at
//! rest, reads the codes that it was answered.

use crate::history::{Step, Transaction};

/// Codes by item.
#[derive(Clone)]
struct Table {
    codes: Vec<u32>,
}

impl Table {
    fn at_rest(items: u32) -> Table {
        Table { codes: vec![0; items as usize] }
    }

    /// Runs a transaction; false if a read finds another code than it was answered.
    fn run(&mut self, transaction: &Transaction) -> bool {
        transaction.steps.iter().all(|step| match *step {
            Step::Read { item, code } => self.codes[item as usize] == code,
            Step::Write { item, code } => {
                self.codes[item as usize] = code;
                true
            }
        })
    }
}

/// What a refusal cost.
#[derive(Clone, Copy, Debug, PartialEq, Eq)]
pub enum Verdict {
    /// No order explains the granted ones together with the refused one.
    Needed,
    /// Some order does, but only one that stands already granted ones differently.
    SpareIfReordered,
    /// The refused one could be put into the board's own order, with nothing else moved.
    Spare,
}

/// Judges a refusal by trying every order. Only for few transactions.
pub fn judge(granted: &[&Transaction], refused: &Transaction, items: u32) -> Verdict {
    if could_be_put_in(granted, refused, items) {
        return Verdict::Spare;
    }
    let mut all = granted.to_vec();
    all.push(refused);
    if some_order_explains(&mut all, &Table::at_rest(items)) {
        Verdict::SpareIfReordered
    } else {
        Verdict::Needed
    }
}

/// Goes through the orders of `left` from the table on, and gives up a branch at its first wrong read.
fn some_order_explains(left: &mut Vec<&Transaction>, table: &Table) -> bool {
    if left.is_empty() {
        return true;
    }
    for index in 0..left.len() {
        let next = left[index];
        let may_be_next = left.iter().all(|other| other.ended >= next.began);
        let mut after = table.clone();
        if may_be_next && after.run(next) {
            left.remove(index);
            let explained = some_order_explains(left, &after);
            left.insert(index, next);
            if explained {
                return true;
            }
        }
    }
    false
}

/// Is there a place in the board's own order at which the refused one reads what it was answered
/// and changes no other's reads? Works for any number of transactions.
pub fn could_be_put_in(granted: &[&Transaction], refused: &Transaction, items: u32) -> bool {
    let mut order = granted.to_vec();
    order.sort_by_key(|transaction| transaction.standing());
    // It must stand behind all that were granted before it began.
    let first = order
        .iter()
        .rposition(|other| other.ended < refused.began)
        .map_or(0, |position| position + 1);
    let mut table = Table::at_rest(items);
    for other in &order[..first] {
        assert!(table.run(other), "the board's own order explains what was granted");
    }
    for position in first..=order.len() {
        let mut trial = table.clone();
        let explained =
            trial.run(refused) && order[position..].iter().all(|other| trial.run(other));
        if explained {
            return true;
        }
        if let Some(other) = order.get(position) {
            assert!(table.run(other), "the board's own order explains what was granted");
        }
    }
    false
}

#[cfg(test)]
mod tests {
    use reference::call::Mode;

    use super::*;
    use crate::history::Fate;

    fn update(began: usize, ended: usize, fate: Fate, steps: &[Step]) -> Transaction {
        Transaction { mode: Mode::Update, began, ended, steps: steps.to_vec(), fate }
    }

    const FIRST: Fate = Fate::Granted { natural: 2, place: 2 };
    const SECOND: Fate = Fate::Granted { natural: 3, place: 3 };
    const REFUSED: Fate = Fate::Refused(14);

    fn read(item: u32, code: u32) -> Step {
        Step::Read { item, code }
    }

    fn write(item: u32, code: u32) -> Step {
        Step::Write { item, code }
    }

    #[test]
    fn a_lost_update_has_no_order() {
        let granted = update(1, 3, FIRST, &[read(0, 0), write(0, 5)]);
        let refused = update(0, 4, REFUSED, &[read(0, 0), write(0, 6)]);
        assert_eq!(judge(&[&granted], &refused, 1), Verdict::Needed);
    }

    #[test]
    fn what_missed_a_write_can_stand_before_it() {
        let granted = update(1, 3, FIRST, &[write(0, 5)]);
        let refused = update(0, 4, REFUSED, &[read(0, 0), write(1, 6)]);
        assert_eq!(judge(&[&granted], &refused, 2), Verdict::Spare);
    }

    #[test]
    fn but_not_before_one_that_was_granted_before_it_began() {
        let granted = update(0, 1, FIRST, &[write(0, 5)]);
        let refused = update(2, 3, REFUSED, &[read(0, 0)]);
        assert_eq!(judge(&[&granted], &refused, 1), Verdict::Needed);
    }

    #[test]
    fn granted_ones_may_have_to_change_places() {
        let writer = update(1, 3, FIRST, &[write(0, 5)]);
        let other = update(2, 4, SECOND, &[read(1, 0), write(2, 6)]);
        let refused = update(0, 5, REFUSED, &[read(0, 0), write(1, 7)]);
        assert_eq!(judge(&[&writer, &other], &refused, 3), Verdict::SpareIfReordered);
    }
}
