//! The admission rules: what a commit is told of, and what a rule answers.

use crate::call::Class;

/// What a rule is told at the commit of an update transaction.
#[derive(Clone, Copy, Debug)]
pub struct Findings {
    pub start: u32,
    /// The clock plus 1.
    pub next: u32,
    pub class: Class,
    /// Has a listed item a stamp not below the start?
    pub overtaken: bool,
    /// The least place among the missed versions, if any was missed.
    pub earliest_missed: Option<u32>,
    /// Is a missed version warped?
    pub missed_warped: bool,
}

/// What a rule answers.
#[derive(Clone, Copy, Debug, PartialEq, Eq)]
pub enum Verdict {
    Refused,
    Place(u32),
}

/// An admission rule, or the layer `home` over one.
#[derive(Clone, Debug)]
pub enum Rule {
    Now,
    Warp,
    Home(Box<Rule>),
}

impl Rule {
    /// The layer `home` over a rule.
    pub fn home(below: Rule) -> Rule {
        Rule::Home(Box::new(below))
    }

    pub fn answer(&self, findings: &Findings) -> Verdict {
        match self {
            Rule::Now => now(findings),
            Rule::Warp => warp(findings),
            Rule::Home(below) => home(below, findings),
        }
    }
}

fn now(findings: &Findings) -> Verdict {
    match findings.earliest_missed {
        Some(_) => Verdict::Refused,
        None => Verdict::Place(findings.next),
    }
}

fn warp(findings: &Findings) -> Verdict {
    match findings.earliest_missed {
        None => Verdict::Place(findings.next),
        Some(_) if findings.missed_warped => Verdict::Refused,
        Some(_) if findings.overtaken => Verdict::Refused,
        Some(earliest) => Verdict::Place(earliest),
    }
}

fn home(below: &Rule, findings: &Findings) -> Verdict {
    match (findings.class, below.answer(findings)) {
        (Class::Guest, Verdict::Place(place)) if place < findings.next => Verdict::Refused,
        (_, verdict) => verdict,
    }
}

#[cfg(test)]
mod tests {
    use super::*;

    /// All findings as a board gives them, with `next` up to 5.
    fn all_findings() -> Vec<Findings> {
        let mut all = Vec::new();
        for next in 2..=5 {
            for start in 1..next {
                for class in [Class::Member, Class::Guest] {
                    for overtaken in [false, true] {
                        let told = Findings {
                            start,
                            next,
                            class,
                            overtaken,
                            earliest_missed: None,
                            missed_warped: false,
                        };
                        all.push(told);
                        for place in 1..next {
                            let missed = Findings { earliest_missed: Some(place), ..told };
                            all.push(Findings { missed_warped: true, ..missed });
                            if place > start {
                                all.push(missed);
                            }
                        }
                    }
                }
            }
        }
        all
    }

    fn keeps_the_four_laws(rule: &Rule, told: &Findings) {
        let verdict = rule.answer(told);
        if let Verdict::Place(place) = verdict {
            assert!(told.start < place && place <= told.next);
            assert!(told.earliest_missed.is_none_or(|earliest| place <= earliest));
            assert!(!told.overtaken || place == told.next);
        }
        if told.earliest_missed.is_none() {
            assert_eq!(verdict, Verdict::Place(told.next));
        }
    }

    #[test]
    fn every_rule_keeps_the_four_laws() {
        let rules = [
            Rule::Now,
            Rule::Warp,
            Rule::home(Rule::Now),
            Rule::home(Rule::Warp),
            Rule::home(Rule::home(Rule::Warp)),
        ];
        for rule in &rules {
            for told in &all_findings() {
                keeps_the_four_laws(rule, told);
            }
        }
    }
}
