//! Timing one list of requests on both boards, in turn, and comparing every answer.

use std::error::Error;
use std::hint::black_box;

use crate::clock::thread_seconds;
use crate::sides::{NotPlayed, Side, same_answers};
use crate::wire::{Answer, Script};

/// Seconds of each board for one script.
#[derive(Clone, Copy, Debug)]
pub struct Times {
    pub proved: f64,
    pub reference: f64,
    /// The middle one over the rounds of: the reference's seconds over the proved board's.
    pub ratio: f64,
}

fn seconds(side: Side, script: &Script, answers: &mut [Answer]) -> Result<f64, NotPlayed> {
    let start = thread_seconds();
    side.run(script.setup, black_box(&script.requests), answers)?;
    black_box(&answers);
    Ok(thread_seconds() - start)
}

/// The best time of each board over some rounds, in which they take turns.
pub fn race(script: &Script, rounds: usize) -> Result<Times, Box<dyn Error>> {
    let mut proved_answers = vec![Answer::default(); script.requests.len()];
    let mut plain_answers = proved_answers.clone();
    let (mut proved, mut plain) = (f64::INFINITY, f64::INFINITY);
    let mut ratios = Vec::with_capacity(rounds);
    for _ in 0..rounds {
        let one = seconds(Side::Proved, script, &mut proved_answers)?;
        let other = seconds(Side::Reference, script, &mut plain_answers)?;
        same_answers(script, &proved_answers, &plain_answers)?;
        proved = proved.min(one);
        plain = plain.min(other);
        ratios.push(other / one);
    }
    ratios.sort_by(f64::total_cmp);
    Ok(Times { proved, reference: plain, ratio: ratios[rounds / 2] })
}
