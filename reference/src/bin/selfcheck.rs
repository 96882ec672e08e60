//! Checks the claims about the serial order on many random scripts:
//! `selfcheck COUNT [FIRST_SEED]`.
//!
//! Each script is played; then its calls are played again on a new board, and
//! the claims are checked on the list of calls and answers so far, at many
//! points on the way.

use std::process::ExitCode;

use reference::author;
use reference::player::{self, AnyBoard, Record};
use reference::script;
use reference::serial::History;
use reference::tally::Tally;

const USAGE: &str = "usage: selfcheck COUNT [FIRST_SEED]";
/// About how many points of one script are checked.
const POINTS: usize = 60;

fn main() -> ExitCode {
    let arguments: Vec<String> = std::env::args().skip(1).collect();
    let Some((count, first)) = read_arguments(&arguments) else {
        eprintln!("{USAGE}");
        return ExitCode::from(2);
    };
    let mut tally = Tally::default();
    let mut points = 0;
    for seed in first..first + count {
        let text = author::write_script(seed, None);
        let record = player::play(&text);
        match check(&text, &record) {
            Ok(checked) => points += checked,
            Err(what) => {
                println!("seed {seed}: {what}");
                return ExitCode::FAILURE;
            }
        }
        tally.add(&record);
    }
    println!("every claim held on {count} scripts, at {points} points of their lists of calls");
    print!("{tally}");
    ExitCode::SUCCESS
}

fn read_arguments(arguments: &[String]) -> Option<(u64, u64)> {
    match arguments {
        [count] => Some((count.parse().ok()?, 1)),
        [count, first] => Some((count.parse().ok()?, first.parse().ok()?)),
        _ => None,
    }
}

/// Tells at how many points the claims were checked.
fn check(text: &[u8], record: &Record) -> Result<usize, String> {
    if record.board.is_none() {
        return Ok(0);
    }
    let header = script::read_header(script::lines(text)[0]).expect("the header was good");
    let mut board = AnyBoard::new(&header).expect("the header was good");
    let list = &record.log;
    let stride = list.len() / POINTS + 1;
    let mut points = 0;
    for (index, (call, outcome)) in list.iter().enumerate() {
        let again = board.call(*call);
        if again != *outcome {
            return Err(format!("call {index} answers otherwise when played again"));
        }
        board.check_shape().map_err(|what| format!("after call {index}: {what}"))?;
        if (index + 1) % stride == 0 || index + 1 == list.len() {
            let so_far = &list[..=index];
            let shown = board.shown();
            let history = History { list: so_far, rest_code: board.rest_code(), shown: &shown };
            history.check().map_err(|what| format!("after call {index}: {what}"))?;
            points += 1;
        }
    }
    Ok(points)
}
