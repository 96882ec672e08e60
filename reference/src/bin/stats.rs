//! Plays the scripts in the files given and prints what came of them, summed.

use std::fs;
use std::process::ExitCode;

use reference::player;
use reference::tally::Tally;

fn main() -> ExitCode {
    let mut tally = Tally::default();
    for path in std::env::args_os().skip(1) {
        match fs::read(&path) {
            Ok(script) => tally.add(&player::play(&script)),
            Err(error) => {
                eprintln!("{}: {error}", path.display());
                return ExitCode::FAILURE;
            }
        }
    }
    print!("{tally}");
    ExitCode::SUCCESS
}
