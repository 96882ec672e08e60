//! Writes the random script of a seed: `generate SEED [LINES]`.

use std::io::{self, Write};
use std::process::ExitCode;

use reference::author;

const USAGE: &str = "usage: generate SEED [LINES]";

fn main() -> ExitCode {
    let arguments: Vec<String> = std::env::args().skip(1).collect();
    let Some((seed, lines)) = read_arguments(&arguments) else {
        eprintln!("{USAGE}");
        return ExitCode::from(2);
    };
    let script = author::write_script(seed, lines);
    match io::stdout().lock().write_all(&script) {
        Ok(()) => ExitCode::SUCCESS,
        Err(error) => {
            eprintln!("cannot write the script: {error}");
            ExitCode::FAILURE
        }
    }
}

fn read_arguments(arguments: &[String]) -> Option<(u64, Option<usize>)> {
    match arguments {
        [seed] => Some((seed.parse().ok()?, None)),
        [seed, lines] => Some((seed.parse().ok()?, Some(lines.parse().ok()?))),
        _ => None,
    }
}
