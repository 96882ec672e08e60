//! Reads a script from standard input and prints its answer lines.

use std::io::{self, Read, Write};

use reference::player;

fn main() -> io::Result<()> {
    let mut script = Vec::new();
    io::stdin().lock().read_to_end(&mut script)?;
    let answers = player::play(&script).text();
    io::stdout().lock().write_all(answers.as_bytes())
}
