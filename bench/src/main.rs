//! Measures the proved board beside the reference, and what each admission rule refuses.
//!
//! Every script is played on both boards and every answer compared: a difference ends the run with
//! an error, so the race is a test too. Tables are printed, and pictures written to the folder that
//! the one argument names.

use std::error::Error;
use std::fs;
use std::path::Path;

mod clock;
mod growth;
mod history;
mod layouts;
mod mixes;
mod patterns;
mod picture;
mod report;
mod sides;
mod small;
mod spare;
mod timing;
mod wire;
mod work;

fn main() -> Result<(), Box<dyn Error>> {
    let folder = std::env::args().nth(1).ok_or("usage: bench FOLDER-FOR-PICTURES")?;
    let save = |name: &str, svg: String| fs::write(Path::new(&folder).join(name), svg);
    report::sizes();
    save("bench-race.svg", report::race()?)?;
    report::growth()?;
    save("bench-granted.svg", report::granted()?)?;
    report::patterns()?;
    report::small()?;
    println!("All {} answers of the two boards agreed.", sides::compared());
    Ok(())
}
