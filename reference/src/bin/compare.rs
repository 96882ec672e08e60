//! Plays random scripts with another program and with the reference, and
//! stops at the first difference: `compare PLAY COUNT [FIRST_SEED]`.

use std::fs;
use std::io::{self, Write};
use std::path::Path;
use std::process::{Command, ExitCode, Output, Stdio};
use std::time::Instant;

use reference::{author, player};

const USAGE: &str = "usage: compare PLAY COUNT [FIRST_SEED]";
/// Where the files of a difference are left, under the current folder.
const LEFT_IN: &str = "target/difference";

struct Task {
    play: String,
    count: u64,
    first: u64,
}

fn main() -> ExitCode {
    let arguments: Vec<String> = std::env::args().skip(1).collect();
    let Some(task) = read_arguments(&arguments) else {
        eprintln!("{USAGE}");
        return ExitCode::from(2);
    };
    match compare(&task) {
        Ok(true) => ExitCode::SUCCESS,
        Ok(false) => ExitCode::FAILURE,
        Err(error) => {
            eprintln!("cannot run {}: {error}", task.play);
            ExitCode::from(2)
        }
    }
}

fn read_arguments(arguments: &[String]) -> Option<Task> {
    let (play, count, first) = match arguments {
        [play, count] => (play, count, 1),
        [play, count, first] => (play, count, first.parse().ok()?),
        _ => return None,
    };
    Some(Task { play: play.clone(), count: count.parse().ok()?, first })
}

/// Tells whether all scripts were answered alike.
fn compare(task: &Task) -> io::Result<bool> {
    let begun = Instant::now();
    let mut answer_lines = 0;
    for seed in task.first..task.first + task.count {
        let script = author::write_script(seed, None);
        let record = player::play(&script);
        let expected = record.text();
        let output = run(&task.play, &script)?;
        if output.stdout != expected.as_bytes() || !output.status.success() {
            report(seed, &script, &expected, &output)?;
            return Ok(false);
        }
        answer_lines += record.answers.len();
    }
    let seconds = begun.elapsed().as_secs_f64();
    println!(
        "{} scripts from seed {} on, {answer_lines} answer lines: no difference ({seconds:.1} s)",
        task.count, task.first
    );
    Ok(true)
}

fn run(play: &str, script: &[u8]) -> io::Result<Output> {
    let mut child = Command::new(play).stdin(Stdio::piped()).stdout(Stdio::piped()).spawn()?;
    let mut input = child.stdin.take().expect("standard input is piped");
    match input.write_all(script) {
        // A program need not read all of a script that is too long.
        Err(error) if error.kind() != io::ErrorKind::BrokenPipe => return Err(error),
        _ => drop(input),
    }
    child.wait_with_output()
}

fn report(seed: u64, script: &[u8], expected: &str, output: &Output) -> io::Result<()> {
    let folder = Path::new(LEFT_IN);
    fs::create_dir_all(folder)?;
    fs::write(folder.join("script"), script)?;
    fs::write(folder.join("expected"), expected)?;
    fs::write(folder.join("got"), &output.stdout)?;
    println!("difference at seed {seed}; exit: {}", output.status);
    let got = String::from_utf8_lossy(&output.stdout);
    print_first_difference(script, expected, &got);
    io::stdout().flush()
}

fn print_first_difference(script: &[u8], expected: &str, got: &str) {
    let expected: Vec<&str> = expected.split_inclusive('\n').collect();
    let got: Vec<&str> = got.split_inclusive('\n').collect();
    let longest = expected.len().max(got.len());
    let Some(index) = (0..longest).find(|&index| expected.get(index) != got.get(index)) else {
        return;
    };
    let answer = expected.get(index).or(got.get(index)).copied().unwrap_or("");
    let line = answer.split(' ').next().and_then(|number| number.parse::<usize>().ok());
    let place = line.and_then(|line| line.checked_sub(1));
    if let Some(text) = place.and_then(|place| script.split(|&byte| byte == b'\n').nth(place)) {
        println!("script line: {}", text.escape_ascii());
    }
    println!("reference:   {:?}", expected.get(index));
    println!("program:     {:?}", got.get(index));
}
