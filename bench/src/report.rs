//! The tables, and the pictures that go with them.

use std::error::Error;

use reference::call::Class;

use crate::growth::{Cost, Measured, Scene, commit_cost, cost};
use crate::layouts;
use crate::mixes::mixes;
use crate::patterns::{PATTERNS, play};
use crate::picture::{Bar, Bars};
use crate::sides;
use crate::small;
use crate::spare::Verdict;
use crate::timing;
use crate::wire::{Kind, RuleName};
use crate::work::{self, Mix};

const SEED: u64 = 2026;
const RACE_CALLS: usize = 100_000;
const RACE_ROUNDS: usize = 15;
const LAYOUT_CALLS: usize = 30_000;
const SMALL_HISTORIES: u64 = 20_000;

const VERSIONS_PER_ITEM: usize = 8;

/// Bytes.
pub fn sizes() {
    println!("## Bytes\n");
    println!("| kind | one version | board without versions | with 256 items |");
    println!("| --- | ---: | ---: | ---: |");
    for kind in Kind::ALL {
        let sizes = sides::sizes(kind);
        let whole = sizes.board + 256 * VERSIONS_PER_ITEM * sizes.version;
        println!("| {} | {} | {} | {whole} |", kind.name(), sizes.version, sizes.board);
    }
    println!();
}

/// Calls per second, and the ratio.
pub fn race() -> Result<String, Box<dyn Error>> {
    println!("## Calls per second\n");
    println!("| mix | board | rule | items | proved | reference | ratio |");
    println!("| --- | --- | --- | ---: | ---: | ---: | ---: |");
    let mut bars = Vec::new();
    for mix in mixes() {
        let script = work::script(&mix, SEED, RACE_CALLS);
        let times = timing::race(&script, RACE_ROUNDS)?;
        let millions = |seconds: f64| script.requests.len() as f64 / seconds / 1e6;
        let (kind, rule) = (mix.setup.kind.name(), mix.setup.rule.name());
        println!(
            "| {} | {kind} | {rule} | {} | {:.1} M | {:.1} M | {:.2} |",
            mix.name,
            mix.setup.items,
            millions(times.proved),
            millions(times.reference),
            times.ratio
        );
        bars.push(Bar {
            label: format!("{}, {kind}, {rule}, {} items", mix.name, mix.setup.items),
            parts: vec![(times.ratio, if times.ratio < 1.0 { "#c44" } else { "#4a4" })],
            note: format!("{:.2}", times.ratio),
        });
    }
    println!();
    let most = bars.iter().map(|bar| bar.parts[0].0).fold(1.2, f64::max);
    let title = "Speed of the proved board over the reference's (1 is equal)";
    Ok(Bars { title, bars, most, mark: Some(1.0) }.svg())
}

fn print_cost(label: impl std::fmt::Display, costs: &[Cost]) {
    print!("| {label} |");
    for cost in costs {
        print!(" {:.0} / {:.0} |", cost.proved, cost.reference);
    }
    println!();
}

fn print_growth(
    what: &str,
    scenes: &[(u32, Scene)],
    kinds: &[Measured],
) -> Result<(), Box<dyn Error>> {
    print!("| {what} |");
    for measured in kinds {
        print!(" {} |", measured.name());
    }
    println!("\n| ---: |{}", " ---: |".repeat(kinds.len()));
    for (label, scene) in scenes {
        let costs: Result<Vec<Cost>, _> =
            kinds.iter().map(|&measured| cost(*scene, measured)).collect();
        print_cost(label, &costs?);
    }
    println!();
    Ok(())
}

/// Nanoseconds of a call.
pub fn growth() -> Result<(), Box<dyn Error>> {
    println!("## Nanoseconds of a call, proved / reference\n");
    let small = Scene::SMALL;
    let items = [1, 4, 16, 64, 256].map(|items| (items, Scene { items, ..small }));
    print_growth("items", &items, &Measured::ALL)?;
    let seats = [1, 2, 8, 32].map(|seats| (seats, Scene { seats, ..small }));
    print_growth("seats", &seats, &Measured::ALL)?;
    let single = [Measured::Read, Measured::ReaderRead, Measured::Write, Measured::ReadCommit];
    let open = [0, 1, 7, 15, 31].map(|open| (open, Scene { open, ..small }));
    print_growth("other open transactions", &open, &single)?;
    let newer = [0, 1, 3, 6].map(|newer| (newer + 1, Scene { newer, ..small }));
    print_growth("versions to walk", &newer, &single[..3])?;
    println!("| list grows up to | begin+write+commit |");
    println!("| ---: | ---: |");
    for longest in [2, 4, 6, 8] {
        print_cost(longest, &[commit_cost(longest)?]);
    }
    println!();
    Ok(())
}

/// How many transactions are open side by side on a layout: a quiet hour, and every handset at once.
const ABREAST: [usize; 2] = [4, 32];

/// What each rule refuses on a layout.
pub fn granted() -> Result<String, Box<dyn Error>> {
    println!("## Commits granted on a layout\n");
    println!(
        "| layout | open at once | rule | commits | granted | of updates | below next | refused (14) | of these spare | list full (15) |"
    );
    println!("| --- | ---: | --- | ---: | ---: | ---: | ---: | ---: | ---: | ---: |");
    let mut bars = Vec::new();
    for layout in layouts::layouts() {
        for abreast in ABREAST {
            for rule in RuleName::ALL {
                let tally = layouts::tally(&layout, abreast, rule, SEED, LAYOUT_CALLS)?;
                print_tally(&layout, abreast, rule, &tally);
                bars.push(tally_bar(
                    format!("{}, {abreast}, {}", layout.name, rule.name()),
                    &tally,
                ));
            }
        }
    }
    println!();
    let title = "Update commits: granted at next (green), below it (pale); refused: spare (yellow), other (red), 15 (grey)";
    Ok(Bars { title, bars, most: 100.0, mark: None }.svg())
}

fn print_tally(layout: &Mix, abreast: usize, rule: RuleName, tally: &layouts::Tally) {
    println!(
        "| {} | {abreast} | {} | {} | {:.1} % | {:.1} % | {} | {} | {} | {} |",
        layout.name,
        rule.name(),
        tally.commits(),
        tally.granted_share(),
        tally.updates_granted_share(),
        tally.warped,
        tally.refused_by_rule,
        tally.spare,
        tally.refused_full
    );
}

fn tally_bar(label: String, tally: &layouts::Tally) -> Bar {
    let share = |count: usize| 100.0 * count as f64 / tally.update_commits as f64;
    Bar {
        label,
        parts: vec![
            (share(tally.updates_granted - tally.warped), "#4a4"),
            (share(tally.warped), "#9d9"),
            (share(tally.spare), "#db4"),
            (share(tally.refused_by_rule - tally.spare), "#c44"),
            (share(tally.refused_full), "#888"),
        ],
        note: format!("{:.0} % granted", tally.updates_granted_share()),
    }
}

fn told(verdict: Option<Verdict>) -> &'static str {
    match verdict {
        None => "granted",
        Some(Verdict::Needed) => "refused, needed",
        Some(Verdict::SpareIfReordered) => "refused, spare if others move",
        Some(Verdict::Spare) => "refused, spare",
    }
}

/// The small patterns.
pub fn patterns() -> Result<(), Box<dyn Error>> {
    println!("## Patterns: what the last commit gets (the earlier ones are granted)\n");
    println!(
        "| pattern | story | now | warp | home-now, guest | home-warp, guest | home-warp, member |"
    );
    println!("| --- | --- | --- | --- | --- | --- | --- |");
    let columns = [
        (RuleName::Now, Class::Guest),
        (RuleName::Warp, Class::Guest),
        (RuleName::HomeNow, Class::Guest),
        (RuleName::HomeWarp, Class::Guest),
        (RuleName::HomeWarp, Class::Member),
    ];
    for pattern in &PATTERNS {
        print!("| {} | {} |", pattern.name, pattern.story);
        for (rule, class) in columns {
            let outcome = play(pattern, rule, class)?;
            let (_, earlier) = outcome.granted.split_last().ok_or("a pattern has a commit")?;
            let refused_before = earlier.iter().filter(|granted| !**granted).count();
            match refused_before {
                0 => print!(" {} |", told(outcome.verdict)),
                _ => print!(" {} ({refused_before} refused before) |", told(outcome.verdict)),
            }
        }
        println!();
    }
    println!();
    Ok(())
}

/// Small random histories.
pub fn small() -> Result<(), Box<dyn Error>> {
    println!(
        "## Refusals of {SMALL_HISTORIES} small random histories, judged by trying every order\n"
    );
    println!(
        "| rule | commits of updates | granted | refused by rule (14) | needed | spare | spare only if others move |"
    );
    println!("| --- | ---: | ---: | ---: | ---: | ---: | ---: |");
    for rule in RuleName::ALL {
        let tally = small::tally(rule, SMALL_HISTORIES)?;
        let share = |count: usize| 100.0 * count as f64 / tally.refused_by_rule as f64;
        println!(
            "| {} | {} | {:.1} % | {} | {} ({:.1} %) | {} ({:.1} %) | {} ({:.1} %) |",
            rule.name(),
            tally.update_commits,
            100.0 * tally.updates_granted as f64 / tally.update_commits as f64,
            tally.refused_by_rule,
            tally.needed,
            share(tally.needed),
            tally.spare,
            share(tally.spare),
            tally.spare_if_reordered,
            share(tally.spare_if_reordered)
        );
    }
    println!();
    Ok(())
}
