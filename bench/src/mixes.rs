//! The mixes of the race.

use std::ops::RangeInclusive;

use crate::wire::{Kind, RuleName, Setup};
use crate::work::Mix;

fn mix(
    name: &'static str,
    kind: Kind,
    rule: RuleName,
    items: u32,
    readers: usize,
    writes: RangeInclusive<usize>,
) -> Mix {
    Mix {
        name,
        setup: Setup { kind, rule, items, seats: 32 },
        guests: 50,
        readers,
        reader_reads: 1..=8,
        update_reads: 0..=4,
        writes,
        read_first: 50,
        abreast: 32,
    }
}

/// Every mix on boards of 1, 16 and 256 locomotives, and some of turnouts and under other rules.
pub fn mixes() -> Vec<Mix> {
    let mut all = Vec::new();
    for items in [1, 16, 256] {
        let of =
            |name, readers, writes| mix(name, Kind::Drive, RuleName::Warp, items, readers, writes);
        all.push(of("nine readers in ten, 1 write", 90, 1..=1));
        all.push(of("half readers, 1 to 4 writes", 50, 1..=4));
        all.push(of("updates only, 1 write", 0, 1..=1));
        all.push(of("updates only, 8 writes", 0, 8..=8));
    }
    for rule in [RuleName::Now, RuleName::HomeNow, RuleName::HomeWarp] {
        all.push(mix("half readers, 1 to 4 writes", Kind::Drive, rule, 64, 50, 1..=4));
    }
    all.push(mix("updates only, 8 writes", Kind::Switch, RuleName::Warp, 64, 0, 8..=8));
    all.push(mix("nine readers in ten, 1 write", Kind::Switch, RuleName::Warp, 64, 90, 1..=1));
    all
}
