//! The bounds that no script is long enough to reach.

use reference::board::Board;
use reference::call::{Call, Class, Mode, Refusal, Reply};
use reference::kind::Switch;
use reference::rule::Rule;

fn board(items: u32, seats: u32) -> Board<Switch> {
    Board::new(items, seats, Rule::Warp).expect("the counts are in range")
}

#[test]
fn the_clock_stops_at_a_million() {
    let mut board = board(2, 2);
    let (seat, pass) = (0, 1);
    assert_eq!(board.call(Call::Admit { seat, class: Class::Member }), Ok(Reply::Pass(1)));
    for natural in 2..=1_000_000 {
        board.call(Call::Begin { seat, pass, mode: Mode::Update }).expect("nothing is open");
        let granted = board.call(Call::Commit { seat, pass });
        assert_eq!(granted, Ok(Reply::Granted { natural, place: natural }));
    }
    for _ in 0..2 {
        let begun = board.call(Call::Begin { seat, pass, mode: Mode::Update });
        assert_eq!(begun, Ok(Reply::Start(1_000_000)));
        assert_eq!(board.call(Call::Commit { seat, pass }), Err(Refusal::ClockAtEnd));
        assert_eq!(board.call(Call::Commit { seat, pass }), Err(Refusal::NothingOpen));
    }
    board.call(Call::Begin { seat, pass, mode: Mode::Reader }).expect("nothing is open");
    let granted = board.call(Call::Commit { seat, pass });
    assert_eq!(granted, Ok(Reply::Granted { natural: 0, place: 1_000_000 }));
}

#[test]
fn a_million_passes_are_given() {
    let mut board = board(1, 2);
    let class = Class::Guest;
    for pass in 1..=1_000_000 {
        assert_eq!(board.call(Call::Admit { seat: 0, class }), Ok(Reply::Pass(pass)));
        assert_eq!(board.call(Call::Admit { seat: 0, class }), Err(Refusal::SeatTaken));
        assert_eq!(board.call(Call::Revoke { seat: 0 }), Ok(Reply::Done));
    }
    assert_eq!(board.call(Call::Admit { seat: 1, class }), Err(Refusal::NoPassLeft));
    assert_eq!(board.call(Call::Admit { seat: 2, class }), Err(Refusal::UnknownSeat));
}

#[test]
fn the_counts_have_ends() {
    for (items, seats, good) in [
        (1, 1, true),
        (256, 32, true),
        (0, 1, false),
        (1, 0, false),
        (257, 1, false),
        (1, 33, false),
    ] {
        assert_eq!(Board::<Switch>::new(items, seats, Rule::Now).is_ok(), good);
    }
}
