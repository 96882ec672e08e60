//! Damaging lines.

use super::habits::Habits;
use crate::random::Dice;
use crate::script::LINE_MOST;

/// A way to damage a line.
#[derive(Clone, Copy, Debug)]
enum Damage {
    BadKey,
    OtherKey,
    UnlistedWord,
    BadNumber,
    DoubleSpace,
    SpaceAhead,
    SpaceBehind,
    CarriageReturn,
    Long,
    HighByte,
    Empty,
    ExtraPart,
    MissingPair,
    CutOff,
    SwappedPairs,
    NoSign,
    TwoSigns,
    OneByte,
    Noise,
}

const DAMAGES: &[(usize, Damage)] = &[
    (3, Damage::BadKey),
    (2, Damage::OtherKey),
    (3, Damage::UnlistedWord),
    (8, Damage::BadNumber),
    (3, Damage::DoubleSpace),
    (1, Damage::SpaceAhead),
    (2, Damage::SpaceBehind),
    (2, Damage::CarriageReturn),
    (4, Damage::Long),
    (2, Damage::HighByte),
    (1, Damage::Empty),
    (3, Damage::ExtraPart),
    (3, Damage::MissingPair),
    (2, Damage::CutOff),
    (2, Damage::SwappedPairs),
    (2, Damage::NoSign),
    (2, Damage::TwoSigns),
    (5, Damage::OneByte),
    (1, Damage::Noise),
];

const WRONG_NUMBERS: &[&[u8]] = &[
    b"",
    b"00",
    b"01",
    b"007",
    b"0000000",
    b"10000000",
    b"99999999",
    b"00000001",
    b"4294967296",
    b"18446744073709551616",
    b"-1",
    b"+1",
    b"1.0",
    b"1e3",
    b"0x1",
    b"1_0",
    b"one",
    b"=1",
    b"1=",
    b"1\t",
    b"1\r",
    b"\xB2",
    b"1\xC2\xA0",
    b"\xD9\xA1",
    b"/",
    b":",
    b"1\0",
];

const WRONG_WORDS: &[&[u8]] = &[
    b"",
    b"Member",
    b"members",
    b"guest ",
    b"writer",
    b"READER",
    b"updat",
    b"update\r",
    b"jump",
    b"show=",
    b"drive2",
    b"home",
    b"home-home-now",
    b"warp-home",
    b"now\0",
    b"0",
];

/// A line with one or two damages. Some leave the line as good as it was.
pub fn damaged(line: &[u8], dice: &mut Dice) -> Vec<u8> {
    let mut bad = damage_once(line, dice);
    while dice.chance(25) {
        bad = damage_once(&bad, dice);
    }
    bad
}

/// A header with a count out of range or something behind it, or damaged like
/// any other line.
pub fn damaged_header(line: &[u8], habits: &Habits, dice: &mut Dice) -> Vec<u8> {
    if dice.chance(15) {
        return extra_part(line, dice);
    }
    if dice.chance(60) {
        return damaged(line, dice);
    }
    let Habits { board, rule, .. } = habits;
    let (items, seats) = dice.pick(&[
        (0, 2),
        (2, 0),
        (0, 0),
        (257, 2),
        (2, 33),
        (257, 33),
        (9_999_999, 1),
        (1, 9_999_999),
        (256, 33),
        (257, 32),
    ]);
    format!("board={board} items={items} seats={seats} rule={rule}").into_bytes()
}

fn damage_once(line: &[u8], dice: &mut Dice) -> Vec<u8> {
    match dice.weigh(DAMAGES) {
        Damage::BadKey => in_a_part(line, dice, bad_key),
        Damage::OtherKey => in_a_part(line, dice, other_key),
        Damage::UnlistedWord => in_a_part(line, dice, unlisted_word),
        Damage::BadNumber => in_a_number(line, dice),
        Damage::DoubleSpace => double_space(line, dice),
        Damage::SpaceAhead => [b" ", line].concat(),
        Damage::SpaceBehind => [line, &b" ".repeat(dice.between(1, 2))].concat(),
        Damage::CarriageReturn => [line, b"\r"].concat(),
        Damage::Long => long(line, dice),
        Damage::HighByte => high_byte(line, dice),
        Damage::Empty => Vec::new(),
        Damage::ExtraPart => extra_part(line, dice),
        Damage::MissingPair => missing_pair(line, dice),
        Damage::CutOff => line[..dice.between(0, line.len())].to_vec(),
        Damage::SwappedPairs => swapped_pairs(line, dice),
        Damage::NoSign => line.iter().copied().filter(|&byte| byte != b'=').collect(),
        Damage::TwoSigns => in_a_part(line, dice, two_signs),
        Damage::OneByte => one_byte(line, dice),
        Damage::Noise => noise(dice),
    }
}

fn parts(line: &[u8]) -> Vec<Vec<u8>> {
    line.split(|&byte| byte == b' ').map(<[u8]>::to_vec).collect()
}

fn joined(parts: &[Vec<u8>]) -> Vec<u8> {
    parts.join(&b' ')
}

/// Changes one part of the line.
fn in_a_part(line: &[u8], dice: &mut Dice, change: fn(&[u8], &mut Dice) -> Vec<u8>) -> Vec<u8> {
    let mut parts = parts(line);
    let index = dice.below(parts.len());
    parts[index] = change(&parts[index], dice);
    joined(&parts)
}

/// Puts a wrong number into one of the pairs, if possible not the first.
fn in_a_number(line: &[u8], dice: &mut Dice) -> Vec<u8> {
    let mut parts = parts(line);
    let index = match parts.len() {
        1 => 0,
        count => dice.between(1, count - 1),
    };
    parts[index] = with_value(&parts[index], dice.pick(WRONG_NUMBERS));
    joined(&parts)
}

fn key_of(part: &[u8]) -> &[u8] {
    let end = part.iter().position(|&byte| byte == b'=').unwrap_or(part.len());
    &part[..end]
}

fn value_of(part: &[u8]) -> &[u8] {
    part.get(key_of(part).len() + 1..).unwrap_or(b"")
}

fn with_value(part: &[u8], value: &[u8]) -> Vec<u8> {
    [key_of(part), b"=", value].concat()
}

fn bad_key(part: &[u8], dice: &mut Dice) -> Vec<u8> {
    let key = key_of(part);
    let value = value_of(part);
    let changed = match dice.below(4) {
        0 => key.to_ascii_uppercase(),
        1 => [key, b"s"].concat(),
        2 => key.split_last().map_or(Vec::new(), |(_, rest)| rest.to_vec()),
        _ => Vec::new(),
    };
    [&changed, &b"="[..], value].concat()
}

fn other_key(part: &[u8], dice: &mut Dice) -> Vec<u8> {
    let keys: [&[u8]; 10] =
        [b"op", b"seat", b"pass", b"item", b"code", b"class", b"mode", b"board", b"items", b"rule"];
    [dice.pick(&keys), b"=", value_of(part)].concat()
}

fn unlisted_word(part: &[u8], dice: &mut Dice) -> Vec<u8> {
    with_value(part, dice.pick(WRONG_WORDS))
}

fn two_signs(part: &[u8], _: &mut Dice) -> Vec<u8> {
    [key_of(part), b"==", value_of(part)].concat()
}

fn double_space(line: &[u8], dice: &mut Dice) -> Vec<u8> {
    let mut parts = parts(line);
    let index = dice.below(parts.len());
    parts.insert(index, Vec::new());
    joined(&parts)
}

/// About as long as a line may be, in one of several ways.
fn long(line: &[u8], dice: &mut Dice) -> Vec<u8> {
    let length = dice.pick(&[LINE_MOST, LINE_MOST + 1, LINE_MOST - 1, 120, 300]);
    let (joint, padding): (&[u8], u8) =
        dice.pick(&[(&b""[..], b'0'), (b"", b'x'), (b" ", b'x'), (b"", b' '), (b" item=", b'1')]);
    let mut long = [line, joint].concat();
    while long.len() < length {
        long.push(padding);
    }
    long
}

fn high_byte(line: &[u8], dice: &mut Dice) -> Vec<u8> {
    let mut bad = line.to_vec();
    let index = dice.below(line.len() + 1);
    bad.insert(index, dice.between(128, 255) as u8);
    bad
}

fn extra_part(line: &[u8], dice: &mut Dice) -> Vec<u8> {
    let mut parts = parts(line);
    let index = dice.below(parts.len());
    let again = parts[index].clone();
    let extra = dice.pick(&[&again[..], b"x", b"code=1", b"=", b"item=01"]).to_vec();
    let at = if dice.chance(70) { parts.len() } else { index };
    parts.insert(at, extra);
    joined(&parts)
}

fn missing_pair(line: &[u8], dice: &mut Dice) -> Vec<u8> {
    let mut parts = parts(line);
    let index = if dice.chance(50) { parts.len() - 1 } else { dice.below(parts.len()) };
    parts.remove(index);
    joined(&parts)
}

fn swapped_pairs(line: &[u8], dice: &mut Dice) -> Vec<u8> {
    let mut parts = parts(line);
    let one = dice.below(parts.len());
    let other = dice.below(parts.len());
    parts.swap(one, other);
    joined(&parts)
}

/// Changes, adds or takes away a single byte, but adds no newline.
fn one_byte(line: &[u8], dice: &mut Dice) -> Vec<u8> {
    let mut bad = line.to_vec();
    let near = [b'0', b'9', b'=', b' ', b'\r', b'\t', 0, b'-', b'a', 0xFF];
    let any = dice.below(256) as u8;
    let byte = if dice.chance(60) { dice.pick(&near) } else { any };
    let byte = if byte == b'\n' { b'\r' } else { byte };
    if bad.is_empty() || dice.chance(34) {
        let index = dice.below(bad.len() + 1);
        bad.insert(index, byte);
    } else {
        let index = dice.below(bad.len());
        if dice.chance(50) {
            bad[index] = byte;
        } else {
            bad.remove(index);
        }
    }
    bad
}

fn noise(dice: &mut Dice) -> Vec<u8> {
    let length = dice.between(1, 110);
    (0..length).map(|_| dice.below(256) as u8).filter(|&byte| byte != b'\n').collect()
}
