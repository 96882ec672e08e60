//! Small scripts whose answers can be worked out by hand.

use reference::player;

/// Plays the lines of a script and gives its answer lines.
fn answers(lines: &[String]) -> Vec<String> {
    let script = lines.join("\n") + "\n";
    answers_of(script.as_bytes())
}

fn answers_of(script: &[u8]) -> Vec<String> {
    player::play(script).text().lines().map(str::to_string).collect()
}

/// The last so many answers, without their line numbers.
fn last(lines: &[String], count: usize) -> Vec<String> {
    let all = answers(lines);
    all[all.len() - count..].iter().map(|line| without_number(line)).collect()
}

fn without_number(answer: &str) -> String {
    answer.split_once(' ').expect("an answer has four numbers").1.to_string()
}

/// A guest reads item 0 and writes item 1; meanwhile a member writes item 0
/// and commits.
const GUEST_IS_PASSED: [&str; 11] = [
    "board=drive items=2 seats=2 rule=warp",
    "op=admit seat=0 class=member",
    "op=admit seat=1 class=guest",
    "op=begin seat=0 pass=1 mode=update",
    "op=begin seat=1 pass=2 mode=update",
    "op=read seat=1 pass=2 item=0",
    "op=write seat=1 pass=2 item=1 code=7",
    "op=write seat=0 pass=1 item=0 code=5",
    "op=commit seat=0 pass=1",
    "op=commit seat=1 pass=2",
    "op=show item=1",
];

/// That script with another header and with lines put in after the lines
/// with the given numbers, counted from 1.
fn guest_is_passed(header: &str, put_in: &[(usize, &[&str])]) -> Vec<String> {
    let mut lines = vec![header.to_string()];
    for (index, line) in GUEST_IS_PASSED.iter().enumerate().skip(1) {
        lines.push(line.to_string());
        for (_, more) in put_in.iter().filter(|(after, _)| *after == index + 1) {
            lines.extend(more.iter().map(|line| line.to_string()));
        }
    }
    lines
}

#[test]
fn a_missed_version_warps_the_commit() {
    let lines = guest_is_passed(GUEST_IS_PASSED[0], &[]);
    let expected = [
        "2 0 1 0", "3 0 2 0", "4 0 1 0", "5 0 1 0", "6 0 0 0", "7 0 0 0", "8 0 0 0", "9 0 2 2",
        "10 0 3 2", "11 0 7 0",
    ];
    assert_eq!(answers(&lines), expected);
}

#[test]
fn the_answers_are_printed_to_the_byte() {
    let script = GUEST_IS_PASSED.join("\n");
    let printed = "2 0 1 0\n3 0 2 0\n4 0 1 0\n5 0 1 0\n6 0 0 0\n7 0 0 0\n8 0 0 0\n9 0 2 2\n\
                   10 0 3 2\n11 0 7 0\n";
    assert_eq!(player::play(script.as_bytes()).text(), printed);
    assert_eq!(player::play(format!("{script}\n").as_bytes()).text(), printed);
}

#[test]
fn home_and_now_refuse_the_guest() {
    for rule in ["home-warp", "now", "home-now"] {
        let header = format!("board=drive items=2 seats=2 rule={rule}");
        let lines = guest_is_passed(&header, &[]);
        assert_eq!(last(&lines, 3), ["0 2 2", "14 0 0", "0 0 0"], "{rule}");
    }
}

#[test]
fn home_lets_a_member_be_warped() {
    let header = "board=drive items=2 seats=2 rule=home-warp";
    let lines: Vec<String> = guest_is_passed(header, &[])
        .iter()
        .map(|line| line.replace("class=guest", "class=member"))
        .collect();
    assert_eq!(last(&lines, 2), ["0 3 2", "0 7 0"]);
}

#[test]
fn a_reader_of_the_written_item_overtakes() {
    let reader: &[&str] = &["op=begin seat=0 pass=1 mode=reader", "op=read seat=0 pass=1 item=1"];
    let lines = guest_is_passed(GUEST_IS_PASSED[0], &[(9, reader)]);
    assert_eq!(last(&lines, 4), ["0 2 0", "0 0 0", "14 0 0", "0 0 0"]);
}

#[test]
fn a_missed_warped_version_is_refused() {
    let begins: &[&str] = &[
        "op=admit seat=2 class=member",
        "op=begin seat=2 pass=3 mode=update",
        "op=read seat=2 pass=3 item=1",
    ];
    let commits: &[&str] = &["op=commit seat=2 pass=3"];
    let header = "board=drive items=2 seats=3 rule=warp";
    let lines = guest_is_passed(header, &[(5, begins), (10, commits)]);
    assert_eq!(last(&lines, 3), ["0 3 2", "14 1 0", "0 7 0"]);
}

#[test]
fn a_write_at_a_taken_place_is_skipped() {
    let begins: &[&str] = &[
        "op=admit seat=2 class=member",
        "op=begin seat=2 pass=3 mode=update",
        "op=read seat=2 pass=3 item=0",
        "op=write seat=2 pass=3 item=1 code=9",
    ];
    let commits: &[&str] = &["op=commit seat=2 pass=3"];
    let header = "board=drive items=2 seats=3 rule=warp";
    let lines = guest_is_passed(header, &[(5, begins), (10, commits)]);
    assert_eq!(last(&lines, 3), ["0 3 2", "0 4 2", "0 7 0"]);
}

/// One update of seat 1 that writes the item and commits.
fn one_commit(item: u32, code: u32) -> [String; 3] {
    [
        "op=begin seat=1 pass=2 mode=update".to_string(),
        format!("op=write seat=1 pass=2 item={item} code={code}"),
        "op=commit seat=1 pass=2".to_string(),
    ]
}

#[test]
fn an_open_reader_fills_the_version_list() {
    let mut lines: Vec<String> = [
        "board=drive items=1 seats=2 rule=now",
        "op=admit seat=0 class=member",
        "op=admit seat=1 class=member",
        "op=begin seat=0 pass=1 mode=reader",
    ]
    .map(str::to_string)
    .to_vec();
    for code in 1..=7 {
        lines.extend(one_commit(0, code));
        let granted = format!("0 {0} {0}", code + 1);
        assert_eq!(last(&lines, 1), [granted]);
    }
    lines.extend(one_commit(0, 8));
    assert_eq!(last(&lines, 3), ["0 8 0", "0 0 0", "15 0 0"]);
    lines.push("op=commit seat=0 pass=1".to_string());
    assert_eq!(last(&lines, 1), ["0 0 1"]);
    lines.extend(one_commit(0, 9));
    assert_eq!(last(&lines, 1), ["0 9 9"]);
    lines.push("op=show item=0".to_string());
    assert_eq!(last(&lines, 1), ["0 9 0"]);
}

#[test]
fn the_highest_code_of_each_kind_passes() {
    for (board, highest) in [("drive", 8_381), ("switch", 34)] {
        let lines = [
            format!("board={board} items=1 seats=1 rule=now"),
            "op=admit seat=0 class=guest".to_string(),
            "op=begin seat=0 pass=1 mode=update".to_string(),
            format!("op=write seat=0 pass=1 item=0 code={highest}"),
            format!("op=write seat=0 pass=1 item=0 code={}", highest + 1),
            "op=commit seat=0 pass=1".to_string(),
            "op=show item=0".to_string(),
        ];
        let shown = format!("0 {highest} 0");
        assert_eq!(last(&lines, 4), ["0 0 0", "11 0 0", "0 2 2", shown.as_str()], "{board}");
    }
}

#[test]
fn a_revoked_pass_stays_refused() {
    let lines = [
        "board=switch items=1 seats=1 rule=now",
        "op=admit seat=0 class=member",
        "op=begin seat=0 pass=1 mode=update",
        "op=revoke seat=0",
        "op=commit seat=0 pass=1",
        "op=begin seat=0 pass=1 mode=update",
        "op=admit seat=0 class=member",
        "op=commit seat=0 pass=1",
        "op=begin seat=0 pass=1 mode=update",
        "op=commit seat=0 pass=2",
        "op=begin seat=0 pass=2 mode=update",
    ]
    .map(str::to_string);
    let expected = ["5 0 0", "5 0 0", "0 2 0", "6 0 0", "6 0 0", "8 0 0", "0 1 0"];
    assert_eq!(last(&lines, 7), expected);
}

#[test]
fn an_old_update_is_itself_too_long_ago() {
    // No reader is open: the committing transaction itself holds the anchor.
    let mut lines: Vec<String> = [
        "board=drive items=1 seats=2 rule=warp",
        "op=admit seat=0 class=member",
        "op=admit seat=1 class=member",
        "op=begin seat=0 pass=1 mode=update",
    ]
    .map(str::to_string)
    .to_vec();
    for code in 1..=7 {
        lines.extend(one_commit(0, code));
    }
    lines.push("op=write seat=0 pass=1 item=0 code=99".to_string());
    lines.push("op=commit seat=0 pass=1".to_string());
    assert_eq!(last(&lines, 2), ["0 0 0", "15 0 0"]);
    lines.extend(one_commit(0, 8));
    assert_eq!(last(&lines, 1), ["0 9 9"]);
}

#[test]
fn a_skipped_write_fits_into_a_full_list() {
    let mut lines: Vec<String> = [
        "board=drive items=2 seats=2 rule=warp",
        "op=admit seat=0 class=member",
        "op=admit seat=1 class=member",
        "op=begin seat=0 pass=1 mode=update",
        "op=read seat=0 pass=1 item=1",
        "op=begin seat=1 pass=2 mode=update",
        "op=write seat=1 pass=2 item=1 code=1",
        "op=write seat=1 pass=2 item=0 code=1",
        "op=commit seat=1 pass=2",
    ]
    .map(str::to_string)
    .to_vec();
    for code in 2..=7 {
        lines.extend(one_commit(0, code));
    }
    lines.push("op=write seat=0 pass=1 item=0 code=99".to_string());
    lines.push("op=commit seat=0 pass=1".to_string());
    lines.push("op=show item=0".to_string());
    assert_eq!(last(&lines, 2), ["0 9 2", "0 7 0"]);
}

#[test]
fn headers_and_their_faults() {
    let cases: [(&[u8], &str); 17] = [
        (b"", "1 17 0 0"),
        (b"\n", "1 17 0 0"),
        (b"board=drive", "1 17 11 0"),
        (b"board=drive ", "1 17 12 0"),
        (b"board=tram items=x", "1 17 0 0"),
        (b"board=drive items=x", "1 18 18 0"),
        (b"board=drive items= seats=1 rule=now", "1 18 18 0"),
        (b"board=drive items seats=1 rule=now", "1 17 12 0"),
        (b"board=drive items=01 seats=1 rule=no", "1 18 18 0"),
        (b"board=drive items=1 seats=1 rule=no", "1 17 28 0"),
        (b"board=drive items=1 seats=1 rule=now x", "1 17 37 0"),
        (b"board=drive items=1 seats=1 rule=now\r\nop=show item=0", "1 17 28 0"),
        (b"board=drive items=0 seats=1 rule=now\nop=show item=0", "1 1 0 0"),
        (b"board=drive items=257 seats=1 rule=now", "1 1 0 0"),
        (b"board=drive items=1 seats=33 rule=now", "1 1 0 0"),
        (b"board=drive items=1 seats=9999999 rule=now", "1 1 0 0"),
        (b"board=drive items=1 seats=10000000 rule=now", "1 18 26 0"),
    ];
    for (script, answer) in cases {
        assert_eq!(answers_of(script), [answer], "{}", script.escape_ascii());
    }
    assert!(answers_of(b"board=drive items=256 seats=32 rule=home-warp").is_empty());
    assert!(answers_of(b"board=switch items=1 seats=1 rule=home-now\n").is_empty());
}

#[test]
fn lines_and_their_faults() {
    let cases: [(&[u8], &str); 21] = [
        (b"", "17 0 0"),
        (b" op=show item=0", "17 0 0"),
        (b"op=show  item=0", "17 8 0"),
        (b"op=show item=0 ", "17 15 0"),
        (b"op=show item=0 item=0", "17 15 0"),
        (b"op=show", "17 7 0"),
        (b"op=jump item=x", "17 0 0"),
        (b"Op=show item=0", "17 0 0"),
        (b"op=show item==0", "18 13 0"),
        (b"op=show item=", "18 13 0"),
        (b"op=show item", "17 8 0"),
        (b"op=show item=0\r", "18 13 0"),
        (b"op=show item=00", "18 13 0"),
        (b"op=show item=12345678", "18 13 0"),
        (b"op=show item=9999999", "9 0 0"),
        (b"op=show item=0", "0 0 0"),
        (b"op=show item=x y", "18 13 0"),
        (b"op=read seat=x item=0", "18 13 0"),
        (b"op=read seat=0 item=x", "17 15 0"),
        (b"op=admit seat=0 class=Guest", "17 16 0"),
        (b"op=show item=\xB2", "18 13 0"),
    ];
    let header: &[u8] = b"board=drive items=1 seats=1 rule=now\n";
    for (line, answer) in cases {
        // A newline ends the line, so that an empty one is a line too.
        let script = [header, line, b"\n"].concat();
        assert_eq!(answers_of(&script), [format!("2 {answer}")], "{}", line.escape_ascii());
    }
}

#[test]
fn a_line_has_at_most_96_bytes() {
    for (length, answer) in [(96, "2 17 15 0"), (97, "2 16 0 0")] {
        let mut script = b"board=drive items=1 seats=1 rule=now\nop=show item=0 ".to_vec();
        let line_start = 37;
        script.resize(line_start + length, b'x');
        assert_eq!(answers_of(&script), [answer]);
    }
}

#[test]
fn a_script_has_at_most_32768_bytes() {
    let mut script = b"board=drive items=1 seats=1 rule=now\n".to_vec();
    script.resize(32_767, b'\n');
    script.push(b'\n');
    let all = answers_of(&script);
    assert_eq!(all.len(), 32_768 - 37);
    assert!(all.iter().all(|line| without_number(line) == "17 0 0"));
    script.push(b'\n');
    assert_eq!(answers_of(&script), ["0 16 0 0"]);
    assert_eq!(answers_of(&b"x".repeat(32_769)), ["0 16 0 0"]);
    assert_eq!(answers_of(&b"x".repeat(32_768)), ["1 16 0 0"]);
}
