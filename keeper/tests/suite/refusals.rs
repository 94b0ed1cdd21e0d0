//! Refusals of reading, point by point.

use crate::help::*;

/// The refusal of a text written with slashes.
fn text(text: &str) -> (u16, usize) {
    refused(&slashes(text))
}

const HEAD: &str = "M 4/L 2 2";
const BODY: &str = "M 4/L 2 2/F 0 top 0 0/P 0 0/P 1 0";

fn after_head(lines: &str) -> (u16, usize) {
    text(&format!("{HEAD}/{lines}"))
}

fn after_body(lines: &str) -> (u16, usize) {
    text(&format!("{BODY}/{lines}"))
}

#[test]
fn order_of_kinds() {
    assert_eq!(text("L 2 2"), (1, 1));
    assert_eq!(text("M 4/M 4"), (1, 2));
    assert_eq!(text("M 4/F 0 top 0 0"), (1, 2));
    assert_eq!(after_head("L 2 2"), (1, 3));
    assert_eq!(after_head("E 0 add 0 fwd"), (1, 3));
    assert_eq!(after_head("F 0 top 0 0/P 0 0/F 1 top 0 0"), (1, 5));
    assert_eq!(after_head("F 0 top 0 0/P 0 0/G 0 0 0"), (1, 5));
    assert_eq!(after_body("P 2 0"), (1, 6));
    assert_eq!(after_body("P 2 99"), (1, 6));
    assert_eq!(after_body("G 0 0 0/E 0 add 0 fwd"), (1, 7));
    assert_eq!(after_body("R 0 0 0"), (1, 6));
    assert_eq!(text("m 4"), (1, 1));
}

#[test]
fn order_of_numbers() {
    assert_eq!(after_head("F 1 top 0 0"), (1, 3));
    assert_eq!(after_head("F 99999 top 9 9"), (1, 3));
    assert_eq!(after_head("F 0 top 0 0/F 0 top 0 0"), (1, 4));
    assert_eq!(after_head("F 0 top 0 0/P 1 0"), (1, 4));
    assert_eq!(after_head("F 0 top 0 0/P 9 9"), (1, 4));
    assert_eq!(after_body("E 1 add 0 fwd/E 0 add 99 fwd"), (1, 7));
    assert_eq!(after_body("G 0 1 1/G 0 1 1"), (1, 7));
    assert_eq!(after_body("G 1 1 1/G 0 99 99"), (1, 7));
    assert_eq!(after_body("G 0 1 2/G 0 1 1"), (1, 7));
    assert_eq!(after_body("G 0 1 2/G 0 1 3/G 0 2 0/G 1 0 0/G 1 0 0"), (1, 10));
}

#[test]
fn form() {
    let faulty = ["", "+1", "-1", "1\r", "1x", "x", "000000", "000001", "100000", "\u{661}"];
    for field in faulty {
        assert_eq!(text(&format!("M {field}")), (1, 1), "{field}");
    }
    assert_eq!(refused(b"M\t 4\n"), (1, 1));
    assert_eq!(refused(b"M 4\n"), (1, 1));
    assert_eq!(refused(b"M\t4\t\n"), (1, 1));
    assert_eq!(refused(b"M\t4\r\n"), (1, 1));
    assert_eq!(refused(b"M\t\t4\n"), (1, 1));
    assert_eq!(refused(b"M\n"), (1, 1));
    assert_eq!(refused(b"\n"), (1, 1));
    assert_eq!(refused(b"M\t4\n\nL\t2\t2\n"), (1, 2));
    assert_eq!(text("M 4 4"), (1, 1));
    assert_eq!(text("M 4/L 2"), (1, 2));
    assert_eq!(after_head("F 0 top 0"), (1, 3));
    assert_eq!(after_head("F 0 top 0 0 0"), (1, 3));
    assert_eq!(after_head("F 0 and 0 0"), (1, 3));
    assert_eq!(after_head("F 0 Top 0 0"), (1, 3));
    assert_eq!(after_head("F 0 and 9 9"), (1, 3));
    assert_eq!(after_body("E 0 put 0 fwd"), (1, 6));
    assert_eq!(after_body("E 0 add 0 forth"), (1, 6));
    assert_eq!(after_body("E 9 add 9 forth"), (1, 6));
}

#[test]
fn endings() {
    assert_eq!(refused(b"M"), (1, 1));
    assert_eq!(refused(b"M\t65"), (1, 1));
    assert_eq!(refused(b"M\t65\nL"), (2, 1));
    assert_eq!(refused(b"M\t4\n"), (1, 2));
    assert_eq!(refused(b"M\t4\nL\t0\t1\n"), (1, 3));
    assert_eq!(after_head("F 0 top 0 0/P 0 0"), (1, 5));
    let mut whole = tabs(PRESET);
    whole.pop();
    assert_eq!(refused(&whole), (1, 15));
    whole.extend(b"\nx");
    assert_eq!(refused(&whole), (1, 16));
}

/// Order, ranges and operands go by the values.
#[test]
fn padded() {
    assert_eq!(text("M 00000"), (2, 1));
    assert_eq!(text("M 00065"), (2, 1));
    assert_eq!(text("M 4/L 00 00000"), (2, 2));
    assert_eq!(after_head("F 01 top 0 0"), (1, 3));
    assert_eq!(after_head("F 00 top 00 01"), (2, 3));
    assert_eq!(after_head("F 0 top 0 0/F 01 not 00001 0"), (3, 4));
    assert_eq!(after_head("F 0 top 0 0/P 01 0"), (1, 4));
    assert_eq!(after_head("F 0 top 0 0/P 00 00001"), (2, 4));
    assert_eq!(after_body("E 01 add 0 fwd/E 0 add 0 fwd"), (1, 7));
    assert_eq!(after_body("E 0 add 000002 fwd"), (1, 6));
    assert_eq!(after_body("G 0 1 2/G 0 1 002"), (1, 7));
    assert_eq!(after_body("G 0 1 02/G 0 01 1"), (1, 7));
    assert_eq!(after_body("G 0 0 00004"), (2, 6));
    accepted(&slashes(&format!("{BODY}/G 0 002 003/G 0 3 0/G 001 0 0")));
}

#[test]
fn ranges() {
    assert_eq!(text("M 99999"), (2, 1));
    assert_eq!(text("M 4/L 17 1"), (2, 2));
    assert_eq!(text("M 4/L 0 0"), (2, 2));
    assert_eq!(text("M 4/L 0 17"), (2, 2));
    assert_eq!(after_head("F 0 top 1 0"), (2, 3));
    assert_eq!(after_head("F 0 top 0 1"), (2, 3));
    assert_eq!(after_head("F 0 var 16 0"), (2, 3));
    assert_eq!(after_head("F 0 var 15 1"), (2, 3));
    assert_eq!(after_head("F 0 top 0 0/F 1 not 0 1"), (2, 4));
    assert_eq!(after_head("F 0 top 0 0/F 1 prev 0 1"), (2, 4));
    assert_eq!(after_head("F 0 top 0 0/F 1 out 6 0"), (2, 4));
    assert_eq!(after_head("F 0 top 0 0/F 1 in 99999 0"), (2, 4));
    assert_eq!(after_head("F 0 top 0 0/F 1 bind 0 0"), (2, 4));
    assert_eq!(after_head("F 0 top 0 0/F 1 bind 16 0"), (2, 4));
    assert_eq!(after_head("F 0 top 0 0/F 1 at 16 0"), (2, 4));
    assert_eq!(after_head("P 0 0"), (2, 3));
    assert_eq!(after_head("F 0 top 0 0/P 0 1"), (2, 4));
    assert_eq!(after_body("E 2 add 0 fwd"), (2, 6));
    assert_eq!(after_body("E 0 add 2 fwd"), (2, 6));
    assert_eq!(after_body("G 2 0 0"), (2, 6));
    assert_eq!(after_body("G 0 4 0"), (2, 6));
    assert_eq!(after_body("G 0 0 4"), (2, 6));
    let five = ["E 1 del 1 back"; 5].join("/");
    assert_eq!(after_body(&five), (2, 10));
    assert_eq!(text("M 4/L 0 1/F 0 top 0 0/P 0 0/G 0 0 0"), (2, 5));
}

#[test]
fn operands() {
    assert_eq!(after_head("F 0 not 99999 0"), (3, 3));
    assert_eq!(after_head("F 0 not 0 1"), (2, 3));
    assert_eq!(after_head("F 0 out 6 0"), (2, 3));
    assert_eq!(after_head("F 0 out 5 0"), (3, 3));
    assert_eq!(after_head("F 0 top 0 0/F 1 or 0 1"), (3, 4));
    assert_eq!(after_head("F 0 top 0 0/F 1 or 1 0"), (3, 4));
    assert_eq!(after_head("F 0 top 0 0/F 1 since 0 256"), (3, 4));
    assert_eq!(after_head("F 0 bind 1 0"), (3, 3));
    assert_eq!(after_head("F 0 bind 0 0"), (2, 3));
    assert_eq!(after_head("F 0 at 0 0"), (3, 3));
}

#[test]
fn many_entries() {
    let with = |count: usize, last: &str| {
        let lines = (0..count).map(|entry| format!("F {entry} top 0 0/"));
        format!("{HEAD}/{}{last}", lines.collect::<String>())
    };
    accepted(&slashes(&with(256, "P 0 255/P 1 0")));
    assert_eq!(text(&with(256, "F 256 top 0 0")), (2, 259));
    assert_eq!(text(&with(256, "F 256 not 256 0")), (2, 259));
    assert_eq!(text(&with(256, "F 257 top 0 0")), (1, 259));
    assert_eq!(text(&with(256, "F 256 and 0 0")), (1, 259));
    assert_eq!(text(&with(256, "P 0 256")), (2, 259));
}

#[test]
fn free_variables() {
    let vars = "F 0 var 1 0/F 1 var 0 0";
    // Two are too many for 17 members, three for any number.
    let of_17 = |lines: &str| text(&format!("M 17/L 2 2/{vars}/{lines}"));
    for line in ["F 2 since 0 1", "F 2 since 1 0"] {
        assert_eq!(of_17(line), (4, 5));
        assert_eq!(after_head(&format!("{vars}/{line}")), (1, 6), "the text ends too soon");
    }
    for lines in ["F 2 at 2 0/F 3 prev 2 0", "F 2 or 0 1/F 3 prev 2 0"] {
        assert_eq!(of_17(lines), (4, 6));
        assert_eq!(after_head(&format!("{vars}/{lines}")), (1, 7), "the text ends too soon");
    }
    assert_eq!(after_head(&format!("{vars}/F 2 at 2 0/F 3 since 2 1")), (4, 6));
    assert_eq!(after_head(&format!("{vars}/F 2 at 2 0/F 3 or 1 2/F 4 prev 3 0")), (4, 7));
    assert_eq!(text("M 1/L 0 1/F 0 var 5 0/F 1 at 6 0/F 2 at 7 1/F 3 prev 2 0"), (4, 6));
    accepted(&slashes(&format!("M 16/L 2 2/{vars}/F 2 since 0 1/F 3 bind 1 2/P 0 3/P 1 1")));
    accepted(&slashes(&format!("M 1/L 2 2/{vars}/F 2 since 0 1/F 3 bind 1 2/P 0 3/P 1 1")));
    assert_eq!(after_head(&format!("{vars}/P 0 0")), (5, 5));
    assert_eq!(after_head(&format!("{vars}/F 2 at 1 1/P 0 2")), (5, 6));
    assert_eq!(after_head(&format!("{vars}/F 2 bind 2 0/P 0 1/P 1 2")), (5, 7));
    accepted(&slashes(&format!("{HEAD}/{vars}/F 2 bind 1 0/F 3 since 2 1/P 0 3/P 1 1")));
    accepted(&slashes(&format!("{HEAD}/{vars}/F 2 since 0 0/F 3 bind 1 2/P 0 3/P 1 1")));
}

#[test]
fn thirty_third_past_entry_beats_later_faults() {
    let past = (1..=32).map(|entry| format!("/F {entry} prev 0 0"));
    let full = format!("{HEAD}/F 0 var 1 0{}", past.collect::<String>());
    assert_eq!(text(&format!("{full}/F 33 prev 33 0")), (2, 36));
    assert_eq!(text(&format!("{full}/F 33 at 2 0/F 34 at 3 33/F 35 prev 34 0")), (2, 38));
    assert_eq!(text(&format!("{full}/F 33 not 33 0")), (3, 36));
}

#[test]
fn reach() {
    // Entries 0 to 4: var 1, top, out 0 of var 1, var 0, var 2.
    let lines = "F 0 var 1 0/F 1 top 0 0/F 2 out 0 0/F 3 var 0 0/F 4 var 2 0";
    let after = |line: &str| after_head(&format!("{lines}/{line}"));
    let sound = |line: &str| {
        accepted(&slashes(&format!("{HEAD}/{lines}/F 5 {line}/F 6 bind 2 5/P 0 6/P 1 1")));
    };
    for line in ["reach 1 2 3", "reach 1 2 4", "reach 15 1 3", "reach 1 0 1"] {
        sound(line);
    }
    assert_eq!(after("F 5 reach 1 2"), (1, 8));
    assert_eq!(after("F 5 reach 1 2 3 0"), (1, 8));
    assert_eq!(after("F 5 reach 1 2 x"), (1, 8));
    assert_eq!(after("F 5 top 0 0 0"), (1, 8));
    assert_eq!(after("F 5 reach 16 9 9"), (2, 8));
    assert_eq!(after("F 5 reach 0 5 3"), (3, 8));
    assert_eq!(after("F 5 reach 0 2 5"), (3, 8));
    assert_eq!(after("F 5 reach 0 1 1"), (10, 8));
    assert_eq!(after("F 5 reach 1 3 1"), (10, 8));
    assert_eq!(after("F 5 reach 2 2 1"), (10, 8));
    assert_eq!(after("F 5 reach 1 2 0"), (10, 8));
    assert_eq!(after("F 5 reach 1 2 4/P 0 5"), (5, 9));
    assert_eq!(after("F 5 reach 1 2 4/F 6 at 1 5/F 7 since 6 3"), (4, 10));
}

#[test]
fn many() {
    // Labels are 0 to 5.
    let after = |line: &str| after_head(&format!("F 0 top 0 0/{line}"));
    for line in ["many 0 0 1", "many 5 0 64", "many 0 0 00002", "many 03 00 01"] {
        accepted(&slashes(&format!("{HEAD}/F 0 top 0 0/F 1 {line}/P 0 1/P 1 0")));
    }
    assert_eq!(after("F 1 many 0 0"), (1, 4));
    assert_eq!(after("F 1 many 0 0 1 0"), (1, 4));
    assert_eq!(after("F 1 many 0 0 x"), (1, 4));
    assert_eq!(after("F 1 many 0 0 000001"), (1, 4));
    assert_eq!(after("F 1 out 0 0 1"), (1, 4));
    assert_eq!(after("F 1 many 0 0 0"), (2, 4));
    assert_eq!(after("F 1 many 0 0 65"), (2, 4));
    assert_eq!(after("F 1 many 0 0 99999"), (2, 4));
    assert_eq!(after("F 1 many 6 0 1"), (2, 4));
    assert_eq!(after("F 1 many 0 1 0"), (2, 4));
    assert_eq!(after("F 1 many 0 1 1"), (3, 4));
    assert_eq!(after("F 1 var 1 0/F 2 many 0 1 2/P 0 2"), (5, 6));
    assert_eq!(after("F 1 var 1 0/F 2 at 0 1/F 3 at 2 2/F 4 many 0 3 2/F 5 prev 4 0"), (4, 8));
}
