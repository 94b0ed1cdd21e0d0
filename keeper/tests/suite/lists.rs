//! The file of cases, and what its cases give.

use keeper::cases::printed;
use keeper::cases::source::cases;

const TEXT: &str = "head\tM 2/L 0 1/F 0 top 0 0/P 0 0/\n";

/// The result of one case after a head.
fn result(case: &str) -> Option<String> {
    let printed = printed(format!("{TEXT}{case}\n").as_bytes()).ok()?;
    Some(printed.strip_prefix("label\t")?.strip_suffix('\n')?.to_string())
}

#[test]
fn lines_of_the_file() {
    let file = b"# a comment\n\nreads\tfirst\tM_3~/^|%\nhead\tM 3/\nasks\tsecond\t0\t1\t2\n";
    let cases = cases(file);
    assert_eq!(cases.len(), 2);
    assert_eq!((&cases[0].kind[..], &cases[0].label[..]), ("reads", "first"));
    assert_eq!((&cases[0].head[..], cases[0].count()), (&b""[..], 1));
    assert_eq!(cases[0].text(0).unwrap(), b"M 3\r\n\0/\xff");
    assert_eq!((&cases[1].head[..], cases[1].count()), (&b"M\t3\n"[..], 3));
    assert_eq!((cases[1].size(2), cases[1].size(3)), (Some(2), None));
}

#[test]
fn results_of_cases() {
    assert_eq!(result("reads\tlabel\tM 65/").unwrap(), "2\t1");
    assert_eq!(result("reads_parts\tlabel\tP 1 0/").unwrap(), "1\t5");
    assert_eq!(result("reads_lines\tlabel\tP \t1\t2\t 0/\t").unwrap(), "1\t5");
    assert_eq!(result("reads_into\tlabel\t1251\t3073").unwrap(), "6\t0");
    assert_eq!(result("reads_parts\tlabel\tP 01 00/").unwrap(), "1\t5");
    assert_eq!(result("asks\tlabel\t0\t0\t1").unwrap(), "grant");
    assert_eq!(result("looks\tlabel\t1\t0\t1").unwrap(), "refuse\t9");
    assert_eq!(result("asks_with\tlabel\t1252\t3073\t63\t1\t0\t1").unwrap(), "refuse\t6");
    assert_eq!(result("asks_damaged_terms\tlabel\t0\t0").unwrap(), "refuse\t7");
    assert_eq!(result("asks_damaged_state\tlabel\t0\t1").unwrap(), "refuse\t8");
    // Words that were changed within the layout stand for a record.
    assert_eq!(result("asks_damaged_terms\tlabel\t0\t3").unwrap(), "grant");
    assert_eq!(result("asks_damaged_state\tlabel\t3072\t1").unwrap(), "grant");
    assert_eq!(result("writes\tlabel\t1252\t3073\t27").unwrap(), "6\t0");
    assert_eq!(result("writes_back\tlabel").unwrap(), "bytes\t28");
    assert_eq!(result("writes_after\tlabel\t1\t0\t1\tM 2/").unwrap(), "different");
    assert_eq!(result("writes_after\tlabel\t0\t0\t1\tM 2/").unwrap(), "12\t0");
    let stored = "S 2/M 2/L 0 1/F 0 top 0 0/P 0 0/V 0 0 1/";
    assert_eq!(result(&format!("stores_after\tlabel\t0\t0\t1\t{stored}")).unwrap(), "bytes\t40");
    assert_eq!(result("stores_back\tlabel").unwrap(), "different");
    assert_eq!(result("stores\tlabel\t1252\t3073\t31").unwrap(), "6\t0");
    assert_eq!(result("stores_damaged_state\tlabel\t3072\t1").unwrap(), "bytes\t40");
    assert_eq!(result("asks_stored\tlabel\t0\t0\t1\t0\t1\t0").unwrap(), "grant");
}

#[test]
fn cases_without_a_result() {
    assert_eq!(result("asks_damaged_terms\tlabel\t1252\t3"), None);
    assert_eq!(result("writes_damaged_terms\tlabel\t1252\t3"), None);
    assert_eq!(result("reads_backwards\tlabel\tM 65/"), None);
    assert_eq!(result("reads\tlabel"), None);
    assert_eq!(result("asks\tlabel\t0\t0\tx"), None);
    assert!(printed(b"reads\tone\tM 0/\nreads\tone\tM 0/\n").unwrap_err().contains("one"));
}
