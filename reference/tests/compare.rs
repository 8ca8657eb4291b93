//! The comparison: equal answers pass, any difference is shown and fails, and
//! so does a long run in which something never occurred.

use reference::compare::compare;

const OK: &str = "ok value 0 zero 0 ; big - - 3 ; - ; - ; -\n";

fn compared(cases: &str, expected: &str, found: &str) -> (bool, String) {
    let inputs = [cases, expected, found].map(str::as_bytes);
    let mut output = Vec::new();
    let equal = compare(inputs, &mut output).unwrap();
    (equal, String::from_utf8(output).unwrap())
}

#[test]
fn equal_answers() {
    let answers = format!("{OK}refused question 8 512\nbad line\ntoo long\n");
    let (equal, text) = compared("a\nb\nc\nd\n", &answers, &answers);
    assert!(equal);
    let rows: Vec<&str> = text.lines().collect();
    assert_eq!(rows[1], "evaluator     1         0     0     0     0     -");
    assert_eq!(rows[2], "rewriter      0         0     0     0     -     1");
    assert!(rows[5].starts_with("question      -     0     0     0     -     -     0     1"));
    assert_eq!(rows[6], "no case: 1 bad lines, 1 too long");
    assert_eq!(rows[7], "differences: 0");
}

#[test]
fn the_smallest_difference_comes_first() {
    let found = OK.replace('3', "4");
    let expected = [OK, OK, OK].concat();
    let (equal, text) = compared("long\nsame\nx\n", &expected, &[&found, OK, &found].concat());
    assert!(!equal);
    let shown = text.split_once("line ").unwrap().1;
    assert!(shown.starts_with("3, 1 bytes: x\n    expected ok "));
    assert!(shown.contains("line 1, 4 bytes: long\n"));
    assert!(shown.ends_with("differences: 2\n"));
}

#[test]
fn a_late_difference_is_seen() {
    let line = |end: &str| format!("{}{end}\n", "1,".repeat(5_000));
    let (equal, text) = compared("x\n", &line("2"), &line("3,4"));
    assert!(!equal);
    assert!(text.contains("1,2... (from byte 9900 of 10001)\n"));
    assert!(text.contains("1,3,4... (from byte 9900 of 10003)\n"));
}

#[test]
fn lines_that_are_missing_or_too_many() {
    let two = [OK, OK].concat();
    assert!(compared("a\nb\n", &two, &two).0);
    let (equal, text) = compared("a\nb\n", &two, OK);
    assert!(!equal && text.contains("found    (no line)\n"));
    assert!(!compared("a\n", OK, &two).0);
    assert!(!compared("a\n", &two, &two).0);
    // No cases are no test.
    assert!(!compared("", "", "").0);
}

#[test]
fn a_long_run_without_some_ending() {
    let cases = "a\n".repeat(2_000);
    let answers = OK.repeat(2_000);
    let (equal, text) = compared(&cases, &answers, &answers);
    assert!(!equal);
    assert!(text.contains("never in 2000 lines: rewriter value\n"));
    assert!(!text.contains("never in 2000 lines: evaluator value\n"));
    assert!(!text.contains("never in 2000 lines: evaluator big\n"));
}
