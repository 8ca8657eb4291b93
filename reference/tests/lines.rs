//! Lines of input, good and bad, as every program that answers cases takes
//! them; and the repository's stored cases.

use reference::lines::{answer_all, Lines};
use std::path::Path;

fn answers(input: &[u8]) -> (String, Lines) {
    let mut output = Vec::new();
    let lines = answer_all(input, &mut output).unwrap();
    (String::from_utf8(output).unwrap(), lines)
}

const GOOD: &str = "ok value 0 zero 0 ; value 0 zero 0 ; - ; 1 ; -\n";

#[test]
fn no_case() {
    let lines: [&[u8]; 26] = [
        b"",
        b" ",
        b"\r",
        b"\0",
        b"\xff",
        b"04",
        b"04 10",
        b"04 10 0 1 1 0 1",
        b"04 10 0 1 1 0 1 ",
        b"04 10 0 1 1 0 1 1 ",
        b" 04 10 0 1 1 0 1 1",
        b"04  10 0 1 1 0 1 1",
        b"04 10 0 1 1 0 1 1 1",
        b"04\t10 0 1 1 0 1 1",
        b"04 10 0 1 1 0 1 1\r",
        b"04 10 0 1 1 0 1 1\0",
        b"04 1 0 1 1 0 1 1",
        b"04 1F 0 1 1 0 1 1",
        b"04 1g 0 1 1 0 1 1",
        b"04 -- 0 1 1 0 1 1",
        b"04 \xc3\xa9 0 1 1 0 1 1",
        b"04 10 -1 1 1 0 1 1",
        b"04 10 +1 1 1 0 1 1",
        b"04 10 a 1 1 0 1 1",
        b"04 10 - 1 1 0 1 1",
        b"04 10 0 1 1 0 1 1 \xff",
    ];
    for line in lines {
        let (answer, lines) = answers(&[line, b"\n"].concat());
        assert_eq!(answer, "bad line\n", "{}", line.escape_ascii());
        assert_eq!((lines.all, lines.no_case), (1, 1));
    }
}

#[test]
fn numbers_of_any_length() {
    assert_eq!(answers(b"04 10 000 01 1 0 0001 1\n").0, GOOD);
    let large = "18446744073709551616";
    let slices = format!("04 10 0 1 1 {large} {large} {large}\n");
    assert_eq!(answers(slices.as_bytes()).0, GOOD);
    for numbers in [[large, "1", "1"], ["0", large, "1"], ["0", "1", large]] {
        let line = format!("04 10 {} 0 1 1\n", numbers.join(" "));
        assert_eq!(answers(line.as_bytes()).0, "refused program 12 0\n");
    }
}

#[test]
fn the_ends_of_lines() {
    let line = "04 10 0 1 1 0 1 1";
    assert_eq!(answers(b""), (String::new(), Lines::default()));
    assert_eq!(answers(line.as_bytes()).0, GOOD);
    assert_eq!(answers(b"\n\n").0, "bad line\nbad line\n");
    let (answer, lines) = answers(format!("{line}\n{line}\n04").as_bytes());
    assert_eq!(answer, format!("{GOOD}{GOOD}bad line\n"));
    assert_eq!((lines.all, lines.no_case), (3, 1));
}

#[test]
fn long_lines() {
    for (length, expected) in [
        (60_000, GOOD),
        (60_001, "too long\n"),
        (90_000, "too long\n"),
    ] {
        let line = format!("04 10 0 1 1 0 1 {}1", "0".repeat(length - 17));
        assert_eq!(line.len(), length);
        assert_eq!(answers(line.as_bytes()).0, expected);
        let more = format!("{line}\n04 10 0 1 1 0 1 1\n");
        assert_eq!(answers(more.as_bytes()).0, format!("{expected}{GOOD}"));
    }
}

#[test]
fn stored_cases() {
    let folder = Path::new(env!("CARGO_MANIFEST_DIR")).join("../crates/answers");
    let cases = std::fs::read(folder.join("stdin")).expect("the stored cases");
    let expected = std::fs::read_to_string(folder.join("stdout")).expect("the stored answers");
    let (found, lines) = answers(&cases);
    assert!(lines.all > 400, "{} stored cases", lines.all);
    assert_eq!(lines.all as usize, expected.lines().count());
    for (i, (found, expected)) in found.lines().zip(expected.lines()).enumerate() {
        assert_eq!(found, expected, "line {}", i + 1);
    }
    assert_eq!(found, expected);
}
