//! Document 01's sums checked by hand, its figures for a call without end, its
//! program's example, the level counts, and the built-ins on small values.

use reference::calls;
use reference::checker::Refusal;
use reference::lines::{answer_text, from_hex, program_output};

const STEPS: u64 = 100_000;
const LEVELS: u64 = 500;
const ROOM: u64 = 4_096;

fn bytes(hex: &str) -> Vec<u8> {
    let digits: String = hex.split_whitespace().collect();
    from_hex(digits.as_bytes()).expect("hex")
}

fn evaluate(program: &str, question: &str, steps: u64, levels: u64) -> Result<String, Refusal> {
    calls::evaluate(&bytes(program), &bytes(question), steps, levels).map(answer_text)
}

fn rewrite(program: &str, question: &str, steps: u64, room: u64) -> Result<String, Refusal> {
    let mut own = vec![0; 15_504];
    let mut first = vec![0; 4_096];
    let mut second = vec![0; 4_096];
    calls::rewrite(
        &bytes(program),
        &bytes(question),
        steps,
        room,
        &mut own,
        &mut first,
        &mut second,
    )
    .map(answer_text)
}

/// Both engines give this answer.
fn both(program: &str, question: &str, answer: &str) {
    let expected = Ok(answer.to_string());
    let evaluated = evaluate(program, question, STEPS, LEVELS);
    assert_eq!(evaluated, expected, "{question}");
    let rewritten = rewrite(program, question, STEPS, ROOM);
    assert_eq!(rewritten, expected, "{question}");
}

const A_AND_B: &str = "0100 0101 04";
const FIGURE_2: &str = "0100 0101 020001 0300 1400 1600 1800 1500 1900 10 11 10 04";
const FIGURE_5: &str = "0100 0101 020001 0300 1400 1600 17 12 1500 1900 1400 11 10 04";
const FIGURE_8: &str = "020001 0300 10 11 10 0300 11 1400 1801 11 1400 1900 1400 04";
const LOOP: &str = "020001 0300 1400 1900 1400 04";

#[test]
fn the_table_of_sums() {
    let table = [
        (A_AND_B, "11 11 10", "value 2 zero 0"),
        (A_AND_B, "11 1500", "exception 0 - 2"),
        (A_AND_B, "1600 11 10 10", "value 1 zero 4"),
        (A_AND_B, "1600 1500 11 10", "value 1 zero 4"),
        (A_AND_B, "1600 1501 10", "exception 1 - 4"),
        (A_AND_B, "17 10 12 13", "stuck 0 - 0"),
        (A_AND_B, "17 1500 10 10", "exception 0 - 2"),
        (A_AND_B, "1800 10 10", "value 0 zero 8"),
        (A_AND_B, "1800 11 10 10", "value 1 zero 17"),
        (A_AND_B, "1800 12 10", "stuck 0 - 7"),
        (A_AND_B, "1800 11 17 10 10 10 10", "stuck 0 - 3"),
        (A_AND_B, "1800 1500 1501", "exception 0 - 5"),
        (FIGURE_2, "1900 10", "value 1 zero 13"),
        (FIGURE_5, "1900 10", "value 1 zero 10"),
        (FIGURE_8, "1900 11 10", "value 1 zero 47"),
    ];
    for (program, question, answer) in table {
        both(program, question, answer);
    }
}

/// A built-in called on two numbers.
fn on_numbers(builtin: usize, m: usize, n: usize) -> String {
    let number = |n| "11".repeat(n) + "10";
    format!("18{builtin:02x} {} {}", number(m), number(n))
}

#[test]
fn comparing_numbers() {
    for (m, n) in (0..7).flat_map(|m| (0..7).map(move |n| (m, n))) {
        // <=, < and = take one call for each succ that both have, and one.
        let compared = (m.min(n) + 1) * (m.max(n) + 8);
        // >=, > and <> are a call more, which pays for both numbers once.
        let call = m + n + 8;
        let not = 5;
        for (builtin, truth, steps) in [
            (3, m <= n, compared),
            (4, m < n, compared),
            (5, m == n, compared),
            (6, m >= n, call + compared),
            (7, m > n, call + compared),
            (8, m != n, call + compared + not),
        ] {
            let answer = format!("value 0 {truth} {steps}");
            both("04", &on_numbers(builtin, m, n), &answer);
        }
    }
}

#[test]
fn dividing_numbers() {
    for (m, d) in (0..14).flat_map(|m| (0..6).map(move |d| (m, d))) {
        if d == 0 {
            // The call and its arguments are paid, and no rule fits.
            let answer = format!("stuck 0 - {}", m + 7);
            both("04", &on_numbers(9, m, 0), &answer);
            both("04", &on_numbers(10, m, 0), &answer);
            continue;
        }
        let (q, r) = (m / d, m % d);
        let taken = q * (17 * d + 25) + (2 * d + 3) * (q * r + d * q * (q + 1) / 2);
        let steps = taken + (r + d + 8) + (r + 1) * (d + 8) + 1;
        let div = format!("value {q} zero {steps}");
        both("04", &on_numbers(9, m, d), &div);
        let modulo = format!("value {r} zero {steps}");
        both("04", &on_numbers(10, m, d), &modulo);
    }
}

#[test]
fn on_what_is_no_number() {
    let table = [
        // <=(0,x) is True whatever x is, and <(x,0) is False
        ("1806 12 10", "value 0 true 16"),
        ("1806 10 12", "stuck 0 - 15"),
        ("1807 10 12", "value 0 false 16"),
        ("1807 12 10", "stuck 0 - 15"),
        ("1808 12 13", "value 0 true 21"),
        ("1808 13 13", "value 0 false 21"),
        ("1808 10 12", "stuck 0 - 17"),
        ("1808 11 10 11 12", "stuck 0 - 29"),
        ("1809 12 11 10", "stuck 0 - 17"),
        ("180a 12 10", "stuck 0 - 7"),
        ("180a 10 11 12", "value 0 zero 19"),
        ("1809 10 1500", "exception 0 - 8"),
        ("180a 1501 1500", "exception 1 - 5"),
    ];
    for (question, answer) in table {
        both(A_AND_B, question, answer);
    }
}

#[test]
fn a_call_without_end() {
    let run = |steps| evaluate(LOOP, "1900 10", steps, 100).unwrap();
    for steps in [496, 497, 1_000, 100_000, 1_000_000] {
        assert_eq!(run(steps), "deep - - 496");
    }
    assert_eq!(run(495), "out - - 495");
    assert_eq!(rewrite(LOOP, "1900 10", 495, 100).unwrap(), "out - - 495");
}

#[test]
fn every_term_entered_takes_a_level() {
    assert_eq!(evaluate("04", "10", 0, 1).unwrap(), "value 0 zero 0");
    assert_eq!(evaluate("04", "11 10", 0, 1).unwrap(), "deep - - 0");
    assert_eq!(evaluate("04", "11 10", 0, 2).unwrap(), "value 1 zero 0");
    // f -> 0: entry and fit are paid, then the right side is too deep.
    let program = "020000 0300 10 04";
    assert_eq!(evaluate(program, "1900", 9, 1).unwrap(), "deep - - 2");
    assert_eq!(evaluate(program, "1900", 2, 1).unwrap(), "deep - - 2");
    assert_eq!(evaluate(program, "1900", 1, 1).unwrap(), "out - - 1");
    assert_eq!(evaluate(program, "1900", 2, 2).unwrap(), "value 0 zero 2");
}

#[test]
fn if_over_a_succ_of_true_is_stuck() {
    let question = "17 11 12 10 10";
    assert_eq!(evaluate("04", question, 9, 9).unwrap(), "stuck 0 - 0");
    assert_eq!(rewrite("04", question, 9, 9).unwrap(), "stuck 0 - 0");
}

#[test]
fn the_program() {
    let sound = bytes(
        "00 17 01 00 01 01 02 00 01 03 00 14 00 16 00 18 00 15 00 19 00 10 11 10 04 19 00 10",
    );
    let answer = "eval value 1 zero 13\nrewrite value 1 zero 13\n";
    assert_eq!(program_output(&sound), answer);
    let refused = |input: &[u8], line: &str| {
        assert_eq!(program_output(input), format!("refused {line}\n"));
    };
    refused(&[], "program 2 0");
    refused(&[0], "program 2 0");
    refused(&[0, 1], "program 2 0");
    refused(&[0, 0], "program 2 0");
    refused(&[0, 1, 4], "question 2 0");
    refused(&vec![0; 9_219], "program 1 0");
    // 8,193 bytes announced and there: the checker's refusal.
    let mut long = vec![0x20, 0x01];
    long.resize(2 + 8_193, 0x04);
    refused(&long, "program 1 0");
    // 8,192 bytes, the most; 0x04 ends the program at once.
    let mut full = vec![0x20, 0x00];
    full.resize(9_218, 0x04);
    refused(&full, "program 11 1");
}
