//! The refusals: each number at its place, the order between them, both sides
//! of every ceiling and allowance, and what happens to lent words.

use reference::calls;
use reference::checker::*;
use reference::language::Ending;
use reference::lines::{answer_line, from_hex, refusal_text};
use reference::translator::own_list;

fn bytes(hex: &str) -> Vec<u8> {
    let digits: String = hex.split_whitespace().collect();
    if digits.is_empty() {
        return Vec::new();
    }
    from_hex(digits.as_bytes()).expect("hex")
}

/// The refusal of program and question, or "ok".
fn check_bytes(program: &[u8], question: &[u8]) -> String {
    match calls::evaluate(program, question, 0, 1) {
        Ok(_) => "ok".to_string(),
        Err(refusal) => refusal_text(refusal)["refused ".len()..].to_string(),
    }
}

fn check(program: &str, question: &str) -> String {
    check_bytes(&bytes(program), &bytes(question))
}

#[test]
fn programs() {
    let table = [
        ("", "program 2 0"),
        ("04", "ok"),
        ("04 00", "program 11 1"),
        ("01", "program 2 0"),
        ("0100", "program 2 2"),
        ("0101 04", "program 4 0"),
        ("0100 0100 04", "program 4 2"),
        ("020000 0100 04", "program 3 3"),
        ("020000 01", "program 2 3"),
        ("020000 0300 10 020100 04", "program 3 6"),
        ("020000 0300 10 0100 04", "program 3 6"),
        ("10 04", "program 3 0"),
        ("14 00 04", "program 3 0"),
        ("14", "program 2 0"),
        ("05 04", "program 3 0"),
        ("ff", "program 3 0"),
        // both sides of arity
        ("020004 0300 10 10 10 10 10 04", "ok"),
        ("020005 04", "program 4 0"),
        ("0200", "program 2 0"),
        ("0300 04", "program 4 0"),
        ("020000 0300 04", "program 3 5"),
        ("020000 0300", "program 2 5"),
        // both sides of variable 7
        ("020001 0300 1407 1407 04", "ok"),
        ("020001 0300 1408 1408 04", "program 4 5"),
        ("020001 0300 1407 1408 04", "program 4 7"),
        ("020001 0300 1407 1406 04", "program 7 7"),
        ("020002 0300 1400 1400 10 04", "program 6 7"),
        ("020002 0300 1408 1408 10 04", "program 4 5"),
        // left-side nodes
        ("0100 020001 0300 1500 10 04", "program 5 7"),
        ("0100 020001 0300 1501 10 04", "program 4 7"),
        ("0100 020001 0300 1600 10 04", "program 5 7"),
        ("020001 0300 17 10 04", "program 5 5"),
        ("020001 0300 180a 10 04", "program 5 5"),
        ("020001 0300 180b 10 04", "program 4 5"),
        ("020001 0300 1900 10 04", "program 5 5"),
        ("020001 0300 1901 10 04", "program 4 5"),
        ("020001 0300 19", "program 2 5"),
        ("020001 0300 0100 10 04", "program 3 5"),
        ("020001 0300 01", "program 2 5"),
        ("020001 0300 04", "program 3 5"),
        ("020001 0300 1a", "program 3 5"),
        // right sides
        ("020000 0300 180a 10 10 04", "ok"),
        ("020000 0300 180b 10 10 04", "program 4 5"),
        ("020000 0300 180f 10 10 04", "program 4 5"),
        ("020000 0300 1500 04", "program 4 5"),
        ("0100 020000 0300 1500 04", "ok"),
        ("020000 0300 1901 04", "program 4 5"),
        // overlap
        ("020000 0300 10 0300 10 04", "program 10 6"),
        ("020000 0300 10 0300 10 04 00", "program 11 10"),
        ("020001 0300 10 10 0300 1400 10 04", "program 10 7"),
        ("020001 0300 10 10 0300 11 1400 10 04", "ok"),
        ("020001 0300 11 12 10 0300 11 1400 10 04", "program 10 8"),
        ("020001 0300 11 12 10 0300 11 10 10 04", "ok"),
        // the first in byte order, the functions' rules mixed
        (
            "020001 020101 0300 10 10 0301 10 10 0301 1400 10 0300 10 10 04",
            "program 10 14",
        ),
        (
            "020001 020101 0300 10 10 0301 10 10 0300 1400 10 0301 10 10 04",
            "program 10 14",
        ),
    ];
    for (program, expected) in table {
        assert_eq!(check(program, "10"), expected, "{program}");
    }
}

/// Refusal 17: some declared function has no rule.
#[test]
fn functions_without_a_rule() {
    let table = [
        ("020000 04", "program 17 0"),
        ("020004 04", "program 17 0"),
        ("0100 0101 020002 04", "program 17 4"),
        ("020000 0300 10 04", "ok"),
        ("020000 020101 0301 1400 10 0300 10 04", "ok"),
        // two lost: the lower; what the rules' order is does not matter
        ("0100 020000 020100 020200 0300 10 04", "program 17 5"),
        ("020000 020100 020200 0302 10 04", "program 17 0"),
        ("020000 020100 020200 0302 10 0300 10 04", "program 17 3"),
        // two rules of one function are not one of another
        ("020001 020101 0300 10 10 0300 12 10 04", "program 17 3"),
        // first 2 and 3 of the end record: it is missing, or its rule is cut
        ("020000", "program 2 3"),
        ("020000 020100 0300 10", "program 2 9"),
        ("020000 020100 0300 10 0301", "program 2 11"),
        ("020000 06", "program 3 3"),
        ("020000 020100 0300 10 10", "program 3 9"),
        // then 11 and 10, and both
        ("020000 04 04", "program 17 0"),
        ("020000 020100 0300 10 0300 10 04", "program 17 3"),
        ("020000 020100 0301 10 0301 10 04 04", "program 17 0"),
    ];
    for (program, expected) in table {
        assert_eq!(check(program, "10"), expected, "{program}");
    }
    // before the question and the allowances
    assert_eq!(check("0100 020000 04", ""), "program 17 2");
    let line = |program| answer_line(format!("{program} 10 0 0 0 0 0 0").as_bytes());
    assert_eq!(line("02000004"), "refused program 17 0");
    assert_eq!(line("02000003001004"), "refused program 12 0");
}

#[test]
fn questions() {
    let program = "0100 020001 0300 10 10 04";
    let table = [
        ("", "question 2 0"),
        ("10", "ok"),
        ("10 10", "question 11 1"),
        ("11", "question 2 1"),
        ("15", "question 2 0"),
        ("1500", "ok"),
        ("1501", "question 4 0"),
        ("1600 10 10", "ok"),
        ("1600 10", "question 2 3"),
        ("1601 10 10", "question 4 0"),
        ("180a 10 10", "ok"),
        ("180a 10", "question 2 3"),
        ("180b 10 10", "question 4 0"),
        ("180c", "question 4 0"),
        ("1900 10", "ok"),
        ("1901", "question 4 0"),
        ("1407", "question 7 0"),
        ("1408", "question 4 0"),
        ("11 14", "question 2 1"),
        ("0100", "question 3 0"),
        ("04", "question 3 0"),
        ("02 00", "question 2 0"),
        ("1a", "question 3 0"),
    ];
    for (question, expected) in table {
        assert_eq!(check(program, question), expected, "{question}");
    }
}

#[test]
fn counts_of_declarations_and_rules() {
    let exceptions = |n: u8| (0..n).flat_map(|e| [1, e]).collect::<Vec<u8>>();
    let functions = |n: u8| (0..n).flat_map(|f| [2, f, 1]).collect::<Vec<u8>>();
    let question = [0x10];
    let with = |parts: &[&[u8]]| check_bytes(&parts.concat(), &question);
    assert_eq!(with(&[&exceptions(16), &[4]]), "ok");
    assert_eq!(with(&[&exceptions(17), &[4]]), "program 9 32");
    assert_eq!(with(&[&exceptions(16), &[1, 99, 4]]), "program 9 32");
    assert_eq!(with(&[&exceptions(16), &[1]]), "program 2 32");
    assert_eq!(with(&[&functions(33), &[4]]), "program 9 96");
    assert_eq!(with(&[&functions(32), &[2, 0, 5, 4]]), "program 9 96");
    assert_eq!(with(&[&functions(32), &[2, 32]]), "program 2 96");
    let rules = (0..32)
        .flat_map(|f| [3, f, 0x10, 0x10, 3, f, 0x12, 0x10])
        .collect::<Vec<u8>>();
    assert_eq!(with(&[&functions(32), &rules, &[4]]), "ok");
    // without rules of function 31, and of all, behind all exceptions
    let declared = [exceptions(16), functions(32)].concat();
    assert_eq!(with(&[&declared, &rules[..248], &[4]]), "program 17 125");
    assert_eq!(with(&[&declared, &[4]]), "program 17 32");
    let past = [3, 77, 0x13, 0x10, 4];
    assert_eq!(with(&[&functions(32), &rules, &past]), "program 9 352");
    // 01 after the rules is 3 even past its ceiling
    let all = [declared, rules].concat();
    assert_eq!(with(&[&all, &[1, 0, 4]]), "program 3 384");
}

#[test]
fn word_ceilings() {
    let succs = |n: usize| vec![0x11; n];
    // left side: root, 30 succ signs and 0 are 32 words
    let left = |n: usize| [vec![2, 0, 1, 3, 0], succs(n), vec![0x10, 0x10, 4]].concat();
    assert_eq!(check_bytes(&left(30), &[0x10]), "ok");
    assert_eq!(check_bytes(&left(31), &[0x10]), "program 8 36");
    assert_eq!(check_bytes(&left(32), &[0x10]), "program 8 36");
    // right side: 128 words
    let right = |n: usize| [vec![2, 0, 0, 3, 0], succs(n), vec![0x10, 4]].concat();
    assert_eq!(check_bytes(&right(127), &[0x10]), "ok");
    assert_eq!(check_bytes(&right(128), &[0x10]), "program 8 133");
    // raise counts two at its own record
    let raised = |n: usize| [vec![1, 0, 2, 0, 0, 3, 0], succs(n), vec![0x15, 0, 4]].concat();
    assert_eq!(check_bytes(&raised(126), &[0x10]), "ok");
    assert_eq!(check_bytes(&raised(127), &[0x10]), "program 8 134");
    // question: 512 words
    let question = |n: usize| [succs(n), vec![0x10]].concat();
    assert_eq!(check_bytes(&[4], &question(511)), "ok");
    assert_eq!(check_bytes(&[4], &question(512)), "question 8 512");
    assert_eq!(check_bytes(&[4], &succs(100_000)), "question 8 512");
}

#[test]
fn program_bytes() {
    // 8,193 bytes of anything: 1 at once.
    assert_eq!(check_bytes(&vec![0xff; 8_193], &[]), "program 1 0");
    assert_eq!(check_bytes(&vec![0xff; 8_192], &[]), "program 3 0");
}

#[test]
fn the_largest_own_list() {
    let mut program: Vec<u8> = (0..16).flat_map(|e| [1, e]).collect();
    program.extend((0..32).flat_map(|f| [2, f, 4]));
    let mut spare = 8_192 - program.len() - 1 - 64 * 6;
    for i in 0..64u8 {
        let first = if i % 2 == 0 { 0x10 } else { 0x12 };
        program.extend([3, i / 2, first, 0x10, 0x10, 0x10]);
        let words = spare.div_ceil(64 - usize::from(i));
        program.extend(vec![0x11; words - 1]);
        program.push(0x10);
        spare -= words;
    }
    program.push(4);
    assert_eq!(program.len(), 8_192);
    let checked = check_program(&program).unwrap();
    assert_eq!(own_list(&checked).len(), 13_263);
}

/// The answer line of a case with a program of one exception, whose own list
/// has 27 words, and a question of three words, raise and all.
fn line(rest: &str) -> String {
    answer_line(format!("010004 111500 {rest}").as_bytes())
}

#[test]
fn allowances_and_slices() {
    let refused = |rest, number| assert_eq!(line(rest), format!("refused program {number} 0"));
    let accepted = |rest| assert!(line(rest).starts_with("ok "));
    accepted("0 1 1 27 1 1");
    accepted("1000000 1000 4096 27 4096 4096");
    refused("1000001 1 1 27 1 1", 12);
    refused("0 0 1 27 1 1", 12);
    refused("0 1001 1 27 1 1", 12);
    refused("0 1 0 27 1 1", 12);
    refused("0 1 4097 27 5000 5000", 12);
    refused("0 1 1 26 1 1", 13);
    refused("0 1 2 27 1 2", 13);
    refused("0 1 2 27 2 1", 13);
    // 12 before 13, the question before both
    refused("0 0 1 0 0 0", 12);
    let bad_question = answer_line(b"04 14 0 0 0 0 0 0");
    assert_eq!(bad_question, "refused question 2 0");
    // room equal to the question's words, and one less
    assert!(line("9 9 3 27 3 3").contains("; exception 0 - 2 ;"));
    assert!(line("9 9 2 27 2 2").ends_with("; - ; -"));
    assert!(line("9 9 2 27 2 2").contains("; big - - 0 ;"));
}

#[test]
fn each_call_is_refused_only_for_what_it_takes() {
    // The evaluator takes no room and no slices, the rewriter no levels.
    assert!(calls::evaluate(&[4], &[0x10], 0, 1).is_ok());
    assert!(calls::evaluate(&[4], &[0x10], 0, 0).is_err());
    let rewrite = |room, first: usize, second: usize| {
        let (mut first, mut second) = (vec![7; first], vec![7; second]);
        calls::rewrite(&[4], &[0x10], 0, room, &mut [], &mut first, &mut second)
            .map_err(|refusal| refusal.number)
    };
    assert!(rewrite(1, 1, 1).is_ok());
    assert_eq!(rewrite(0, 1, 1), Err(12));
    assert_eq!(rewrite(2, 1, 2), Err(13));
    assert_eq!(rewrite(2, 2, 1), Err(13));
}

#[test]
fn lent_words() {
    let program = bytes("0100 04");
    let question = bytes("11 1500");
    let run = |question: &[u8], steps, room, own_length: usize| {
        let mut own = vec![9_999; own_length];
        let mut first = vec![9_999; 12];
        let mut second = vec![9_999; 12];
        let result = calls::rewrite(
            &program,
            question,
            steps,
            room,
            &mut own,
            &mut first,
            &mut second,
        );
        (result, own, first, second)
    };
    let (result, own, first, second) = run(&question, 1, 8, 30);
    let answer = result.unwrap();
    assert_eq!((answer.ending, answer.steps), (Ending::OutOfSteps, 1));
    assert_eq!(own[..6], [2, 2, 11, 32, 6, 32]);
    assert_eq!(own[6..18], [4, 6, 12, 64, 32, 65, 8, 9, 64, 64, 32, 65]);
    assert_eq!(own[18..27], [6, 1, 8, 6, 32, 64, 32, 65, 65]);
    assert_eq!(own[27..], [9_999; 3]);
    assert_eq!(first[..8], [2, 6, 32, 0, 0, 0, 0, 0]);
    assert_eq!(first[8..], [9_999; 4]);
    assert_eq!(second[..8], [0; 8]);
    assert_eq!(second[8..], [9_999; 4]);
    // too big at once: all zeros
    let (result, _, first, second) = run(&question, 1, 2, 30);
    assert_eq!(result.unwrap().ending, Ending::TooBig);
    assert_eq!(first[..3], [0, 0, 9_999]);
    assert_eq!(second[..3], [0, 0, 9_999]);
    // refused: no word changes
    for (question, room, own) in [
        (&question[..1], 8, 30),
        (&question, 13, 30),
        (&question, 8, 26),
    ] {
        let (result, own, first, second) = run(question, 1, room, own);
        assert!(result.is_err());
        let untouched = |words: &[u16]| words.iter().all(|word| *word == 9_999);
        assert!(untouched(&own) && untouched(&first) && untouched(&second));
    }
}

#[test]
fn lines_that_are_no_cases() {
    for bad in [
        "",
        " ",
        "04",
        "04 10 1 1 1 0 1",
        "04 10 1 1 1 0 1 1 1",
        "04  10 1 1 1 0 1 1",
        "4 10 1 1 1 0 1 1",
        "04 1g 1 1 1 0 1 1",
        "04 10 -1 1 1 0 1 1",
        "04 10 +1 1 1 0 1 1",
        "04 10 1 1 1 0 1 x",
    ] {
        assert_eq!(answer_line(bad.as_bytes()), "bad line", "{bad}");
    }
    assert_eq!(answer_line(b"- - 1 1 1 0 1 1"), "refused program 2 0");
    assert_eq!(answer_line(&vec![b'0'; 60_000]), "bad line");
    assert_eq!(answer_line(&vec![b'0'; 60_001]), "too long");
}
