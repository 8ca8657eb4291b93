//! The stored cases of the repository's program `answers`, by way of the calls.

use puffinest::{evaluate, rewrite};
use std::path::Path;

const LONGEST_LINE: usize = 60_000;

/// No own list and no room needs more words.
const LONGEST_SLICE: u32 = 16_384;

fn read_bytes(field: &str) -> Option<Vec<u8>> {
    if field == "-" {
        return Some(Vec::new());
    }
    let lower = |c: u8| c.is_ascii_digit() || (b'a'..=b'f').contains(&c);
    if field.is_empty() || field.len() % 2 == 1 || !field.bytes().all(lower) {
        return None;
    }
    let pairs = (0..field.len()).step_by(2).map(|i| &field[i..i + 2]);
    pairs
        .map(|pair| u8::from_str_radix(pair, 16).ok())
        .collect()
}

/// A number; past 32 bits it is the largest of 32.
fn read_number(field: &str) -> Option<u32> {
    if field.is_empty() || !field.bytes().all(|c| c.is_ascii_digit()) {
        return None;
    }
    Some(field.parse().unwrap_or(u32::MAX))
}

/// Words as decimal numbers; "-" for none.
fn words(words: &[u16]) -> String {
    let words: Vec<String> = words.iter().map(u16::to_string).collect();
    match words.is_empty() {
        true => "-".to_string(),
        false => words.join(","),
    }
}

fn without_zeros(words: &[u16]) -> &[u16] {
    let last = words.iter().rposition(|word| *word != 0);
    &words[..last.map_or(0, |i| i + 1)]
}

/// What `answers` writes for a line that is a case.
fn answer_case(line: &str) -> Option<String> {
    let fields: Vec<&str> = line.split(' ').collect();
    let [program, question, numbers @ ..] = &fields[..] else {
        return None;
    };
    let (program, question) = (read_bytes(program)?, read_bytes(question)?);
    let numbers: Option<Vec<u32>> = numbers.iter().map(|field| read_number(field)).collect();
    let [steps, levels, room, lengths @ ..] = &numbers?[..] else {
        return None;
    };
    let lengths: [u32; 3] = lengths.try_into().ok()?;
    let [mut own, mut first, mut second] =
        lengths.map(|length| vec![0; length.min(LONGEST_SLICE) as usize]);
    let answers = evaluate(&program, &question, *steps, *levels).and_then(|evaluated| {
        let rewritten = rewrite(
            &program,
            &question,
            *steps,
            *room,
            &mut own,
            &mut first,
            &mut second,
        )?;
        Ok((evaluated, rewritten))
    });
    Some(match answers {
        Err(refusal) => refusal.to_string(),
        Ok((evaluated, rewritten)) => {
            let room = *room as usize;
            let own = own.split(|word| *word == 0).next().unwrap_or_default();
            let held = [
                own,
                without_zeros(&first[..room]),
                without_zeros(&second[..room]),
            ];
            let [own, first, second] = held.map(words);
            format!("ok {evaluated} ; {rewritten} ; {own} ; {first} ; {second}")
        }
    })
}

fn answer(line: &str) -> String {
    if line.len() > LONGEST_LINE {
        return "too long".to_string();
    }
    answer_case(line).unwrap_or_else(|| "bad line".to_string())
}

#[test]
fn stored_cases() {
    let folder = Path::new(env!("CARGO_MANIFEST_DIR")).join("../../crates/answers");
    let read = |name| std::fs::read_to_string(folder.join(name)).expect(name);
    let (cases, answers) = (read("stdin"), read("stdout"));
    // Not `lines`, which would take a CR off.
    let cases: Vec<&str> = cases
        .strip_suffix('\n')
        .unwrap_or(&cases)
        .split('\n')
        .collect();
    let answers: Vec<&str> = answers.lines().collect();
    assert!(cases.len() > 400, "{} stored cases", cases.len());
    assert_eq!(cases.len(), answers.len());
    for (i, (case, expected)) in cases.iter().zip(answers).enumerate() {
        assert_eq!(answer(case), expected, "line {}", i + 1);
    }
}
