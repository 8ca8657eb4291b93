//! Random inputs of document 01's program: framed cases, frames that are cut,
//! lengthened or announced otherwise, the lengths at which something changes,
//! and an input for each ending and each refusal. The same seed gives the same
//! inputs.

use crate::checker::*;
use crate::generator::{self, Random};
use crate::language::{MAX_PROGRAM_BYTES, MAX_QUESTION_WORDS};
use crate::lines::{program_output, MAX_INPUT};

/// Each kind of input by its name, and how many come in one round of all.
pub const KINDS: [(&str, usize); 11] = [
    ("framed", 24),
    ("cut", 6),
    ("lengthened", 4),
    ("announced", 6),
    ("edge", 8),
    ("too-long", 3),
    ("short", 2),
    ("over-ceiling", 3),
    ("bytes", 3),
    ("ending", ENDINGS.len()),
    ("refusal", REFUSALS.len()),
];

/// The beginnings of lines that the program prints when it accepts.
const ENDINGS: [&str; 10] = [
    "eval value",
    "eval exception",
    "eval stuck",
    "eval out",
    "eval deep",
    "rewrite value",
    "rewrite exception",
    "rewrite stuck",
    "rewrite out",
    "rewrite big",
];

/// And when it refuses.
const REFUSALS: [&str; 18] = [
    "refused program 1 ",
    "refused program 2 ",
    "refused program 3 ",
    "refused program 4 ",
    "refused program 5 ",
    "refused program 6 ",
    "refused program 7 ",
    "refused program 8 ",
    "refused program 9 ",
    "refused program 10 ",
    "refused program 11 ",
    "refused program 17 ",
    "refused question 2 ",
    "refused question 3 ",
    "refused question 4 ",
    "refused question 7 ",
    "refused question 8 ",
    "refused question 11 ",
];

/// So many inputs, each with the name of its kind: round after round of every
/// kind.
pub fn inputs(seed: u64, count: usize) -> impl Iterator<Item = (&'static str, Vec<u8>)> {
    let round = KINDS
        .iter()
        .flat_map(|(kind, times)| (0..*times).map(|i| (*kind, i)));
    let mut random = Random::new(seed);
    let made = move |(kind, i)| (kind, input(&mut random, kind, i));
    round.cycle().map(made).take(count)
}

/// An input of a kind, the one with number `i` in its round.
fn input(random: &mut Random, kind: &str, i: usize) -> Vec<u8> {
    match kind {
        "framed" => framed(random),
        "cut" => {
            let mut input = framed(random);
            // Near an end now and then, where little is missing.
            let length = match random.below(3) {
                0 => input.len() - random.between(1, 3).min(input.len()),
                _ => random.below(input.len()),
            };
            input.truncate(length);
            input
        }
        "lengthened" => lengthened(random),
        "announced" => announced(random),
        "edge" => edge(random, i),
        "too-long" => {
            let mut input = framed(random);
            let most = random.pick(&[MAX_INPUT + 1, MAX_INPUT + 2, 10_000, 70_000]);
            let length = random.between(MAX_INPUT + 1, most);
            fill(random, &mut input, length);
            input
        }
        "short" => (0..i % 2).map(|_| random.byte()).collect(),
        "over-ceiling" => over_ceiling(random),
        "bytes" => {
            let longest = random.pick(&[3, 40, 600]);
            (0..random.below(longest + 1))
                .map(|_| random.byte())
                .collect()
        }
        "ending" => ending(random, ENDINGS[i]),
        _ => refusal(random, REFUSALS[i]),
    }
}

/// The program's length, high byte first, the program, the question.
fn frame(program: &[u8], question: &[u8]) -> Vec<u8> {
    let length = program.len() as u16;
    [&length.to_be_bytes(), program, question].concat()
}

fn framed(random: &mut Random) -> Vec<u8> {
    let (program, question) = generator::strings(random);
    frame(&program, &question)
}

/// Bytes behind the input up to a length: all the same, or any.
fn fill(random: &mut Random, input: &mut Vec<u8>, length: usize) {
    let same = random.chance(50).then(|| random.pick(&[END, ZERO, SUCC]));
    while input.len() < length {
        input.push(same.unwrap_or_else(|| random.byte()));
    }
}

fn lengthened(random: &mut Random) -> Vec<u8> {
    let mut input = framed(random);
    let length = match random.below(3) {
        0 => input.len() + 1,
        1 => input.len() + random.between(1, 60),
        _ => random.between(MAX_INPUT - 2, MAX_INPUT),
    };
    fill(random, &mut input, length);
    input
}

/// A good frame that says another length of its program.
fn announced(random: &mut Random) -> Vec<u8> {
    let (program, question) = generator::strings(random);
    let mut input = frame(&program, &question);
    let length = program.len() as u16;
    let there = (program.len() + question.len()) as u16;
    let said = match random.below(8) {
        0 => length.wrapping_sub(1),
        1 => length + 1,
        2 => length.swap_bytes(), // low byte first
        3 => there,
        4 => there + 1,
        5 => 0,
        6 => length ^ (1 << random.below(16)),
        _ => random.number() as u16,
    };
    input[..2].copy_from_slice(&said.to_be_bytes());
    input
}

/// The lengths on both sides of which the answer differs.
fn edge(random: &mut Random, i: usize) -> Vec<u8> {
    let (program, question) = generator::sound(random);
    match i {
        // As long as an input may be, and one byte over.
        0 | 1 => {
            let mut input = frame(&program, &question);
            fill(random, &mut input, MAX_INPUT + i);
            input
        }
        // As long as a program may be, and one byte over.
        2 | 3 => {
            let mut program = program;
            fill(random, &mut program, MAX_PROGRAM_BYTES + i - 2);
            frame(&program, &question)
        }
        4 => frame(&program, &[]),
        5 => frame(&[], &question),
        // One byte fewer than announced.
        6 => {
            let mut input = frame(&program, &[]);
            input.pop();
            input
        }
        // All bytes of the input used: the longest program and question.
        _ => {
            let mut program = program;
            fill(random, &mut program, MAX_PROGRAM_BYTES);
            let mut question = question;
            fill(random, &mut question, MAX_INPUT - 2 - MAX_PROGRAM_BYTES);
            frame(&program, &question)
        }
    }
}

/// A program over its ceiling that is all there, in an input that is not.
fn over_ceiling(random: &mut Random) -> Vec<u8> {
    let (mut program, mut question) = generator::strings(random);
    let most = random.pick(&[MAX_PROGRAM_BYTES + 1, MAX_INPUT - 2]);
    let length = random.between(MAX_PROGRAM_BYTES + 1, most);
    fill(random, &mut program, length);
    program.truncate(length);
    question.truncate(MAX_INPUT - 2 - length);
    frame(&program, &question)
}

/// An accepted input whose output has a line with this beginning.
fn ending(random: &mut Random, beginning: &str) -> Vec<u8> {
    loop {
        let (program, question) = match beginning {
            "eval out" => doubling(random),
            "eval deep" => random.pick(&[looping, counting, generator::growing])(random),
            "rewrite out" => random.pick(&[looping, doubling])(random),
            "rewrite big" => generator::growing(random),
            "rewrite value" if random.chance(20) => counting(random),
            _ => generator::sound(random),
        };
        let input = frame(&program, &question);
        if program_output(&input)
            .lines()
            .any(|line| line.starts_with(beginning))
        {
            return input;
        }
    }
}

/// A function that calls itself twice with one less: steps without end, and
/// neither depth nor size.
fn doubling(random: &mut Random) -> (Vec<u8>, Vec<u8>) {
    let [first, second] = [random.pick(&[ZERO, TRUE, FALSE]), random.below(6) as u8];
    let mut program = vec![FUNCTION, 0, 1, RULE, 0, ZERO, first];
    let again = [CALL, 0, VARIABLE, 0];
    program.extend([RULE, 0, SUCC, VARIABLE, 0]);
    match second {
        0 | 1 => program.extend([&[BUILTIN, 0], &again[..], &again[..]].concat()),
        2 => program.extend([&[IF, BUILTIN, 5, ZERO], &again[..], &again[..], &again[..]].concat()),
        _ => program.extend(
            [
                &[IF, BUILTIN, 3],
                &again[..],
                &[ZERO],
                &again[..],
                &again[..],
            ]
            .concat(),
        ),
    }
    program.push(END);
    let mut question = vec![CALL, 0];
    question.extend(vec![SUCC; random.between(12, 40)]);
    question.push(ZERO);
    (program, question)
}

/// Functions that call each other in a ring: neither ends, and no term grows.
fn looping(random: &mut Random) -> (Vec<u8>, Vec<u8>) {
    let count = random.between(1, 4) as u8;
    let mut program: Vec<u8> = (0..count).flat_map(|f| [FUNCTION, f, 1]).collect();
    for f in 0..count {
        program.extend([RULE, f, VARIABLE, f, CALL, (f + 1) % count, VARIABLE, f]);
    }
    program.push(END);
    let mut question = vec![CALL, random.below(usize::from(count)) as u8];
    question.extend(vec![SUCC; random.below(9)]);
    question.push(random.pick(&[ZERO, TRUE, FALSE]));
    (program, question)
}

/// A function that counts its argument down: deep for the evaluator from some
/// number on, where the rewriter still comes to the value.
fn counting(random: &mut Random) -> (Vec<u8>, Vec<u8>) {
    let mut program = vec![FUNCTION, 0, 1, RULE, 0, ZERO, ZERO];
    program.extend([RULE, 0, SUCC, VARIABLE, 1, SUCC, CALL, 0, VARIABLE, 1, END]);
    let mut question = vec![CALL, 0];
    question.extend(vec![SUCC; random.between(100, MAX_QUESTION_WORDS - 2)]);
    question.push(ZERO);
    (program, question)
}

/// An input that is refused so: cases until there is one.
fn refusal(random: &mut Random, beginning: &str) -> Vec<u8> {
    loop {
        let (program, question) = generator::strings(random);
        let refused = check_program(&program)
            .and_then(|program| check_question(&program, &question))
            .is_err();
        let input = frame(&program, &question);
        if refused && program_output(&input).starts_with(beginning) {
            return input;
        }
    }
}
