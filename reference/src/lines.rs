//! The text forms: a case as one line, its answer as one line, and the lines
//! that the program prints.

use crate::calls;
use crate::checker::{About, Refusal};
use crate::language::*;
use std::fmt;
use std::io::{self, BufRead, Read, Write};

/// The longest case line that is answered, in bytes without the line's end.
pub const MAX_LINE: usize = 60_000;

/// Lent slices are never made longer than this: no own list and no room comes
/// near it, so no answer depends on the rest.
const LONGEST_SLICE: u64 = 65_536;

/// What a line that is no case is answered.
pub const BAD_LINE: &str = "bad line";
pub const TOO_LONG: &str = "too long";

/// What lent words hold before a call; no symbol, so that unwritten words show.
const UNWRITTEN: u16 = 0xffff;

/// One case: `PROGRAM QUESTION STEPS LEVELS ROOM OWN FIRST SECOND`.
#[derive(Clone, Debug, PartialEq, Eq)]
pub struct Case {
    pub program: Vec<u8>,
    pub question: Vec<u8>,
    pub steps: u64,
    pub levels: u64,
    pub room: u64,
    /// Lengths of the lent slices in words.
    pub own: u64,
    pub first: u64,
    pub second: u64,
}

impl fmt::Display for Case {
    fn fmt(&self, f: &mut fmt::Formatter) -> fmt::Result {
        write!(
            f,
            "{} {} {} {} {} {} {} {}",
            to_hex(&self.program),
            to_hex(&self.question),
            self.steps,
            self.levels,
            self.room,
            self.own,
            self.first,
            self.second
        )
    }
}

/// Reads a case line (without the line's end): eight fields, one space apart.
pub fn parse_case(line: &[u8]) -> Option<Case> {
    let fields: Vec<&[u8]> = line.split(|byte| *byte == b' ').collect();
    let [program, question, steps, levels, room, own, first, second] = fields[..] else {
        return None;
    };
    Some(Case {
        program: from_hex(program)?,
        question: from_hex(question)?,
        steps: from_decimal(steps)?,
        levels: from_decimal(levels)?,
        room: from_decimal(room)?,
        own: from_decimal(own)?,
        first: from_decimal(first)?,
        second: from_decimal(second)?,
    })
}

/// Lines of input: all, and those that are no case.
#[derive(Clone, Copy, Debug, Default, PartialEq, Eq)]
pub struct Lines {
    pub all: u64,
    pub no_case: u64,
}

/// Answers every line of the input, one line each. A last line without its
/// newline is a line too.
pub fn answer_all(mut input: impl BufRead, mut output: impl Write) -> io::Result<Lines> {
    let mut lines = Lines::default();
    let mut line = Vec::new();
    while read_line(&mut input, &mut line)? {
        let answer = answer_line(&line);
        lines.all += 1;
        lines.no_case += u64::from(answer == BAD_LINE || answer == TOO_LONG);
        writeln!(output, "{answer}")?;
    }
    output.flush()?;
    Ok(lines)
}

/// Reads a line without its end, if there is one more. Of a line that is too
/// long one byte too many is kept, and the rest is passed over.
fn read_line(input: &mut impl BufRead, line: &mut Vec<u8>) -> io::Result<bool> {
    line.clear();
    let most = MAX_LINE as u64 + 1;
    let found = input.by_ref().take(most).read_until(b'\n', line)? > 0;
    if line.last() == Some(&b'\n') {
        line.pop();
    } else if line.len() > MAX_LINE {
        input.skip_until(b'\n')?;
    }
    Ok(found)
}

/// The answer to one line of input (without the line's end).
pub fn answer_line(line: &[u8]) -> String {
    if line.len() > MAX_LINE {
        return TOO_LONG.to_string();
    }
    match parse_case(line) {
        Some(case) => answer_case(&case),
        None => BAD_LINE.to_string(),
    }
}

/// The answer line of a case.
pub fn answer_case(case: &Case) -> String {
    let lend = |length: u64| vec![UNWRITTEN; length.min(LONGEST_SLICE) as usize];
    let mut own = lend(case.own);
    let mut first = lend(case.first);
    let mut second = lend(case.second);
    let result = calls::both(
        &case.program,
        &case.question,
        case.steps,
        case.levels,
        case.room,
        &mut own,
        &mut first,
        &mut second,
    );
    match result {
        Err(refusal) => refusal_text(refusal),
        Ok((evaluated, rewritten)) => {
            // The own list ends where words are as they were lent.
            let written = own.iter().position(|word| *word == UNWRITTEN);
            let own = &own[..written.unwrap_or(own.len())];
            let room = case.room as usize;
            format!(
                "ok {} ; {} ; {} ; {} ; {}",
                answer_text(evaluated),
                answer_text(rewritten),
                words_text(own),
                words_text(without_zeros(&first[..room])),
                words_text(without_zeros(&second[..room]))
            )
        }
    }
}

/// The most bytes of input at which document 01's program looks.
pub const MAX_INPUT: usize = 9_218;

/// What document 01's program prints for the bytes of its standard input.
pub fn program_output(input: &[u8]) -> String {
    const STEPS: u64 = 100_000;
    const LEVELS: u64 = 500;
    const ROOM: u64 = 4_096;
    // The ceilings on rules and words give 15,504; the longest own list that
    // was seen has 13,263.
    const OWN: usize = 15_504;
    if input.len() > MAX_INPUT {
        return "refused program 1 0\n".to_string();
    }
    let split = match input {
        [high, low, rest @ ..] => {
            let length = usize::from(*high) * 256 + usize::from(*low);
            (length <= rest.len()).then(|| rest.split_at(length))
        }
        _ => None,
    };
    let Some((program, question)) = split else {
        return "refused program 2 0\n".to_string();
    };
    let mut own = vec![0; OWN];
    let mut first = vec![0; ROOM as usize];
    let mut second = vec![0; ROOM as usize];
    let result = calls::both(
        program,
        question,
        STEPS,
        LEVELS,
        ROOM,
        &mut own,
        &mut first,
        &mut second,
    );
    match result {
        Err(refusal) => format!("{}\n", refusal_text(refusal)),
        Ok((evaluated, rewritten)) => format!(
            "eval {}\nrewrite {}\n",
            answer_text(evaluated),
            answer_text(rewritten)
        ),
    }
}

pub fn refusal_text(refusal: Refusal) -> String {
    let about = match refusal.about {
        About::Program => "program",
        About::Question => "question",
    };
    format!("refused {about} {} {}", refusal.number, refusal.place)
}

pub fn answer_text(answer: Answer) -> String {
    let steps = answer.steps;
    match answer.ending {
        Ending::Value(Value { k, base }) => {
            let base = match base {
                Base::Zero => "zero",
                Base::True => "true",
                Base::False => "false",
            };
            format!("value {k} {base} {steps}")
        }
        Ending::Exception(exception) => format!("exception {exception} - {steps}"),
        Ending::Stuck(s) => format!("stuck {s} - {steps}"),
        Ending::OutOfSteps => format!("out - - {steps}"),
        Ending::TooDeep => format!("deep - - {steps}"),
        Ending::TooBig => format!("big - - {steps}"),
    }
}

fn words_text(words: &[u16]) -> String {
    if words.is_empty() {
        return "-".to_string();
    }
    let words: Vec<String> = words.iter().map(u16::to_string).collect();
    words.join(",")
}

fn without_zeros(words: &[u16]) -> &[u16] {
    let length = words
        .iter()
        .rposition(|word| *word != 0)
        .map_or(0, |i| i + 1);
    &words[..length]
}

pub fn to_hex(bytes: &[u8]) -> String {
    if bytes.is_empty() {
        return "-".to_string();
    }
    bytes.iter().map(|byte| format!("{byte:02x}")).collect()
}

/// Bytes in lower-case digits, two to a byte; "-" for none.
pub fn from_hex(text: &[u8]) -> Option<Vec<u8>> {
    if text == b"-" {
        return Some(Vec::new());
    }
    if text.is_empty() || text.len() % 2 == 1 {
        return None;
    }
    let digit = |c: u8| match c {
        b'0'..=b'9' => Some(c - b'0'),
        b'a'..=b'f' => Some(c - b'a' + 10),
        _ => None,
    };
    text.chunks(2)
        .map(|pair| Some(digit(pair[0])? * 16 + digit(pair[1])?))
        .collect()
}

/// A decimal number; one that is too large is the largest, which is out of any
/// allowance's range and more than any slice needs.
fn from_decimal(text: &[u8]) -> Option<u64> {
    if text.is_empty() || !text.iter().all(u8::is_ascii_digit) {
        return None;
    }
    let grown = |value: u64, c: &u8| value.saturating_mul(10).saturating_add(u64::from(c - b'0'));
    Some(text.iter().fold(0, grown))
}
