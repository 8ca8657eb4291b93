//! Times the reference's two engines on the lines that `questions` writes: a line of figures for each row and engine, as `bench`
//! writes them, `ROW ENGINE ENDING STEPS SECONDS STACK`. With `words`: the largest and the mean number of words of the row's terms,
//! `ROW words - LARGEST MEAN 0`.

use reference::calls;
use reference::checker::{check_program, check_question};
use reference::language::Answer;
use reference::rewriter::{self, Rules};
use reference::translator::{own_list, term_words};
use std::io::{self, BufRead};

const OWN: usize = 15_504;
const ROOM: usize = 4_096;

struct Question {
    program: Vec<u8>,
    question: Vec<u8>,
    steps: u64,
    levels: u64,
    room: u64,
}

/// The slices that the rewriter's call is lent.
struct Lent {
    own: Vec<u16>,
    first: Vec<u16>,
    second: Vec<u16>,
}

type Engine = fn(&Question, &mut Lent) -> Answer;

fn evaluate(q: &Question, _: &mut Lent) -> Answer {
    calls::evaluate(&q.program, &q.question, q.steps, q.levels).expect("a question is refused")
}

fn rewrite(q: &Question, lent: &mut Lent) -> Answer {
    let Lent { own, first, second } = lent;
    calls::rewrite(&q.program, &q.question, q.steps, q.room, own, first, second)
        .expect("a question is refused")
}

extern "C" {
    /// C's clock: the processor time used so far, in millionths of a second.
    fn clock() -> std::ffi::c_long;
}

fn now() -> f64 {
    // SAFETY: it takes nothing and changes nothing.
    unsafe { clock() as f64 / 1e6 }
}

/// One pass through a row: its steps.
fn pass(row: &[Question], engine: Engine, lent: &mut Lent) -> u64 {
    row.iter().map(|q| engine(q, lent).steps).sum()
}

/// The time of a pass: so many passes that they take 30 ms.
fn seconds(row: &[Question], engine: Engine, lent: &mut Lent) -> f64 {
    let mut passes = 1;
    loop {
        let start = now();
        for _ in 0..passes {
            pass(row, engine, lent);
        }
        let took = now() - start;
        if took >= 0.03 {
            return took / f64::from(passes);
        }
        passes *= 2;
    }
}

fn time_row(name: &str, which: &str, row: &[Question], engine: Engine) {
    let mut lent = Lent {
        own: vec![0; OWN],
        first: vec![0; ROOM],
        second: vec![0; ROOM],
    };
    let steps = pass(row, engine, &mut lent);
    let seconds = seconds(row, engine, &mut lent);
    println!("{name} {which} - {steps} {seconds:.9} 0");
}

/// The number of words of every term on the way.
fn count_words(name: &str, row: &[Question]) {
    let (mut largest, mut sum, mut terms) = (0, 0, 0);
    for q in row {
        let program = check_program(&q.program).expect("a program is refused");
        let question = check_question(&program, &q.question).expect("a question is refused");
        let own = own_list(&program);
        let rules = Rules::new(&program, &own);
        rewriter::rewrite(&rules, &term_words(&question), q.steps, ROOM, |term| {
            largest = largest.max(term.len());
            sum += term.len();
            terms += 1;
        });
    }
    println!("{name} words - {largest} {} 0", sum / terms);
}

fn finish_row(mode: &str, name: &str, row: &[Question]) {
    if row.is_empty() {
        return;
    }
    if mode == "words" {
        return count_words(name, row);
    }
    if mode != "rewriter" {
        time_row(name, "reference-evaluator", row, evaluate);
    }
    time_row(name, "reference-rewriter", row, rewrite);
}

fn bytes(field: &str) -> Option<Vec<u8>> {
    let digits = field.as_bytes().chunks(2);
    digits
        .map(|two| u8::from_str_radix(std::str::from_utf8(two).ok()?, 16).ok())
        .collect()
}

fn question(line: &str) -> Option<(String, Question)> {
    let mut fields = line.split(' ');
    let name = fields.next()?.to_string();
    let question = Question {
        program: bytes(fields.next()?)?,
        question: bytes(fields.next()?)?,
        steps: fields.next()?.parse().ok()?,
        levels: fields.next()?.parse().ok()?,
        room: fields.next()?.parse().ok()?,
    };
    Some((name, question))
}

fn main() -> io::Result<()> {
    let mode = std::env::args().nth(1).unwrap_or_default();
    let mut name = String::new();
    let mut row = Vec::new();
    for line in io::stdin().lock().lines() {
        let line = line?;
        let (next, question) = question(&line).expect("a line is no question");
        if next != name {
            finish_row(&mode, &name, &row);
            row.clear();
            name = next;
        }
        row.push(question);
    }
    finish_row(&mode, &name, &row);
    Ok(())
}
