//! The generator of random cases: sound programs and questions of many shapes,
//! damaged ones, loose records, plain random bytes, functions that lost their
//! rules, and cases at and past every ceiling and allowance; and of lines, of
//! which some are no case. The same seed gives the same lines.

use crate::checker::*;
use crate::evaluator;
use crate::language::*;
use crate::lines::{Case, MAX_LINE};
use crate::rewriter::{self, Rules};
use crate::translator::{own_list, term_words};

/// A small generator of random numbers (splitmix64).
pub struct Random(u64);

impl Random {
    pub fn new(seed: u64) -> Random {
        Random(seed)
    }

    pub fn number(&mut self) -> u64 {
        self.0 = self.0.wrapping_add(0x9e37_79b9_7f4a_7c15);
        let mut z = self.0;
        z = (z ^ (z >> 30)).wrapping_mul(0xbf58_476d_1ce4_e5b9);
        z = (z ^ (z >> 27)).wrapping_mul(0x94d0_49bb_1331_11eb);
        z ^ (z >> 31)
    }

    /// A number below `n`, which is not 0.
    pub fn below(&mut self, n: usize) -> usize {
        (self.number() % n as u64) as usize
    }

    /// A number from `low` to `high`, both included.
    pub fn between(&mut self, low: usize, high: usize) -> usize {
        low + self.below(high - low + 1)
    }

    pub fn chance(&mut self, percent: usize) -> bool {
        self.below(100) < percent
    }

    pub fn byte(&mut self) -> u8 {
        self.number() as u8
    }

    pub fn pick<T: Copy>(&mut self, choices: &[T]) -> T {
        choices[self.below(choices.len())]
    }

    fn shuffle<T>(&mut self, items: &mut [T]) {
        for i in (1..items.len()).rev() {
            items.swap(i, self.below(i + 1));
        }
    }

    /// Splits `total` into `count` parts, each at least 1.
    fn split(&mut self, total: usize, count: usize) -> Vec<usize> {
        let mut parts = vec![1; count];
        let mut spare = total - count;
        for part in &mut parts[1..] {
            let given = self.below(spare + 1);
            *part += given;
            spare -= given;
        }
        parts[0] += spare;
        self.shuffle(&mut parts);
        parts
    }
}

/// One random line without its end: mostly a case as it is written here, now
/// and then one that is spelled otherwise, or no case.
pub fn line(random: &mut Random) -> Vec<u8> {
    let line = case(random).to_string().into_bytes();
    match random.below(100) {
        0..=7 => misspelled(random, line),
        8 => around_longest(random, line),
        _ => line,
    }
}

/// One random case.
pub fn case(random: &mut Random) -> Case {
    let (program, question) = strings(random);
    with_allowances(random, program, question)
}

/// A random program and question, sound or not.
pub fn strings(random: &mut Random) -> (Vec<u8>, Vec<u8>) {
    match random.below(100) {
        0..=61 => sound(random),
        62..=76 => damaged(random),
        77..=82 => loose_records(random),
        83..=85 => random_bytes(random),
        _ => ceiling(random),
    }
}

// ---------------------------------------------------------------- sound cases

/// Which values a term is meant to have. Terms mostly keep to it, so that most
/// runs get somewhere.
#[derive(Clone, Copy, PartialEq)]
enum Sort {
    Number,
    Truth,
}

struct Signature {
    arguments: Vec<Sort>,
    result: Sort,
}

/// What a program declares.
struct Shape {
    exceptions: usize,
    signatures: Vec<Signature>,
    /// Functions call earlier ones only, or themselves with a smaller argument.
    tame: bool,
}

/// What a term may use.
struct Scope {
    variables: Vec<(u8, Sort)>,
    /// The function whose right side this is; none in a question.
    function: Option<usize>,
    /// An argument place and a variable that is smaller than that argument.
    smaller: Option<(usize, u8)>,
}

impl Scope {
    fn question() -> Scope {
        Scope {
            variables: Vec::new(),
            function: None,
            smaller: None,
        }
    }
}

/// A left argument: succ signs over a variable, 0, True or False (a kind).
#[derive(Clone, Copy)]
struct Pattern {
    succs: usize,
    end: u8,
}

const ANY: Pattern = Pattern {
    succs: 0,
    end: VARIABLE,
};

fn sort(random: &mut Random) -> Sort {
    if random.chance(70) {
        Sort::Number
    } else {
        Sort::Truth
    }
}

fn signature(random: &mut Random, arity: usize) -> Signature {
    Signature {
        arguments: (0..arity).map(|_| sort(random)).collect(),
        result: sort(random),
    }
}

fn shape(random: &mut Random, exceptions: usize, functions: usize) -> Shape {
    let tame = random.chance(65);
    let signatures = (0..functions)
        .map(|_| {
            let arity = random.pick(&[0, 1, 1, 1, 2, 2, 2, 3, 4]);
            signature(random, arity)
        })
        .collect();
    Shape {
        exceptions,
        signatures,
        tame,
    }
}

pub fn sound(random: &mut Random) -> (Vec<u8>, Vec<u8>) {
    let (exceptions, functions, rules) = match random.below(100) {
        0..=34 => (
            random.between(0, 2),
            random.between(0, 2),
            random.between(0, 4),
        ),
        35..=81 => (
            random.between(0, 4),
            random.between(1, 4),
            random.between(1, 10),
        ),
        82..=93 => (
            random.between(0, 8),
            random.between(2, 12),
            random.between(4, 30),
        ),
        _ => (
            random.between(0, MAX_EXCEPTIONS),
            random.between(1, MAX_FUNCTIONS),
            random.between(10, MAX_RULES),
        ),
    };
    let shape = shape(random, exceptions, functions);
    let program = program(random, &shape, rules);
    let question = question(random, &shape);
    (program, question)
}

fn declarations(shape: &Shape) -> Vec<u8> {
    let mut bytes = Vec::new();
    for exception in 0..shape.exceptions {
        bytes.extend([EXCEPTION, exception as u8]);
    }
    for (number, signature) in shape.signatures.iter().enumerate() {
        bytes.extend([FUNCTION, number as u8, signature.arguments.len() as u8]);
    }
    bytes
}

/// A rule to be written: its function and its left side.
type Left = (usize, Vec<Pattern>);

/// A program of this shape with at most so many rules, or one for each function.
fn program(random: &mut Random, shape: &Shape, most: usize) -> Vec<u8> {
    let rules = lefts(random, shape, most);
    written(random, shape, rules)
}

/// The left sides of a program's rules. Each function has one at the least, for
/// otherwise nothing but refusal 17 would be tried.
fn lefts(random: &mut Random, shape: &Shape, most: usize) -> Vec<Left> {
    let functions = shape.signatures.len();
    let most = most.max(functions);
    let mut rules: Vec<Left> = Vec::new();
    for (function, signature) in shape.signatures.iter().enumerate() {
        let share = (most - rules.len()) / (functions - function);
        let count = random.pick(&[share, share, share, 2, 1]);
        let later = functions - function - 1;
        let count = count.min(most - rules.len() - later);
        let complete = random.chance(70);
        for row in rows(random, &signature.arguments, count, complete) {
            rules.push((function, row));
        }
    }
    // Now and then a rule that may overlap another.
    if functions > 0 && rules.len() < MAX_RULES && random.chance(9) {
        let function = random.below(functions);
        let arity = shape.signatures[function].arguments.len();
        let row = (0..arity).map(|_| any_pattern(random)).collect();
        let at = random.below(rules.len() + 1);
        rules.insert(at, (function, row));
    }
    if random.chance(30) {
        random.shuffle(&mut rules);
    }
    rules
}

/// The program of this shape with these rules.
fn written(random: &mut Random, shape: &Shape, rules: Vec<Left>) -> Vec<u8> {
    let mut bytes = declarations(shape);
    let longest = random.pick(&[4, 8, 14, 14, 30, MAX_RIGHT_WORDS]);
    for (function, row) in rules {
        let right = random.between(1, longest);
        rule(random, shape, function, &row, right, &mut bytes);
    }
    bytes.push(END);
    bytes
}

/// Writes one rule that fits everything for each function below some number.
fn plain_rules(random: &mut Random, shape: &Shape, below: usize, bytes: &mut Vec<u8>) {
    for function in 0..below {
        let row = vec![ANY; shape.signatures[function].arguments.len()];
        let right = random.between(1, 4);
        rule(random, shape, function, &row, right, bytes);
    }
}

/// Rows of patterns that no list of values fits twice: one row of variables,
/// then some variable of some row taken apart again and again.
fn rows(random: &mut Random, sorts: &[Sort], count: usize, complete: bool) -> Vec<Vec<Pattern>> {
    let mut rows = vec![vec![ANY; sorts.len()]];
    for _ in 0..4 * count {
        if sorts.is_empty() || rows.len() >= count {
            break;
        }
        let at = random.below(rows.len());
        let column = random.below(sorts.len());
        let row = rows[at].clone();
        let Pattern { succs, end } = row[column];
        if end != VARIABLE {
            continue;
        }
        let over = |succs, end| Pattern { succs, end };
        let numbers = [over(succs, ZERO), over(succs + 1, VARIABLE)];
        let truths = [over(succs, TRUE), over(succs, FALSE)];
        let mut ways = match sorts[column] {
            Sort::Number => numbers.to_vec(),
            Sort::Truth => truths.to_vec(),
        };
        if !complete && random.chance(15) {
            ways = [numbers, truths].concat();
        }
        rows.remove(at);
        for way in ways {
            if !complete && random.chance(8) {
                continue;
            }
            let mut row = row.clone();
            row[column] = way;
            rows.push(row);
        }
        if rows.is_empty() {
            rows.push(row);
            break;
        }
    }
    rows.truncate(count);
    rows
}

fn any_pattern(random: &mut Random) -> Pattern {
    Pattern {
        succs: random.pick(&[0, 0, 0, 1, 1, 2]),
        end: random.pick(&[VARIABLE, VARIABLE, VARIABLE, ZERO, TRUE, FALSE]),
    }
}

/// Writes a rule whose right side has exactly so many words.
fn rule(
    random: &mut Random,
    shape: &Shape,
    function: usize,
    row: &[Pattern],
    right: usize,
    bytes: &mut Vec<u8>,
) {
    let signature = &shape.signatures[function];
    let mut numbers: Vec<u8> = (0..VARIABLES as u8).collect();
    if random.chance(60) {
        random.shuffle(&mut numbers);
    }
    if random.below(150) == 0 {
        numbers[1] = numbers[0]; // a variable twice on the left
    }
    let mut scope = Scope {
        variables: Vec::new(),
        function: Some(function),
        smaller: None,
    };
    bytes.extend([RULE, function as u8]);
    for (place, pattern) in row.iter().enumerate() {
        bytes.extend(vec![SUCC; pattern.succs]);
        bytes.push(pattern.end);
        if pattern.end == VARIABLE {
            let number = numbers[place];
            bytes.push(number);
            scope.variables.push((number, signature.arguments[place]));
            if pattern.succs > 0 {
                scope.smaller = Some((place, number));
            }
        }
    }
    term(random, shape, &scope, signature.result, right, bytes);
}

fn question(random: &mut Random, shape: &Shape) -> Vec<u8> {
    let mut bytes = Vec::new();
    if random.chance(8) {
        plain_builtin(random, &mut bytes);
        return bytes;
    }
    if !shape.signatures.is_empty() && random.chance(55) {
        plain_call(random, shape, &mut bytes);
        return bytes;
    }
    let longest = match random.below(100) {
        0..=49 => 14,
        50..=89 => 40,
        90..=96 => 120,
        _ => MAX_QUESTION_WORDS,
    };
    let words = random.between(1, longest);
    let sort = sort(random);
    term(random, shape, &Scope::question(), sort, words, &mut bytes);
    bytes
}

/// Writes a question that calls a built-in function with plain values, mostly numbers.
fn plain_builtin(random: &mut Random, bytes: &mut Vec<u8>) {
    let function = random.below(LAST_CALLED + 1);
    bytes.extend([BUILTIN, function as u8]);
    let largest = random.pick(&[2, 5, 12, 12, 30, 100]);
    for _ in 0..builtins()[function].arity {
        bytes.extend(vec![SUCC; random.between(0, largest)]);
        bytes.push(match random.chance(85) {
            true => ZERO,
            false => random.pick(&[TRUE, FALSE]),
        });
    }
}

/// Writes a question that calls a declared function, mostly with plain values.
fn plain_call(random: &mut Random, shape: &Shape, bytes: &mut Vec<u8>) {
    let scope = Scope::question();
    let guarded = shape.exceptions > 0 && random.chance(25);
    if guarded {
        bytes.extend([HANDLE, random.below(shape.exceptions) as u8]);
    } else if random.chance(10) {
        bytes.push(SUCC);
    }
    let function = random.below(shape.signatures.len());
    bytes.extend([CALL, function as u8]);
    let largest = random.pick(&[2, 4, 4, 8, 8, 20]);
    for sort in &shape.signatures[function].arguments {
        match sort {
            Sort::Number if random.chance(80) => {
                bytes.extend(vec![SUCC; random.between(0, largest)]);
                bytes.push(ZERO);
            }
            _ => {
                let words = random.between(1, 6);
                term(random, shape, &scope, *sort, words, bytes);
            }
        }
    }
    if guarded {
        let words = random.between(1, 6);
        term(random, shape, &scope, Sort::Number, words, bytes);
    }
}

/// Writes a term of exactly `words` words, at least 1.
fn term(
    random: &mut Random,
    shape: &Shape,
    scope: &Scope,
    sort: Sort,
    words: usize,
    bytes: &mut Vec<u8>,
) {
    // Now and then a term of the other sort.
    let sort = match (sort, random.chance(3)) {
        (Sort::Number, false) | (Sort::Truth, true) => Sort::Number,
        _ => Sort::Truth,
    };
    if words == 1 {
        return leaf(random, shape, scope, sort, bytes);
    }
    // A plain number, or succ signs over a variable.
    if sort == Sort::Number && words <= 12 && random.chance(25) {
        bytes.extend(vec![SUCC; words - 1]);
        return leaf(random, shape, scope, sort, bytes);
    }
    let other = random.pick(&[Sort::Number, Sort::Truth]);
    match random.below(100) {
        0..=19 if words == 2 && shape.exceptions > 0 => {
            bytes.extend([RAISE, random.below(shape.exceptions) as u8]);
        }
        20..=31 if words >= 4 && shape.exceptions > 0 => {
            bytes.extend([HANDLE, random.below(shape.exceptions) as u8]);
            let parts = random.split(words - 2, 2);
            term(random, shape, scope, sort, parts[0], bytes);
            term(random, shape, scope, sort, parts[1], bytes);
        }
        32..=43 if words >= 4 => {
            bytes.push(IF);
            let parts = random.split(words - 1, 3);
            term(random, shape, scope, Sort::Truth, parts[0], bytes);
            term(random, shape, scope, sort, parts[1], bytes);
            term(random, shape, scope, sort, parts[2], bytes);
        }
        44..=61 if words >= 3 => {
            let number = match sort {
                Sort::Number => random.pick(&[0, 0, 0, 1, 9, 10]),
                Sort::Truth => random.pick(&[3, 4, 5, 6, 7, 8]),
            };
            bytes.extend([BUILTIN, number]);
            // = and <> are of truth values too
            let parts_sort = match number {
                5 | 8 => random.pick(&[Sort::Number, Sort::Number, Sort::Truth]),
                _ => Sort::Number,
            };
            let mut parts = random.split(words - 1, 2);
            term(random, shape, scope, parts_sort, parts[0], bytes);
            // div and mod by 0 are stuck: now and then is enough
            if [9, 10].contains(&number) && parts[1] > 1 && random.chance(80) {
                bytes.push(SUCC);
                parts[1] -= 1;
            }
            term(random, shape, scope, parts_sort, parts[1], bytes);
        }
        62..=89 if call(random, shape, scope, sort, words, bytes) => {}
        90..=91 => {
            // succ or not over the wrong sort
            let root: &[u8] = random.pick(&[&[SUCC], &[BUILTIN, 2]]);
            bytes.extend(root);
            term(random, shape, scope, other, words - 1, bytes);
        }
        _ => {
            match sort {
                Sort::Number => bytes.push(SUCC),
                Sort::Truth => bytes.extend([BUILTIN, 2]),
            }
            term(random, shape, scope, sort, words - 1, bytes);
        }
    }
}

/// Writes a call of a declared function with exactly so many words, if one
/// suits.
fn call(
    random: &mut Random,
    shape: &Shape,
    scope: &Scope,
    sort: Sort,
    words: usize,
    bytes: &mut Vec<u8>,
) -> bool {
    let suits = |function: usize| {
        let signature = &shape.signatures[function];
        let arity = signature.arguments.len();
        let allowed = match scope.function {
            Some(own) if shape.tame => function < own || function == own && scope.smaller.is_some(),
            _ => true,
        };
        allowed && signature.result == sort && (arity == 0) == (words == 1) && arity < words
    };
    let suitable: Vec<usize> = (0..shape.signatures.len()).filter(|f| suits(*f)).collect();
    if suitable.is_empty() {
        return false;
    }
    let function = random.pick(&suitable);
    let sorts = &shape.signatures[function].arguments;
    let recursive = shape.tame && scope.function == Some(function);
    match scope.smaller {
        Some(smaller) if recursive => {
            recursive_call(random, shape, scope, function, smaller, words, bytes);
        }
        _ => {
            bytes.extend([CALL, function as u8]);
            if !sorts.is_empty() {
                let parts = random.split(words - 1, sorts.len());
                for (sort, part) in sorts.iter().zip(parts) {
                    term(random, shape, scope, *sort, part, bytes);
                }
            }
        }
    }
    true
}

/// Writes a call of the function being defined with the smaller variable at its
/// place, and spends the remaining words on the other arguments or around it.
fn recursive_call(
    random: &mut Random,
    shape: &Shape,
    scope: &Scope,
    function: usize,
    smaller: (usize, u8),
    words: usize,
    bytes: &mut Vec<u8>,
) {
    let signature = &shape.signatures[function];
    let (at, variable) = smaller;
    let others = signature.arguments.len() - 1;
    if others == 0 && words > 2 {
        match signature.result {
            Sort::Number if words > 3 && random.chance(80) => {
                bytes.extend([BUILTIN, random.pick(&[0, 0, 1])]);
                term(random, shape, scope, Sort::Number, words - 3, bytes);
                recursive_call(random, shape, scope, function, smaller, 2, bytes);
            }
            sort => {
                match sort {
                    Sort::Number => bytes.push(SUCC),
                    Sort::Truth => bytes.extend([BUILTIN, 2]),
                }
                recursive_call(random, shape, scope, function, smaller, words - 1, bytes);
            }
        }
        return;
    }
    bytes.extend([CALL, function as u8]);
    let mut parts = match others {
        0 => Vec::new(),
        _ => random.split(words - 2, others),
    };
    for (place, sort) in signature.arguments.iter().enumerate() {
        if place == at {
            bytes.extend([VARIABLE, variable]);
        } else {
            let part = parts.pop().unwrap_or(1);
            term(random, shape, scope, *sort, part, bytes);
        }
    }
}

/// Writes a term of one word.
fn leaf(random: &mut Random, shape: &Shape, scope: &Scope, sort: Sort, bytes: &mut Vec<u8>) {
    let suitable: Vec<u8> = scope
        .variables
        .iter()
        .filter(|(_, s)| *s == sort)
        .map(|(number, _)| *number)
        .collect();
    if !suitable.is_empty() && random.chance(75) {
        bytes.extend([VARIABLE, random.pick(&suitable)]);
        return;
    }
    if random.chance(20) && call(random, shape, scope, sort, 1, bytes) {
        return;
    }
    bytes.push(match sort {
        Sort::Number => ZERO,
        Sort::Truth => random.pick(&[TRUE, FALSE]),
    });
}

// -------------------------------------------------------------- damaged cases

fn damaged(random: &mut Random) -> (Vec<u8>, Vec<u8>) {
    let (mut program, mut question) = sound(random);
    for _ in 0..random.pick(&[1, 1, 1, 2, 3]) {
        if random.chance(65) {
            damage(random, &mut program);
        } else {
            damage(random, &mut question);
        }
    }
    (program, question)
}

fn damage(random: &mut Random, bytes: &mut Vec<u8>) {
    let byte = match random.below(4) {
        0 => random.byte(),
        1 => random.pick(&KINDS),
        _ => random.below(16) as u8,
    };
    if bytes.is_empty() {
        bytes.push(byte);
        return;
    }
    let at = random.below(bytes.len());
    if random.chance(24) {
        // Another number for some variable or built-in, or what looks like one.
        let (kind, numbers) = random.pick(&[(VARIABLE, 9), (BUILTIN, 16)]);
        let next = (at..bytes.len() - 1).find(|i| bytes[*i] == kind);
        if let Some(i) = next {
            bytes[i + 1] = random.below(numbers) as u8;
            return;
        }
    }
    if random.chance(12) {
        // A variable in a constant's place, or what looks like one.
        let constant = |i: &usize| [ZERO, TRUE, FALSE].contains(&bytes[*i]);
        if let Some(i) = (at..bytes.len()).find(constant) {
            bytes.splice(i..=i, [VARIABLE, random.below(8) as u8]);
            return;
        }
    }
    match random.below(8) {
        0 | 1 => bytes[at] = byte,
        2 => bytes[at] = bytes[at].wrapping_add(random.pick(&[1, 255])),
        3 => bytes.insert(at, byte),
        4 => {
            bytes.remove(at);
        }
        5 => bytes.truncate(at),
        6 => bytes.push(byte),
        _ => {
            let other = random.below(bytes.len());
            bytes.swap(at, other);
        }
    }
}

const KINDS: [u8; 14] = [
    EXCEPTION, FUNCTION, RULE, END, ZERO, SUCC, TRUE, FALSE, VARIABLE, RAISE, HANDLE, IF, BUILTIN,
    CALL,
];

/// Records that are whole each by itself, in no sound order.
fn loose_records(random: &mut Random) -> (Vec<u8>, Vec<u8>) {
    let exceptions = random.below(4);
    let functions = random.below(4);
    let shape = shape(random, exceptions, functions);
    let mut program = declarations(&shape);
    if random.chance(70) && functions > 0 {
        program.extend([RULE, random.below(functions) as u8]);
    }
    let count = random.below(12);
    loose(random, count, &mut program);
    if random.chance(60) {
        program.push(END);
    }
    let mut question = Vec::new();
    if random.chance(30) {
        // A sound program, so that the question is looked at.
        program = declarations(&shape);
        plain_rules(random, &shape, functions, &mut program);
        program.push(END);
    }
    let count = random.below(6);
    loose(random, count, &mut question);
    (program, question)
}

fn loose(random: &mut Random, count: usize, bytes: &mut Vec<u8>) {
    for _ in 0..count {
        let kind = match random.below(10) {
            0 => random.pick(&KINDS),
            1 => random.below(0x20) as u8,
            _ => random.pick(&KINDS[4..]),
        };
        bytes.push(kind);
        for _ in 0..body_length(kind).unwrap_or(0) {
            let number = match random.below(12) {
                0 => random.byte(),
                1 => random.below(16) as u8,
                _ => random.below(4) as u8,
            };
            bytes.push(number);
        }
    }
}

fn random_bytes(random: &mut Random) -> (Vec<u8>, Vec<u8>) {
    let mut program: Vec<u8> = (0..random.below(40)).map(|_| random.byte()).collect();
    let question = (0..random.below(20)).map(|_| random.byte()).collect();
    if random.chance(30) {
        program = vec![END];
    }
    (program, question)
}

// ------------------------------------------------------------ misspelled lines

/// Numbers that are spelled otherwise than here, or larger than they need be.
const NUMBERS: [&str; 8] = [
    "0000",
    "00000000000000000000000001000",
    "4294967296",
    "4294967297",
    "4294967300",
    "18446744073709551616",
    "18446744073709551620",
    "99999999999999999999999999999999999999999",
];

/// Fields that are good for bytes, or for nothing.
const FIELDS: [&str; 16] = [
    "-", "10", "1f", "", "--", "-1", "+1", "1.", "1F", "0x10", "a", "g0", "0:", "1/", "a`",
    "\u{e9}",
];

/// A line with a field, a digit, a sign or a few bytes that do not belong there.
fn misspelled(random: &mut Random, line: Vec<u8>) -> Vec<u8> {
    let mut fields: Vec<Vec<u8>> = line.split(|c| *c == b' ').map(<[u8]>::to_vec).collect();
    let at = random.below(fields.len());
    let last = fields.len() - 1;
    match random.below(13) {
        0 | 1 => fields[random.between(2, last)] = random.pick(&NUMBERS).into(),
        2 | 3 => fields[at] = random.pick(&FIELDS).into(),
        4 => fields.insert(at, random.pick(&FIELDS).into()),
        5 => fields.push(random.pick(&FIELDS).into()),
        6 => drop(fields.remove(at)),
        7 => fields.truncate(at),
        8 => fields[at % 2].extend(random.pick(&[b"0A", b"F0", b"aB"])),
        9 => drop(fields[at % 2].pop()),
        10 => fields[last].push(random.pick(b"\r\t\0 ,;\xff")),
        11 => {
            let place = random.below(fields[at].len() + 1);
            fields[at].insert(place, not_newline(random));
        }
        _ => fields = vec![(0..random.below(60)).map(|_| not_newline(random)).collect()],
    }
    fields.join(&random.pick(b"           \t"))
}

fn not_newline(random: &mut Random) -> u8 {
    match random.byte() {
        b'\n' => b'\r',
        byte => byte,
    }
}

/// A line of about the longest length: zeros before one of its numbers, or
/// before a byte string, which they damage.
fn around_longest(random: &mut Random, line: Vec<u8>) -> Vec<u8> {
    let length = MAX_LINE - 1 + random.pick(&[0, 1, 1, 2, 2, 3, 6_000]);
    let starts = |i: &usize| *i == 0 || line[*i - 1] == b' ';
    let starts: Vec<usize> = (0..line.len()).filter(starts).collect();
    let at = random.pick(&starts);
    let zeros = vec![b'0'; length.saturating_sub(line.len())];
    [&line[..at], &zeros, &line[at..]].concat()
}

// --------------------------------------------------- at and past the ceilings

fn ceiling(random: &mut Random) -> (Vec<u8>, Vec<u8>) {
    let past = random.below(2);
    match random.below(16) {
        0 => program_bytes_ceiling(random),
        1 => exceptions_ceiling(random, past),
        2 => functions_ceiling(random, past),
        3 => arity_ceiling(random, past),
        4 => rules_ceiling(random, past),
        5 => variable_ceiling(random, past),
        6 => left_ceiling(random, past),
        7 => right_ceiling(random, past),
        8 => {
            let shape = small_shape(random);
            let mut question = Vec::new();
            let words = MAX_QUESTION_WORDS + past;
            let sort = sort(random);
            term(
                random,
                &shape,
                &Scope::question(),
                sort,
                words,
                &mut question,
            );
            (program(random, &shape, 6), question)
        }
        9 => largest(random),
        10 => left_side_nodes(random),
        11 => {
            // Over the program's ceiling by more than one, whatever the bytes.
            let length = random.between(MAX_PROGRAM_BYTES + 1, MAX_PROGRAM_BYTES + 900);
            let program = match random.below(2) {
                0 => (0..length).map(|_| random.byte()).collect(),
                _ => vec![END; length],
            };
            (program, vec![ZERO])
        }
        12 => growing(random),
        13 => lost_rules(random),
        14 => builtin_ceiling(random, past),
        _ => {
            // A question that never comes to its end.
            let shape = small_shape(random);
            let program = program(random, &shape, 6);
            let root: &[u8] = random.pick(&[&[SUCC], &[IF], &[BUILTIN, 0], &[BUILTIN, 2]]);
            let count = random.pick(&[254, 255, 256, 257, 510, 511, 512, 513, 1000, 3000]);
            let mut question = root.repeat(count);
            if random.chance(30) {
                question.push(ZERO);
            }
            (program, question)
        }
    }
}

fn small_shape(random: &mut Random) -> Shape {
    let exceptions = random.between(0, 3);
    let functions = random.between(1, 4);
    shape(random, exceptions, functions)
}

/// A term of exactly so many words in as many bytes.
fn byte_term(random: &mut Random, words: usize, bytes: &mut Vec<u8>) {
    if words == 1 {
        bytes.push(random.pick(&[ZERO, TRUE, FALSE]));
    } else if words >= 4 && random.chance(30) {
        bytes.push(IF);
        for part in random.split(words - 1, 3) {
            byte_term(random, part, bytes);
        }
    } else {
        bytes.push(SUCC);
        byte_term(random, words - 1, bytes);
    }
}

/// A sound program of 8,191 to 8,194 bytes: 32 functions with two rules each.
/// With all exceptions and arity 4 its own list is among the longest.
fn program_bytes_ceiling(random: &mut Random) -> (Vec<u8>, Vec<u8>) {
    let target = random.pick(&[8_191, 8_192, 8_192, 8_193, 8_193, 8_194]);
    let arity = random.pick(&[1, 2, 3, MAX_ARITY, MAX_ARITY]);
    let mut program = Vec::new();
    for exception in 0..random.pick(&[0, 2, MAX_EXCEPTIONS, MAX_EXCEPTIONS]) as u8 {
        program.extend([EXCEPTION, exception]);
    }
    for function in 0..MAX_FUNCTIONS as u8 {
        program.extend([FUNCTION, function, arity as u8]);
    }
    let zeros = vec![ZERO; arity - 1];
    let base_case = [vec![ZERO], zeros.clone()].concat();
    let other_case: &[u8] = random.pick(&[&[TRUE], &[SUCC, VARIABLE, 0]]);
    let other_case = [other_case.to_vec(), zeros.clone()].concat();
    let lefts = MAX_FUNCTIONS * (2 + base_case.len() + 2 + other_case.len());
    let rights = target - program.len() - lefts - 1;
    let mut sizes = vec![rights / MAX_RULES; MAX_RULES];
    for size in &mut sizes[..rights % MAX_RULES] {
        *size += 1;
    }
    for _ in 0..MAX_RULES {
        let (from, to) = (random.below(MAX_RULES), random.below(MAX_RULES));
        let moved = random.below(sizes[from]).min(MAX_RIGHT_WORDS - sizes[to]);
        if from != to {
            sizes[from] -= moved;
            sizes[to] += moved;
        }
    }
    for (i, size) in sizes.into_iter().enumerate() {
        program.extend([RULE, (i / 2) as u8]);
        program.extend(if i % 2 == 0 { &base_case } else { &other_case });
        byte_term(random, size, &mut program);
    }
    program.push(END);
    let argument: &[u8] = random.pick(&[&[SUCC, ZERO], &[TRUE], &[ZERO]]);
    let function = random.below(MAX_FUNCTIONS) as u8;
    let question = [&[CALL, function], argument, &zeros].concat();
    (program, question)
}

/// A program in which one to three functions lost their rules: refusal 17, with what
/// comes later (bytes left over, an overlap, a bad question) now and then behind it,
/// and without its end record now and then.
fn lost_rules(random: &mut Random) -> (Vec<u8>, Vec<u8>) {
    let exceptions = random.pick(&[0, 1, 3, MAX_EXCEPTIONS]);
    let functions = random.pick(&[1, 2, 3, 5, MAX_FUNCTIONS]);
    let shape = shape(random, exceptions, functions);
    let mut rules = lefts(random, &shape, functions);
    if random.chance(25) {
        rules.extend_from_within(..); // an overlap
        rules.truncate(MAX_RULES);
    }
    for _ in 0..random.pick(&[1, 1, 2, 3]) {
        let any = random.below(functions);
        let lost = random.pick(&[0, any, functions - 1]);
        rules.retain(|(function, _)| *function != lost);
    }
    let mut program = written(random, &shape, rules);
    match random.below(10) {
        0 | 1 => program.push(random.pick(&[END, ZERO, 0xff])),
        2 => drop(program.pop()),
        _ => {}
    }
    let mut question = question(random, &shape);
    if random.chance(20) {
        question.pop();
    }
    (program, question)
}

fn exceptions_ceiling(random: &mut Random, past: usize) -> (Vec<u8>, Vec<u8>) {
    let mut program = Vec::new();
    for exception in 0..MAX_EXCEPTIONS as u8 {
        program.extend([EXCEPTION, exception]);
    }
    if past == 1 {
        program.push(EXCEPTION);
        if random.chance(85) {
            program.push(random.pick(&[16, 0, 255]));
        }
    }
    if random.chance(85) {
        program.push(END);
    }
    let raised = random.between(12, 17) as u8;
    let caught = random.between(12, 17) as u8;
    (program, vec![HANDLE, caught, RAISE, raised, SUCC, ZERO])
}

fn functions_ceiling(random: &mut Random, past: usize) -> (Vec<u8>, Vec<u8>) {
    let mut shape = shape(random, 0, MAX_FUNCTIONS);
    for signature in &mut shape.signatures {
        signature.arguments.truncate(2);
    }
    let mut program = declarations(&shape);
    if past == 1 {
        program.push(FUNCTION);
        if random.chance(85) {
            program.push(random.pick(&[32, 0, 255]));
            program.push(random.pick(&[0, 4, 5]));
        }
    } else {
        plain_rules(random, &shape, MAX_FUNCTIONS, &mut program);
    }
    program.push(END);
    let function = random.between(30, 33) as u8;
    (program, vec![CALL, function, ZERO, ZERO])
}

fn arity_ceiling(random: &mut Random, past: usize) -> (Vec<u8>, Vec<u8>) {
    let arity = match past {
        0 => MAX_ARITY as u8,
        _ => random.pick(&[5, 5, 6, 255]),
    };
    let mut program = vec![FUNCTION, 0, arity, RULE, 0];
    for variable in 0..4 {
        program.extend([VARIABLE, variable]);
    }
    program.extend([VARIABLE, random.below(5) as u8, END]);
    (program, vec![CALL, 0, ZERO, TRUE, SUCC, ZERO, FALSE])
}

fn rules_ceiling(random: &mut Random, past: usize) -> (Vec<u8>, Vec<u8>) {
    let mut shape = small_shape(random);
    shape.signatures.push(signature(random, MAX_ARITY));
    let function = shape.signatures.len() - 1;
    let mut program = declarations(&shape);
    plain_rules(random, &shape, function, &mut program);
    let sorts = [Sort::Number; MAX_ARITY];
    for row in rows(random, &sorts, MAX_RULES - function, true) {
        let right = random.between(1, 9);
        rule(random, &shape, function, &row, right, &mut program);
    }
    if past == 1 {
        program.push(RULE);
        if random.chance(90) {
            program.push(random.pick(&[0, function as u8, 200]));
            program.extend([TRUE, TRUE, TRUE, TRUE, ZERO]);
        }
    }
    program.push(END);
    let question = question(random, &shape);
    (program, question)
}

fn variable_ceiling(random: &mut Random, past: usize) -> (Vec<u8>, Vec<u8>) {
    let number = 7 + past as u8;
    let spot = random.below(4);
    let left = if spot == 0 || spot == 1 { number } else { 7 };
    let right = if spot == 0 || spot == 2 { number } else { 7 };
    let program = vec![
        FUNCTION, 0, 1, RULE, 0, SUCC, VARIABLE, left, VARIABLE, right, END,
    ];
    let question = match spot {
        3 => vec![SUCC, VARIABLE, number],
        _ => vec![CALL, 0, SUCC, SUCC, TRUE],
    };
    (program, question)
}

/// The last built-in function that may be called, or one past it, the helper above
/// all: on a left side, on a right side or in the question.
fn builtin_ceiling(random: &mut Random, past: usize) -> (Vec<u8>, Vec<u8>) {
    let last = LAST_CALLED as u8;
    let number = match past {
        0 => last,
        _ => random.pick(&[last + 1, last + 1, last + 1, 12, 13, 14, 15, 16]),
    };
    let variable = vec![VARIABLE, 0];
    let mut parts = [variable.clone(), variable, vec![CALL, 0, SUCC, ZERO]];
    parts[random.below(3)] = vec![BUILTIN, number, SUCC, SUCC, ZERO, SUCC, ZERO];
    let [left, right, question] = parts;
    let program = [&[FUNCTION, 0, 1, RULE, 0], &left[..], &right, &[END]].concat();
    (program, question)
}

fn left_ceiling(random: &mut Random, past: usize) -> (Vec<u8>, Vec<u8>) {
    let mut shape = small_shape(random);
    let arity = random.between(1, MAX_ARITY);
    shape.signatures.push(signature(random, arity));
    let function = shape.signatures.len() - 1;
    let mut program = declarations(&shape);
    let sizes = random.split(MAX_LEFT_WORDS - 1 + past, arity);
    let row: Vec<Pattern> = sizes
        .iter()
        .map(|size| Pattern {
            succs: size - 1,
            end: random.pick(&[VARIABLE, ZERO, TRUE]),
        })
        .collect();
    let right = random.between(1, 9);
    rule(random, &shape, function, &row, right, &mut program);
    plain_rules(random, &shape, function, &mut program);
    program.push(END);
    let mut question = vec![CALL, function as u8];
    for pattern in row {
        let succs = pattern.succs + random.pick(&[0, 0, 0, 1, 3]);
        question.extend(vec![SUCC; succs]);
        question.push(match pattern.end {
            VARIABLE => random.pick(&[ZERO, TRUE, FALSE]),
            end => end,
        });
    }
    (program, question)
}

fn right_ceiling(random: &mut Random, past: usize) -> (Vec<u8>, Vec<u8>) {
    let mut shape = small_shape(random);
    let arity = random.between(0, MAX_ARITY);
    shape.signatures.push(signature(random, arity));
    let function = shape.signatures.len() - 1;
    let mut program = declarations(&shape);
    let row = vec![ANY; arity];
    let words = MAX_RIGHT_WORDS + past;
    rule(random, &shape, function, &row, words, &mut program);
    plain_rules(random, &shape, function, &mut program);
    program.push(END);
    let mut question = vec![CALL, function as u8];
    for _ in 0..arity {
        question.extend([SUCC, SUCC, ZERO]);
    }
    (program, question)
}

/// A function that calls itself ever deeper: terms as large as any room, with
/// a path as long.
pub fn growing(random: &mut Random) -> (Vec<u8>, Vec<u8>) {
    let (root, rest, words): (&[u8], &[u8], usize) = random.pick(&[
        (&[SUCC], &[], 1),
        (&[BUILTIN, 2], &[], 1),
        (&[BUILTIN, 0], &[ZERO], 2),
        (&[IF], &[TRUE, FALSE], 3),
        (&[HANDLE, 0], &[ZERO], 3),
    ]);
    let most = (MAX_RIGHT_WORDS - 1) / words;
    let count = random.between(most / 2, most);
    let mut program = vec![EXCEPTION, 0, FUNCTION, 0, 0, RULE, 0];
    program.extend(root.repeat(count));
    program.extend([CALL, 0]);
    program.extend(rest.repeat(count));
    program.push(END);
    (program, vec![CALL, 0])
}

/// Everything declared that can be: the longest own lists.
fn largest(random: &mut Random) -> (Vec<u8>, Vec<u8>) {
    let shape = Shape {
        exceptions: MAX_EXCEPTIONS,
        signatures: (0..MAX_FUNCTIONS)
            .map(|_| signature(random, MAX_ARITY))
            .collect(),
        tame: random.chance(50),
    };
    let mut program = declarations(&shape);
    let longest = random.pick(&[8, 40, 64, 90]);
    for function in 0..MAX_FUNCTIONS {
        let sorts = &shape.signatures[function].arguments;
        for row in rows(random, sorts, 2, true) {
            let right = random.between(1, longest);
            rule(random, &shape, function, &row, right, &mut program);
        }
    }
    program.push(END);
    let question = question(random, &shape);
    (program, question)
}

/// Kinds that may not stand on a left side, with numbers good and bad.
fn left_side_nodes(random: &mut Random) -> (Vec<u8>, Vec<u8>) {
    let mut program = vec![EXCEPTION, 0, EXCEPTION, 1, FUNCTION, 0, 2, FUNCTION, 1, 0];
    program.extend([RULE, 0]);
    program.extend(vec![SUCC; random.pick(&[0, 1, 29, 30, 31])]);
    let kind = random.pick(&[RAISE, HANDLE, IF, BUILTIN, CALL, EXCEPTION, END, 0x1a, 0x05]);
    program.push(kind);
    for _ in 0..body_length(kind).unwrap_or(0) {
        let last = LAST_CALLED as u8;
        program.push(random.pick(&[0, 1, 2, last, last + 1, last + 2, 200]));
    }
    program.extend([VARIABLE, 0, VARIABLE, 0, ZERO, ZERO, END]);
    if random.chance(25) {
        let length = random.between(12, program.len());
        program.truncate(length);
    }
    (program, vec![ZERO])
}

// ----------------------------------------------------- allowances and slices

/// The longest run that is made only to choose allowances.
const LOOK_AHEAD: u64 = 600;

fn with_allowances(random: &mut Random, program: Vec<u8>, question: Vec<u8>) -> Case {
    let checked = check_program(&program).and_then(|program| {
        check_question(&program, &question).map(|question| (program, question))
    });
    let mut case = match checked {
        Ok((checked_program, checked_question)) => {
            let (steps, levels, room) = chosen(random, &checked_program, &checked_question);
            let own = own_list(&checked_program).len() as u64;
            Case {
                program,
                question,
                steps,
                levels,
                room,
                own: around(random, own),
                first: around(random, room),
                second: around(random, room),
            }
        }
        Err(_) => {
            let room = random.between(1, 300) as u64;
            Case {
                program,
                question,
                steps: random.below(3_000) as u64,
                levels: random.between(1, 1_000) as u64,
                room,
                own: random.below(14_000) as u64,
                first: around(random, room),
                second: around(random, room),
            }
        }
    };
    // Now and then an allowance at or past the end of its range.
    if random.chance(4) {
        match random.below(3) {
            0 => case.steps = random.pick(&[1_000_001, 1_000_001, 2_000_000, 4_294_967_295]),
            1 => case.levels = random.pick(&[0, 0, 1_001, 1_001, 65_536, 4_294_967_295]),
            _ => case.room = random.pick(&[0, 0, 4_097, 4_097, 65_536, 4_294_967_295]),
        }
    }
    case
}

/// A slice length: mostly enough, now and then one too short or much too short.
fn around(random: &mut Random, exact: u64) -> u64 {
    match random.below(100) {
        0 | 1 => exact.saturating_sub(1),
        2 => random.below(exact as usize + 1) as u64,
        3..=49 => exact,
        50..=79 => exact + 3,
        _ => exact + random.below(40) as u64,
    }
}

/// Steps, levels and room for a sound case, with a view to what it does.
fn chosen(random: &mut Random, program: &Program, question: &Term) -> (u64, u64, u64) {
    let near = |random: &mut Random, n: u64| (n + random.below(3) as u64).saturating_sub(1);

    let steps = match random.below(1_000) {
        0..=349 => random.below(41) as u64,
        350..=619 => {
            let found = evaluator::evaluate(program, question, LOOK_AHEAD, MAX_LEVELS);
            near(random, found.steps)
        }
        620..=979 => random.below(3_001) as u64,
        980..=996 => 100_000,
        _ => random.pick(&[999_999, 1_000_000]),
    };
    let long = steps > 3_000;

    let levels = match random.below(100) {
        0..=29 => MAX_LEVELS,
        30..=39 => 500,
        40..=64 => random.between(1, 20) as u64,
        65..=79 => random.between(1, MAX_LEVELS as usize) as u64,
        _ => {
            let enough = least_levels(program, question, steps.min(LOOK_AHEAD));
            near(random, enough).clamp(MIN_LEVELS, MAX_LEVELS)
        }
    };

    let own = own_list(program);
    let rules = Rules::new(program, &own);
    let words = term_words(question);
    let question_length = words.len() as u64;
    let mut lengths = Vec::new();
    let look_ahead = steps.min(LOOK_AHEAD);
    rewriter::rewrite(&rules, &words, look_ahead, 1_000, |term| {
        lengths.push(term.len() as u64)
    });
    let longest = lengths.iter().copied().max().unwrap_or(question_length);
    let room = match random.below(100) {
        0..=14 => near(random, question_length),
        15..=29 => near(random, longest),
        30..=39 if !lengths.is_empty() => {
            let length = random.pick(&lengths);
            near(random, length)
        }
        40..=47 => random.between(1, 64) as u64,
        48..=57 if !long => MAX_ROOM,
        _ => random.between(100, 1_000) as u64,
    };
    let most = if long {
        300.max(question_length)
    } else {
        MAX_ROOM
    };
    (steps, levels, room.clamp(MIN_ROOM, most))
}

/// The fewest levels that are not too few (or the most that may be allowed).
fn least_levels(program: &Program, question: &Term, steps: u64) -> u64 {
    let (mut low, mut high) = (MIN_LEVELS, MAX_LEVELS);
    while low < high {
        let middle = (low + high) / 2;
        let found = evaluator::evaluate(program, question, steps, middle);
        if found.ending == Ending::TooDeep {
            low = middle + 1;
        } else {
            high = middle;
        }
    }
    low
}
