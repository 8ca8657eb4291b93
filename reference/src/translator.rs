//! The translator: terms as words, the standing list, and a program's own list
//! in document 01's order.
//!
//! A rule is stored as left count, right count, left words, right words.

use crate::language::*;
use std::sync::OnceLock;

// The words of the rewrite system.
pub const ZERO: u16 = 1;
pub const SUCC: u16 = 2;
pub const TRUE: u16 = 3;
pub const FALSE: u16 = 4;
pub const TT: u16 = 5;
pub const FIRE: u16 = 6;
pub const GUARD: u16 = 7;
pub const SELECT: u16 = 8;
pub const IS_DATA: u16 = 9;
pub const IF: u16 = 10;
pub const RAISE: u16 = 11;
pub const HANDLE: u16 = 12;
pub const FIRST_EXCEPTION: u16 = 32;
pub const FIRST_VARIABLE: u16 = 64;
pub const FIRST_FUNCTION: u16 = 256;

pub fn exception_word(exception: usize) -> u16 {
    FIRST_EXCEPTION + exception as u16
}

pub fn variable_word(variable: usize) -> u16 {
    FIRST_VARIABLE + variable as u16
}

/// The word of a function (auxiliary 0) or of one of its auxiliaries.
pub fn function_word(function: usize, auxiliary: usize) -> u16 {
    FIRST_FUNCTION + (8 * function + auxiliary) as u16
}

pub fn base_word(base: Base) -> u16 {
    match base {
        Base::Zero => ZERO,
        Base::True => TRUE,
        Base::False => FALSE,
    }
}

/// The standing list's rules that belong to no function.
#[rustfmt::skip]
const COMMON: &[u16] = &[
    3, 1,  7, 5, 64,              64,                      // guard(tt,y) -> y
    4, 2,  7, 6, 64, 65,          6, 64,                   // guard(fire(x),y) -> fire(x)
    3, 2,  9, 2, 64,              9, 64,                   // isData(succ(x)) -> isData(x)
    2, 1,  9, 1,                  5,                       // isData(0) -> tt
    2, 1,  9, 3,                  5,                       // isData(True) -> tt
    2, 1,  9, 4,                  5,                       // isData(False) -> tt
    3, 2,  9, 6, 64,              6, 64,                   // isData(fire(x)) -> fire(x)
    3, 2,  2, 6, 64,              6, 64,                   // succ(fire(x)) -> fire(x)
    4, 1,  10, 3, 64, 65,         64,                      // if(True,y,z) -> y
    4, 1,  10, 4, 64, 65,         65,                      // if(False,y,z) -> z
    5, 2,  10, 6, 64, 65, 66,     6, 64,                   // if(fire(x),y,z) -> fire(x)
    5, 1,  8, 5, 64, 65, 66,      64,                      // select(tt,x,y,z) -> x
];

/// The standing list, the same for every program: the rules of no function,
/// then each built-in function's.
pub fn standing_list() -> &'static [u16] {
    static STANDING: OnceLock<Vec<u16>> = OnceLock::new();
    STANDING.get_or_init(|| {
        let mut list = COMMON.to_vec();
        for (number, function) in builtins().iter().enumerate() {
            push_function(&mut list, number, function);
        }
        list
    })
}

/// A term as words, root first.
pub fn term_words(term: &Term) -> Vec<u16> {
    let mut words = Vec::new();
    push_term(&mut words, term);
    words
}

fn push_term(words: &mut Vec<u16>, term: &Term) {
    match term {
        Term::Constant(base) => words.push(base_word(*base)),
        Term::Succ(part) => {
            words.push(SUCC);
            push_term(words, part);
        }
        Term::Variable(variable) => words.push(variable_word(usize::from(*variable))),
        Term::Raise(exception) => {
            words.push(RAISE);
            words.push(exception_word(usize::from(*exception)));
        }
        Term::Handle {
            guarded,
            exception,
            handler,
        } => {
            words.push(HANDLE);
            push_term(words, guarded);
            words.push(exception_word(usize::from(*exception)));
            push_term(words, handler);
        }
        Term::If { condition, yes, no } => {
            words.push(IF);
            push_term(words, condition);
            push_term(words, yes);
            push_term(words, no);
        }
        Term::Call {
            function,
            arguments,
        } => {
            words.push(function_word(*function, 0));
            for argument in arguments {
                push_term(words, argument);
            }
        }
    }
}

/// The program's own list.
pub fn own_list(program: &Program) -> Vec<u16> {
    let mut list = Vec::new();
    let (x, z) = (variable_word(0), variable_word(1));
    let exceptions = || (0..program.exceptions).map(exception_word);
    // raise(E) -> fire(E)
    for e in exceptions() {
        push_rule(&mut list, &[RAISE, e], &[FIRE, e]);
    }
    // handle(x,E,z) -> select(isData(x),x,E,z)
    for e in exceptions() {
        push_rule(
            &mut list,
            &[HANDLE, x, e, z],
            &[SELECT, IS_DATA, x, x, e, z],
        );
    }
    // select(fire(E),x,E,z) -> z
    for e in exceptions() {
        push_rule(&mut list, &[SELECT, FIRE, e, x, e, z], &[z]);
    }
    // select(fire(E1),x,E2,z) -> fire(E1), E1 outermost
    for fired in exceptions() {
        for caught in exceptions().filter(|caught| *caught != fired) {
            push_rule(
                &mut list,
                &[SELECT, FIRE, fired, x, caught, z],
                &[FIRE, fired],
            );
        }
    }
    for (f, function) in program.functions.iter().enumerate() {
        push_function(&mut list, FIRST_DECLARED + f, function);
    }
    list
}

/// A function's entry rule, its argument rules from the first, and its own
/// rules with the last auxiliary at the root.
fn push_function(list: &mut Vec<u16>, number: usize, function: &Function) {
    let arity = function.arity;
    let variables: Vec<u16> = (0..arity).map(variable_word).collect();
    let over_variables = |auxiliary| {
        let mut words = vec![function_word(number, auxiliary)];
        words.extend(&variables);
        words
    };
    push_rule(list, &over_variables(0), &over_variables(1));
    for i in 1..=arity {
        let mut right = vec![GUARD, IS_DATA, variables[i - 1]];
        right.extend(over_variables(i + 1));
        push_rule(list, &over_variables(i), &right);
    }
    for rule in &function.rules {
        let mut left = vec![function_word(number, arity + 1)];
        for pattern in &rule.left {
            push_term(&mut left, pattern);
        }
        push_rule(list, &left, &term_words(&rule.right));
    }
}

fn push_rule(list: &mut Vec<u16>, left: &[u16], right: &[u16]) {
    list.push(left.len() as u16);
    list.push(right.len() as u16);
    list.extend(left);
    list.extend(right);
}

/// The rules of a list, each as the part of the list that holds it.
pub fn rules_of(list: &[u16]) -> Vec<&[u16]> {
    let mut rules = Vec::new();
    let mut rest = list;
    while !rest.is_empty() {
        let length = 2 + usize::from(rest[0]) + usize::from(rest[1]);
        let (rule, after) = rest.split_at(length);
        rules.push(rule);
        rest = after;
    }
    rules
}

/// A rule's left words and right words.
pub fn sides(rule: &[u16]) -> (&[u16], &[u16]) {
    rule[2..].split_at(usize::from(rule[0]))
}
