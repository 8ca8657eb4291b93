//! The figures of document 004: the programs of figures 2, 5, 6, 7 and 8, the
//! rule list of figure 3, and the terms of figure 4 with definition 4.1's
//! `fire(A)` where the ninth arrow leaves `raise(A)`.

use reference::checker::{check_program, check_question};
use reference::evaluator;
use reference::language::*;
use reference::lines::{answer_text, from_hex};
use reference::rewriter::{self, Rules};
use reference::translator::*;

const FIGURE_2: &str = "0100010102000103001400160018001500190010111004";
const FIGURE_5: &str = "010001010200010300140016001712150019001400111004";
const FIGURE_6: &str = "010001010200010300140016001713150019001400111004";
const FIGURE_7: &str = "01000101020001030014001600171803101110150019001400111004";
const FIGURE_8: &str = "0200010300101110030011140018011114001900140004";

fn program(hex: &str) -> Program {
    check_program(&from_hex(hex.as_bytes()).unwrap()).unwrap()
}

/// Both engines' answers to f(succ^n(0)).
fn answers(program: &Program, n: usize, steps: u64) -> [String; 2] {
    let mut bytes = vec![0x19, 0];
    bytes.extend(vec![0x11; n]);
    bytes.push(0x10);
    let question = check_question(program, &bytes).unwrap();
    let own = own_list(program);
    let rules = Rules::new(program, &own);
    let evaluated = evaluator::evaluate(program, &question, steps, 500);
    let (rewritten, _) = rewriter::rewrite(&rules, &term_words(&question), steps, 4_096, |_| {});
    [answer_text(evaluated), answer_text(rewritten)]
}

fn both(text: &str) -> [String; 2] {
    [text.to_string(), text.to_string()]
}

#[test]
fn the_programs_that_end() {
    let steps = 100_000;
    let run = |hex, n| answers(&program(hex), n, steps);
    assert_eq!(run(FIGURE_2, 0), both("value 1 zero 13"));
    assert_eq!(run(FIGURE_5, 0), both("value 1 zero 10"));
    assert_eq!(run(FIGURE_7, 0), both("value 1 zero 19"));
    // By the table: 1 for the call, 0+0+3 for its argument, 1 for the fit.
    assert_eq!(run(FIGURE_8, 0), both("value 1 zero 5"));
    assert_eq!(run(FIGURE_8, 1), both("value 1 zero 47"));
    // Factorials.
    for (n, factorial) in [(2, 2), (3, 6), (4, 24)] {
        for answer in run(FIGURE_8, n) {
            assert!(answer.starts_with(&format!("value {factorial} zero ")));
        }
    }
}

#[test]
fn figure_6_runs_out_of_steps() {
    let program = program(FIGURE_6);
    for steps in [0, 1, 2, 10, 100, 999, 1_000] {
        let out = format!("out - - {steps}");
        assert_eq!(answers(&program, 0, steps), both(&out));
    }
}

/// Reads terms written as in the paper, with `f_1` for an auxiliary. Variables
/// are numbered from 64 by first appearance.
struct Text<'a> {
    rest: &'a str,
    variables: Vec<char>,
}

impl Text<'_> {
    fn term(&mut self, words: &mut Vec<u16>) {
        let end = self.rest.find(['(', ')', ',']).unwrap_or(self.rest.len());
        let (name, rest) = self.rest.split_at(end);
        self.rest = rest;
        words.push(self.word(name));
        if self.eat('(') {
            loop {
                self.term(words);
                if !self.eat(',') {
                    break;
                }
            }
            assert!(self.eat(')'));
        }
    }

    fn eat(&mut self, sign: char) -> bool {
        match self.rest.strip_prefix(sign) {
            Some(rest) => {
                self.rest = rest;
                true
            }
            None => false,
        }
    }

    fn word(&mut self, name: &str) -> u16 {
        match name {
            "0" => 1,
            "succ" => 2,
            "True" => 3,
            "False" => 4,
            "tt" => 5,
            "fire" => 6,
            "guard" => 7,
            "select" => 8,
            "isData" => 9,
            "if" => 10,
            "raise" => 11,
            "handle" => 12,
            "A" => 32,
            "B" => 33,
            "x" | "y" | "z" => {
                let name = name.chars().next().unwrap();
                let seen = self.variables.iter().position(|v| *v == name);
                let number = seen.unwrap_or_else(|| {
                    self.variables.push(name);
                    self.variables.len() - 1
                });
                64 + number as u16
            }
            _ => {
                let (function, auxiliary) = name.split_once('_').unwrap_or((name, "0"));
                let function = match function {
                    "+" => 256,
                    "f" => 384,
                    _ => panic!("no symbol: {name}"),
                };
                function + auxiliary.parse::<u16>().unwrap()
            }
        }
    }
}

fn words(text: &str) -> Vec<u16> {
    let mut words = Vec::new();
    let mut text = Text {
        rest: text,
        variables: Vec::new(),
    };
    text.term(&mut words);
    assert_eq!(text.rest, "");
    words
}

/// A rule `l -> r` as its words with the two counts.
fn rule(text: &str) -> Vec<u16> {
    let (left, right) = text.split_once(" -> ").unwrap();
    let mut reader = Text {
        rest: left,
        variables: Vec::new(),
    };
    let (mut left, mut right_words) = (Vec::new(), Vec::new());
    reader.term(&mut left);
    reader.rest = right;
    reader.term(&mut right_words);
    assert_eq!(reader.rest, "");
    let counts = vec![left.len() as u16, right_words.len() as u16];
    [counts, left, right_words].concat()
}

const FIGURE_3_STANDING: [&str; 12] = [
    "guard(tt,y) -> y",
    "guard(fire(x),y) -> fire(x)",
    "isData(succ(x)) -> isData(x)",
    "isData(0) -> tt",
    "isData(True) -> tt",
    "isData(False) -> tt",
    "isData(fire(x)) -> fire(x)",
    "succ(fire(x)) -> fire(x)",
    "if(True,y,z) -> y",
    "if(False,y,z) -> z",
    "if(fire(x),y,z) -> fire(x)",
    "select(tt,x,y,z) -> x",
];

const FIGURE_3_EXCEPTIONS: [&str; 8] = [
    "raise(A) -> fire(A)",
    "raise(B) -> fire(B)",
    "handle(x,A,z) -> select(isData(x),x,A,z)",
    "handle(x,B,z) -> select(isData(x),x,B,z)",
    "select(fire(A),x,A,z) -> z",
    "select(fire(B),x,B,z) -> z",
    "select(fire(A),x,B,z) -> fire(A)",
    "select(fire(B),x,A,z) -> fire(B)",
];

const FIGURE_3_PLUS: [&str; 5] = [
    "+(x,y) -> +_1(x,y)",
    "+_1(x,y) -> guard(isData(x),+_2(x,y))",
    "+_2(x,y) -> guard(isData(y),+_3(x,y))",
    "+_3(0,y) -> y",
    "+_3(succ(x),y) -> succ(+(x,y))",
];

const FIGURE_3_F: [&str; 3] = [
    "f(x) -> f_1(x)",
    "f_1(x) -> guard(isData(x),f_2(x))",
    "f_2(x) -> handle(+(raise(A),f(0)),A,succ(0))",
];

#[test]
fn figure_3() {
    let standing: Vec<Vec<u16>> = FIGURE_3_STANDING
        .iter()
        .chain(&FIGURE_3_PLUS)
        .map(|text| rule(text))
        .collect();
    assert_eq!(rules_of(standing_list())[..17], standing);

    let own: Vec<Vec<u16>> = FIGURE_3_EXCEPTIONS
        .iter()
        .chain(&FIGURE_3_F)
        .map(|text| rule(text))
        .collect();
    assert_eq!(own_list(&program(FIGURE_2)), own.concat());
}

#[test]
fn figure_4() {
    let expected: Vec<Vec<u16>> = [
        "f(0)",
        "f_1(0)",
        "guard(isData(0),f_2(0))",
        "guard(tt,f_2(0))",
        "f_2(0)",
        "handle(+(raise(A),f(0)),A,succ(0))",
        "handle(+_1(raise(A),f(0)),A,succ(0))",
        "handle(+_1(fire(A),f(0)),A,succ(0))",
        "handle(guard(isData(fire(A)),+_2(fire(A),f(0))),A,succ(0))",
        "handle(guard(fire(A),+_2(fire(A),f(0))),A,succ(0))",
        "handle(fire(A),A,succ(0))",
        "select(isData(fire(A)),fire(A),A,succ(0))",
        "select(fire(A),fire(A),A,succ(0))",
        "succ(0)",
    ]
    .iter()
    .map(|text| words(text))
    .collect();
    let program = program(FIGURE_2);
    let own = own_list(&program);
    let rules = Rules::new(&program, &own);
    let mut seen = Vec::new();
    rewriter::rewrite(&rules, &words("f(0)"), 100, 100, |term| {
        seen.push(term.to_vec())
    });
    assert_eq!(seen, expected);
}

#[test]
fn the_standing_list_is_the_table_of_the_code() {
    let text = include_str!("../../crates/rules/src/table.rt");
    let rows = text.split("] = [\n").nth(1).unwrap();
    let rows = rows.split("];").next().unwrap();
    let list: Vec<u16> = rows
        .lines()
        .flat_map(|row| row.split("//").next().unwrap().split(','))
        .filter(|word| !word.trim().is_empty())
        .map(|word| word.trim().parse().unwrap())
        .collect();
    assert_eq!(list, standing_list());
    assert_eq!((rules_of(&list).len(), list.len()), (74, 649));
}

#[test]
fn the_standing_list_is_well_formed_and_free_of_overlap() {
    let program = check_program(&[0x04]).unwrap();
    let system = Rules::new(&program, &[]);
    let rules = rules_of(standing_list());
    for rule in &rules {
        let (left, right) = sides(rule);
        assert_eq!(system.end_of_term(left, 0), left.len());
        assert_eq!(system.end_of_term(right, 0), right.len());
        let is_variable = |word: &&u16| (64..72).contains(*word);
        let mut seen: Vec<u16> = left.iter().filter(is_variable).copied().collect();
        // Numbered by first appearance, none twice.
        assert!(seen.iter().enumerate().all(|(i, v)| *v == 64 + i as u16));
        seen.dedup();
        assert!(right.iter().filter(is_variable).all(|v| seen.contains(v)));
    }
    // Two left sides have a common instance if at each place one of them has a
    // variable or both have the same word.
    let common = |a: &[u16], b: &[u16]| {
        let (mut i, mut j) = (0, 0);
        while i < a.len() && j < b.len() {
            if (64..72).contains(&a[i]) || (64..72).contains(&b[j]) {
                (i, j) = (system.end_of_term(a, i), system.end_of_term(b, j));
            } else if a[i] == b[j] {
                (i, j) = (i + 1, j + 1);
            } else {
                return false;
            }
        }
        true
    };
    for (i, rule) in rules.iter().enumerate() {
        for earlier in &rules[..i] {
            assert!(!common(sides(earlier).0, sides(rule).0));
        }
    }
}
