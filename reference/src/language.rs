//! What a rule program is once its bytes have been read: terms, rules,
//! functions, the built-in functions, and how a run can end.

use std::sync::OnceLock;

// The ceilings.
pub const MAX_PROGRAM_BYTES: usize = 8_192;
pub const MAX_EXCEPTIONS: usize = 16;
pub const MAX_FUNCTIONS: usize = 32;
pub const MAX_ARITY: usize = 4;
pub const MAX_RULES: usize = 64;
pub const VARIABLES: usize = 8;
pub const MAX_LEFT_WORDS: usize = 32;
pub const MAX_RIGHT_WORDS: usize = 128;
pub const MAX_QUESTION_WORDS: usize = 512;

// The allowances.
pub const MAX_STEPS: u64 = 1_000_000;
pub const MIN_LEVELS: u64 = 1;
pub const MAX_LEVELS: u64 = 1_000;
pub const MIN_ROOM: u64 = 1;
pub const MAX_ROOM: u64 = 4_096;

/// Function numbers: built-in b is b, declared f is 16 + f.
pub const FIRST_DECLARED: usize = 16;

/// What stands at the bottom of a value.
#[derive(Clone, Copy, Debug, PartialEq, Eq)]
pub enum Base {
    Zero,
    True,
    False,
}

/// A value: k times succ over a base.
#[derive(Clone, Copy, Debug, PartialEq, Eq)]
pub struct Value {
    pub k: u32,
    pub base: Base,
}

#[derive(Clone, Debug, PartialEq, Eq)]
pub enum Term {
    /// 0, True or False.
    Constant(Base),
    Succ(Box<Term>),
    Variable(u8),
    Raise(u8),
    Handle {
        guarded: Box<Term>,
        exception: u8,
        handler: Box<Term>,
    },
    If {
        condition: Box<Term>,
        yes: Box<Term>,
        no: Box<Term>,
    },
    /// A call of a built-in or declared function, by its function number.
    Call {
        function: usize,
        arguments: Vec<Term>,
    },
}

/// One rule of a function. `place` is where its opening record stands in the
/// program's bytes (0 for a built-in's rule).
#[derive(Clone, Debug, PartialEq, Eq)]
pub struct Rule {
    pub place: usize,
    pub left: Vec<Term>,
    pub right: Term,
}

/// A function with its rules in program order.
#[derive(Clone, Debug, PartialEq, Eq)]
pub struct Function {
    pub arity: usize,
    pub rules: Vec<Rule>,
}

#[derive(Clone, Debug, Default, PartialEq, Eq)]
pub struct Program {
    pub exceptions: usize,
    pub functions: Vec<Function>,
}

impl Program {
    /// The function with this function number.
    pub fn function(&self, number: usize) -> &Function {
        if number < FIRST_DECLARED {
            &builtins()[number]
        } else {
            &self.functions[number - FIRST_DECLARED]
        }
    }
}

/// How a run ends.
#[derive(Clone, Copy, Debug, PartialEq, Eq)]
pub enum Ending {
    Value(Value),
    Exception(u8),
    /// Stuck, with the succ signs on the outside of the stuck form.
    Stuck(u32),
    OutOfSteps,
    TooDeep,
    TooBig,
}

/// A run's ending and its count of steps.
#[derive(Clone, Copy, Debug, PartialEq, Eq)]
pub struct Answer {
    pub ending: Ending,
    pub steps: u64,
}

/// The last built-in function that a program or a question may call. The one
/// after it, -, is for the rules of div and mod alone.
pub const LAST_CALLED: usize = 10;

/// The built-in functions with their rules. Variables are numbered by
/// first appearance on the left. A built-in's arity is that of its rules.
pub fn builtins() -> &'static [Function] {
    static BUILTINS: OnceLock<Vec<Function>> = OnceLock::new();
    BUILTINS.get_or_init(|| {
        let zero = || Term::Constant(Base::Zero);
        let yes = || Term::Constant(Base::True);
        let no = || Term::Constant(Base::False);
        let v = Term::Variable;
        let succ = |part| Term::Succ(Box::new(part));
        let call = |function, first, second| Term::Call {
            function,
            arguments: vec![first, second],
        };
        let not = |part| Term::Call {
            function: 2,
            arguments: vec![part],
        };
        let either = |condition, yes, no| Term::If {
            condition: Box::new(condition),
            yes: Box::new(yes),
            no: Box::new(no),
        };
        let rule = |left, right| Rule {
            place: 0,
            left,
            right,
        };
        let rules = [
            // 0: +
            vec![
                rule(vec![zero(), v(0)], v(0)),
                rule(vec![succ(v(0)), v(1)], succ(call(0, v(0), v(1)))),
            ],
            // 1: *
            vec![
                rule(vec![zero(), v(0)], zero()),
                rule(vec![succ(v(0)), v(1)], call(0, v(1), call(1, v(0), v(1)))),
            ],
            // 2: not
            vec![rule(vec![yes()], no()), rule(vec![no()], yes())],
            // 3: <=
            vec![
                rule(vec![zero(), v(0)], yes()),
                rule(vec![succ(v(0)), zero()], no()),
                rule(vec![succ(v(0)), succ(v(1))], call(3, v(0), v(1))),
            ],
            // 4: <
            vec![
                rule(vec![v(0), zero()], no()),
                rule(vec![zero(), succ(v(0))], yes()),
                rule(vec![succ(v(0)), succ(v(1))], call(4, v(0), v(1))),
            ],
            // 5: =
            vec![
                rule(vec![zero(), zero()], yes()),
                rule(vec![zero(), succ(v(0))], no()),
                rule(vec![succ(v(0)), zero()], no()),
                rule(vec![succ(v(0)), succ(v(1))], call(5, v(0), v(1))),
                rule(vec![yes(), yes()], yes()),
                rule(vec![yes(), no()], no()),
                rule(vec![no(), yes()], no()),
                rule(vec![no(), no()], yes()),
            ],
            // 6: >=
            vec![rule(vec![v(0), v(1)], call(3, v(1), v(0)))],
            // 7: >
            vec![rule(vec![v(0), v(1)], call(4, v(1), v(0)))],
            // 8: <>
            vec![rule(vec![v(0), v(1)], not(call(5, v(0), v(1))))],
            // 9: div
            vec![rule(
                vec![v(0), succ(v(1))],
                either(
                    call(4, v(0), succ(v(1))),
                    zero(),
                    succ(call(9, call(11, v(0), succ(v(1))), succ(v(1)))),
                ),
            )],
            // 10: mod
            vec![rule(
                vec![v(0), succ(v(1))],
                either(
                    call(4, v(0), succ(v(1))),
                    v(0),
                    call(10, call(11, v(0), succ(v(1))), succ(v(1))),
                ),
            )],
            // 11: -
            vec![
                rule(vec![v(0), zero()], v(0)),
                rule(vec![succ(v(0)), succ(v(1))], call(11, v(0), v(1))),
            ],
        ];
        let with_arity = |rules: Vec<Rule>| Function {
            arity: rules[0].left.len(),
            rules,
        };
        rules.into_iter().map(with_arity).collect()
    })
}
