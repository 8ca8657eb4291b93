//! The checker: bytes in, a program or a question out, or the first refusal
//! with its number, the string it is about, and the byte place in that string.

use crate::language::*;

/// Which string a refusal is about.
#[derive(Clone, Copy, Debug, PartialEq, Eq)]
pub enum About {
    Program,
    Question,
}

#[derive(Clone, Copy, Debug, PartialEq, Eq)]
pub struct Refusal {
    pub about: About,
    pub number: u8,
    pub place: usize,
}

// The kinds of record.
pub const EXCEPTION: u8 = 0x01;
pub const FUNCTION: u8 = 0x02;
pub const RULE: u8 = 0x03;
pub const END: u8 = 0x04;
pub const ZERO: u8 = 0x10;
pub const SUCC: u8 = 0x11;
pub const TRUE: u8 = 0x12;
pub const FALSE: u8 = 0x13;
pub const VARIABLE: u8 = 0x14;
pub const RAISE: u8 = 0x15;
pub const HANDLE: u8 = 0x16;
pub const IF: u8 = 0x17;
pub const BUILTIN: u8 = 0x18;
pub const CALL: u8 = 0x19;

/// How many bytes follow a kind byte; nothing for an unknown kind.
pub fn body_length(kind: u8) -> Option<usize> {
    match kind {
        EXCEPTION | RULE | VARIABLE | RAISE | HANDLE | BUILTIN | CALL => Some(1),
        FUNCTION => Some(2),
        END | ZERO | SUCC | TRUE | FALSE | IF => Some(0),
        _ => None,
    }
}

/// Checks a program: refusals 1 to 9, then 17, then 11, then 10.
pub fn check_program(bytes: &[u8]) -> Result<Program, Refusal> {
    let mut reader = Reader {
        about: About::Program,
        bytes,
        at: 0,
    };
    if bytes.len() > MAX_PROGRAM_BYTES {
        return Err(reader.refusal(1, 0));
    }
    let program = reader.program()?;
    let lost = program.functions.iter().position(|f| f.rules.is_empty());
    if let Some(function) = lost {
        return Err(reader.refusal(17, declaration(&program, function)));
    }
    reader.nothing_left()?;
    match first_overlap(&program) {
        Some(place) => Err(reader.refusal(10, place)),
        None => Ok(program),
    }
}

/// The place of a declared function's 02 record. Before it stand all exceptions, two
/// bytes each, and the functions below it, three bytes each: numbers rise by one.
fn declaration(program: &Program, function: usize) -> usize {
    2 * program.exceptions + 3 * function
}

/// Checks a question of a program: refusals 2, 3, 4, 7, 8, then 11.
pub fn check_question(program: &Program, bytes: &[u8]) -> Result<Term, Refusal> {
    let mut reader = Reader {
        about: About::Question,
        bytes,
        at: 0,
    };
    let mut side = Side {
        is_left: false,
        ceiling: MAX_QUESTION_WORDS,
        words: 0,
        variables: [false; VARIABLES],
    };
    let question = reader.term(program, &mut side)?;
    reader.nothing_left()?;
    Ok(question)
}

/// One record: its first byte's place, its kind, and up to two body bytes
/// (zero where the body is shorter).
struct Record {
    place: usize,
    kind: u8,
    first: u8,
    second: u8,
}

/// One side of a rule, or a question, while its records are being read.
struct Side {
    is_left: bool,
    ceiling: usize,
    /// Words of the records read so far; parts still owed count nothing.
    words: usize,
    /// The variables seen on the left.
    variables: [bool; VARIABLES],
}

struct Reader<'a> {
    about: About,
    bytes: &'a [u8],
    at: usize,
}

impl Reader<'_> {
    fn refusal(&self, number: u8, place: usize) -> Refusal {
        Refusal {
            about: self.about,
            number,
            place,
        }
    }

    /// Reads one record: refusal 2 where bytes end, 3 for an unknown kind.
    /// Whether a known kind may stand here is for the caller to say.
    fn record(&mut self) -> Result<Record, Refusal> {
        let place = self.at;
        let Some(&kind) = self.bytes.get(place) else {
            return Err(self.refusal(2, place));
        };
        let Some(length) = body_length(kind) else {
            return Err(self.refusal(3, place));
        };
        let Some(body) = self.bytes.get(place + 1..place + 1 + length) else {
            return Err(self.refusal(2, place));
        };
        self.at = place + 1 + length;
        Ok(Record {
            place,
            kind,
            first: body.first().copied().unwrap_or(0),
            second: body.get(1).copied().unwrap_or(0),
        })
    }

    /// Reads the records of a program through its end record.
    fn program(&mut self) -> Result<Program, Refusal> {
        let mut program = Program::default();
        let mut opened = 0; // rules
        loop {
            let record = self.record()?;
            let require = |good, number| match good {
                true => Ok(()),
                false => Err(self.refusal(number, record.place)),
            };
            let number = usize::from(record.first);
            let declared = program.functions.len();
            match record.kind {
                EXCEPTION => {
                    require(declared == 0 && opened == 0, 3)?;
                    require(program.exceptions < MAX_EXCEPTIONS, 9)?;
                    require(number == program.exceptions, 4)?;
                    program.exceptions += 1;
                }
                FUNCTION => {
                    let arity = usize::from(record.second);
                    require(opened == 0, 3)?;
                    require(declared < MAX_FUNCTIONS, 9)?;
                    require(number == declared && arity <= MAX_ARITY, 4)?;
                    let rules = Vec::new();
                    program.functions.push(Function { arity, rules });
                }
                RULE => {
                    require(opened < MAX_RULES, 9)?;
                    require(number < declared, 4)?;
                    let rule = self.rule(&program, number, record.place)?;
                    program.functions[number].rules.push(rule);
                    opened += 1;
                }
                END => return Ok(program),
                _ => require(false, 3)?,
            }
        }
    }

    /// Reads the left arguments and the right side of a rule just opened.
    fn rule(&mut self, program: &Program, function: usize, place: usize) -> Result<Rule, Refusal> {
        let mut side = Side {
            is_left: true,
            ceiling: MAX_LEFT_WORDS,
            words: 1, // the root
            variables: [false; VARIABLES],
        };
        let mut left = Vec::new();
        for _ in 0..program.functions[function].arity {
            left.push(self.term(program, &mut side)?);
        }
        side.is_left = false;
        side.ceiling = MAX_RIGHT_WORDS;
        side.words = 0;
        let right = self.term(program, &mut side)?;
        Ok(Rule { place, left, right })
    }

    /// Reads one term: its root's record, then its parts, each the same way.
    fn term(&mut self, program: &Program, side: &mut Side) -> Result<Term, Refusal> {
        // 2, and 3 for an unknown kind
        let record = self.record()?;
        let refuse = |number| Err(self.refusal(number, record.place));
        let number = usize::from(record.first);
        // 3: 01 to 04 inside a term
        if record.kind <= END {
            return refuse(3);
        }
        // 4
        let declared = match record.kind {
            VARIABLE => number < VARIABLES,
            RAISE | HANDLE => number < program.exceptions,
            BUILTIN => number <= LAST_CALLED,
            CALL => number < program.functions.len(),
            _ => true,
        };
        if !declared {
            return refuse(4);
        }
        // 5
        if side.is_left && record.kind >= RAISE {
            return refuse(5);
        }
        if record.kind == VARIABLE {
            // 6
            if side.is_left && side.variables[number] {
                return refuse(6);
            }
            if side.is_left {
                side.variables[number] = true;
            }
            // 7
            if !side.variables[number] {
                return refuse(7);
            }
        }
        // 8
        side.words += match record.kind {
            RAISE | HANDLE => 2,
            _ => 1,
        };
        if side.words > side.ceiling {
            return refuse(8);
        }
        let mut part = || self.term(program, side).map(Box::new);
        Ok(match record.kind {
            ZERO => Term::Constant(Base::Zero),
            TRUE => Term::Constant(Base::True),
            FALSE => Term::Constant(Base::False),
            SUCC => Term::Succ(part()?),
            VARIABLE => Term::Variable(record.first),
            RAISE => Term::Raise(record.first),
            HANDLE => Term::Handle {
                exception: record.first,
                guarded: part()?,
                handler: part()?,
            },
            IF => Term::If {
                condition: part()?,
                yes: part()?,
                no: part()?,
            },
            _ => {
                let function = match record.kind {
                    BUILTIN => number,
                    _ => FIRST_DECLARED + number,
                };
                let mut arguments = Vec::new();
                for _ in 0..program.function(function).arity {
                    arguments.push(self.term(program, side)?);
                }
                Term::Call {
                    function,
                    arguments,
                }
            }
        })
    }

    /// Refusal 11 if bytes are left over.
    fn nothing_left(&self) -> Result<(), Refusal> {
        if self.at < self.bytes.len() {
            return Err(self.refusal(11, self.at));
        }
        Ok(())
    }
}

/// The opening of the first rule, in byte order, that overlaps an earlier rule
/// of the same function.
fn first_overlap(program: &Program) -> Option<usize> {
    let mut first: Option<usize> = None;
    for function in &program.functions {
        for (i, rule) in function.rules.iter().enumerate() {
            let earlier = &function.rules[..i];
            if earlier.iter().any(|e| overlap_lists(&e.left, &rule.left)) {
                first = Some(first.map_or(rule.place, |place| place.min(rule.place)));
            }
        }
    }
    first
}

/// Whether some list of values fits both lists of patterns. No variable stands
/// twice on a left side, so each place can be looked at by itself.
fn overlap_lists(a: &[Term], b: &[Term]) -> bool {
    a.iter().zip(b).all(|(a, b)| overlap(a, b))
}

fn overlap(a: &Term, b: &Term) -> bool {
    match (a, b) {
        (Term::Variable(_), _) | (_, Term::Variable(_)) => true,
        (Term::Succ(a), Term::Succ(b)) => overlap(a, b),
        _ => a == b,
    }
}
