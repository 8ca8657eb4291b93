//! The rewriter: term by term over words, with the standing list and a
//! program's own list.
//!
//! One turn: find the deepest place on the path where a rule fits; if there is
//! none, read the ending off the term; otherwise write the next term from the
//! first buffer into the second, and let the two change places.

use crate::language::*;
use crate::translator::*;

/// Both lists, ready for use: how many parts each word has, and the rules that
/// have a given word at the root of the left side, in order, standing first.
pub struct Rules<'a> {
    parts: Vec<u8>,
    by_root: Vec<Vec<&'a [u16]>>,
}

/// A place where a rule fits.
pub struct Redex<'a> {
    /// The place of the redex's first word and the place after its last.
    pub start: usize,
    pub end: usize,
    /// The rule, as the part of the standing or own list that holds it.
    pub rule: &'a [u16],
    /// Where in the term each variable's subterm starts and ends.
    pub bound: [(usize, usize); VARIABLES],
}

impl<'a> Rules<'a> {
    pub fn new(program: &Program, own: &'a [u16]) -> Rules<'a> {
        let words = usize::from(function_word(FIRST_DECLARED + MAX_FUNCTIONS, 0));
        let mut parts = vec![0; words];
        for (word, count) in [
            (SUCC, 1),
            (FIRE, 1),
            (GUARD, 2),
            (SELECT, 4),
            (IS_DATA, 1),
            (IF, 3),
            (RAISE, 1),
            (HANDLE, 3),
        ] {
            parts[usize::from(word)] = count;
        }
        let declared = FIRST_DECLARED..FIRST_DECLARED + program.functions.len();
        for number in (0..builtins().len()).chain(declared) {
            let arity = program.function(number).arity;
            for auxiliary in 0..=arity + 1 {
                parts[usize::from(function_word(number, auxiliary))] = arity as u8;
            }
        }
        let mut by_root = vec![Vec::new(); words];
        for rule in rules_of(standing_list()).into_iter().chain(rules_of(own)) {
            let root = sides(rule).0[0];
            by_root[usize::from(root)].push(rule);
        }
        Rules { parts, by_root }
    }

    /// The place after the term that starts at `place`: its root is read, then
    /// as many parts as the root has.
    pub fn end_of_term(&self, words: &[u16], place: usize) -> usize {
        let mut at = place;
        let mut owed = 1;
        while owed > 0 {
            owed += usize::from(self.parts[usize::from(words[at])]);
            owed -= 1;
            at += 1;
        }
        at
    }

    /// The part (counted from 1) of a term with this root into which rewriting
    /// may go.
    pub fn active_part(&self, root: u16) -> Option<usize> {
        match root {
            SUCC | IF | HANDLE | GUARD | SELECT => Some(1),
            FIRST_FUNCTION.. => {
                let auxiliary = usize::from((root - FIRST_FUNCTION) % 8);
                let arity = usize::from(self.parts[usize::from(root)]);
                (1..=arity).contains(&auxiliary).then_some(auxiliary)
            }
            _ => None,
        }
    }

    /// Fills `path` with the places where rewriting may happen, root first.
    pub fn places(&self, term: &[u16], path: &mut Vec<usize>) {
        path.clear();
        let mut place = 0;
        path.push(place);
        while let Some(part) = self.active_part(term[place]) {
            place += 1;
            for _ in 1..part {
                place = self.end_of_term(term, place);
            }
            path.push(place);
        }
    }

    /// The first rule that fits the term at `place`.
    pub fn fit_at(&self, term: &[u16], place: usize) -> Option<Redex<'a>> {
        let candidates = &self.by_root[usize::from(term[place])];
        candidates.iter().find_map(|rule| {
            let mut bound = [(0, 0); VARIABLES];
            let mut at = place;
            for &word in sides(rule).0 {
                match variable_number(word) {
                    Some(variable) => {
                        let end = self.end_of_term(term, at);
                        bound[variable] = (at, end);
                        at = end;
                    }
                    None if term[at] == word => at += 1,
                    None => return None,
                }
            }
            Some(Redex {
                start: place,
                end: at,
                rule,
                bound,
            })
        })
    }

    /// The deepest place where a rule fits, with that rule. `path` is working
    /// space.
    pub fn redex(&self, term: &[u16], path: &mut Vec<usize>) -> Option<Redex<'a>> {
        self.places(term, path);
        path.iter()
            .rev()
            .find_map(|place| self.fit_at(term, *place))
    }
}

/// Which variable a word is, if it is one.
fn variable_number(word: u16) -> Option<usize> {
    let number = usize::from(word.checked_sub(FIRST_VARIABLE)?);
    (number < VARIABLES).then_some(number)
}

/// How many words the next term has.
pub fn next_length(term: &[u16], redex: &Redex) -> usize {
    let mut length = term.len() - (redex.end - redex.start);
    for &word in sides(redex.rule).1 {
        length += match variable_number(word) {
            Some(variable) => redex.bound[variable].1 - redex.bound[variable].0,
            None => 1,
        };
    }
    length
}

/// Writes the next term: the part before the redex, the right side with the
/// bound subterms in place of its variables, and the rest.
pub fn write_next(term: &[u16], redex: &Redex, next: &mut Vec<u16>) {
    next.clear();
    next.extend_from_slice(&term[..redex.start]);
    for &word in sides(redex.rule).1 {
        match variable_number(word) {
            Some(variable) => {
                let (start, end) = redex.bound[variable];
                next.extend_from_slice(&term[start..end]);
            }
            None => next.push(word),
        }
    }
    next.extend_from_slice(&term[redex.end..]);
}

/// The ending of a term that nothing fits.
pub fn read_off(term: &[u16]) -> Ending {
    let mut k = 0;
    while term[k] == SUCC {
        k += 1;
    }
    let value = |base| Ending::Value(Value { k: k as u32, base });
    match term[k] {
        ZERO => value(Base::Zero),
        TRUE => value(Base::True),
        FALSE => value(Base::False),
        FIRE if k == 0 => Ending::Exception((term[1] - FIRST_EXCEPTION) as u8),
        _ => Ending::Stuck(k as u32),
    }
}

/// Rewrites a question (as words) turn by turn. The answer comes with the last
/// term that fitted the room (no words if the question itself did not).
/// `see` is shown every term that fitted, the question first.
pub fn rewrite(
    rules: &Rules,
    question: &[u16],
    steps: u64,
    room: usize,
    mut see: impl FnMut(&[u16]),
) -> (Answer, Vec<u16>) {
    let mut count = 0;
    if question.len() > room {
        let ending = Ending::TooBig;
        return (Answer { ending, steps: 0 }, Vec::new());
    }
    let mut first = question.to_vec();
    let mut second = Vec::new();
    let mut path = Vec::new();
    let ending = loop {
        see(&first);
        let Some(redex) = rules.redex(&first, &mut path) else {
            break read_off(&first);
        };
        if count == steps {
            break Ending::OutOfSteps;
        }
        count += 1;
        if next_length(&first, &redex) > room {
            break Ending::TooBig;
        }
        write_next(&first, &redex, &mut second);
        std::mem::swap(&mut first, &mut second);
    };
    let answer = Answer {
        ending,
        steps: count,
    };
    (answer, first)
}
