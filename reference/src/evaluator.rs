//! The evaluator: definitions 3.3 and 3.4 with document 01's steps and levels.
//!
//! Each row of the step table is one arm below. Charges are paid in the order
//! in which they stand, each before the next thing is entered.

use crate::language::*;

/// Evaluates a question with the given allowances.
pub fn evaluate(program: &Program, question: &Term, steps: u64, levels: u64) -> Answer {
    let mut run = Run {
        program,
        allowance: steps,
        paid: 0,
    };
    let no_bindings = [Value {
        k: 0,
        base: Base::Zero,
    }; VARIABLES];
    let ending = match run.term(question, &no_bindings, levels) {
        Ok(Outcome::Value(value)) => Ending::Value(value),
        Ok(Outcome::Raised(exception)) => Ending::Exception(exception),
        Ok(Outcome::Stuck(s)) => Ending::Stuck(s),
        Err(Cut::OutOfSteps) => Ending::OutOfSteps,
        Err(Cut::TooDeep) => Ending::TooDeep,
    };
    Answer {
        ending,
        steps: run.paid,
    }
}

type Bindings = [Value; VARIABLES];

/// What a term comes to.
enum Outcome {
    Value(Value),
    Raised(u8),
    Stuck(u32),
}

/// What an argument list comes to: all values, or the ending of the call.
enum Arguments {
    Values([Value; MAX_ARITY]),
    End(Outcome),
}

/// An end at once, by an allowance.
enum Cut {
    OutOfSteps,
    TooDeep,
}

struct Run<'a> {
    program: &'a Program,
    allowance: u64,
    paid: u64,
}

impl Run<'_> {
    /// Pays a charge; past the allowance the count is the allowance.
    fn pay(&mut self, charge: u64) -> Result<(), Cut> {
        if charge > self.allowance - self.paid {
            self.paid = self.allowance;
            return Err(Cut::OutOfSteps);
        }
        self.paid += charge;
        Ok(())
    }

    /// Evaluates a term. `levels` counts the term's own level too.
    fn term(&mut self, term: &Term, bindings: &Bindings, levels: u64) -> Result<Outcome, Cut> {
        if levels == 0 {
            return Err(Cut::TooDeep);
        }
        let below = levels - 1;
        match term {
            Term::Constant(base) => Ok(Outcome::Value(Value { k: 0, base: *base })),
            Term::Variable(variable) => Ok(Outcome::Value(bindings[usize::from(*variable)])),
            Term::Succ(part) => match self.term(part, bindings, below)? {
                Outcome::Value(Value { k, base }) => Ok(Outcome::Value(Value { k: k + 1, base })),
                Outcome::Raised(exception) => {
                    self.pay(1)?;
                    Ok(Outcome::Raised(exception))
                }
                Outcome::Stuck(s) => Ok(Outcome::Stuck(s + 1)),
            },
            Term::Raise(exception) => {
                self.pay(1)?;
                Ok(Outcome::Raised(*exception))
            }
            Term::Handle {
                guarded,
                exception,
                handler,
            } => match self.term(guarded, bindings, below)? {
                Outcome::Value(value) => {
                    self.pay(u64::from(value.k) + 3)?;
                    Ok(Outcome::Value(value))
                }
                Outcome::Raised(raised) => {
                    self.pay(3)?;
                    if raised == *exception {
                        self.term(handler, bindings, below)
                    } else {
                        Ok(Outcome::Raised(raised))
                    }
                }
                Outcome::Stuck(s) => {
                    self.pay(1 + u64::from(s))?;
                    Ok(Outcome::Stuck(0))
                }
            },
            Term::If { condition, yes, no } => match self.term(condition, bindings, below)? {
                Outcome::Value(Value {
                    k: 0,
                    base: Base::True,
                }) => {
                    self.pay(1)?;
                    self.term(yes, bindings, below)
                }
                Outcome::Value(Value {
                    k: 0,
                    base: Base::False,
                }) => {
                    self.pay(1)?;
                    self.term(no, bindings, below)
                }
                Outcome::Raised(exception) => {
                    self.pay(1)?;
                    Ok(Outcome::Raised(exception))
                }
                Outcome::Value(_) | Outcome::Stuck(_) => Ok(Outcome::Stuck(0)),
            },
            Term::Call {
                function,
                arguments,
            } => {
                self.pay(1)?;
                let values = match self.arguments(arguments, bindings, below)? {
                    Arguments::Values(values) => values,
                    Arguments::End(outcome) => return Ok(outcome),
                };
                let program = self.program;
                for rule in &program.function(*function).rules {
                    if let Some(bindings) = fit(&rule.left, &values) {
                        self.pay(1)?;
                        return self.term(&rule.right, &bindings, below);
                    }
                }
                Ok(Outcome::Stuck(0))
            }
        }
    }

    /// Evaluates an argument list from the left. The list costs no level of its
    /// own: `levels` is what each argument gets.
    fn arguments(
        &mut self,
        arguments: &[Term],
        bindings: &Bindings,
        levels: u64,
    ) -> Result<Arguments, Cut> {
        let mut values = [Value {
            k: 0,
            base: Base::Zero,
        }; MAX_ARITY];
        for (slot, argument) in values.iter_mut().zip(arguments) {
            match self.term(argument, bindings, levels)? {
                Outcome::Value(value) => {
                    self.pay(u64::from(value.k) + 3)?;
                    *slot = value;
                }
                Outcome::Raised(exception) => {
                    self.pay(3)?;
                    return Ok(Arguments::End(Outcome::Raised(exception)));
                }
                Outcome::Stuck(s) => {
                    self.pay(1 + u64::from(s))?;
                    return Ok(Arguments::End(Outcome::Stuck(0)));
                }
            }
        }
        Ok(Arguments::Values(values))
    }
}

/// The bindings under which the left arguments equal the values, if any.
fn fit(left: &[Term], values: &[Value; MAX_ARITY]) -> Option<Bindings> {
    let mut bindings = [Value {
        k: 0,
        base: Base::Zero,
    }; VARIABLES];
    for (pattern, value) in left.iter().zip(values) {
        let mut pattern = pattern;
        let mut k = value.k;
        while let Term::Succ(part) = pattern {
            k = k.checked_sub(1)?;
            pattern = part;
        }
        match pattern {
            Term::Variable(variable) => {
                bindings[usize::from(*variable)] = Value {
                    k,
                    base: value.base,
                }
            }
            Term::Constant(base) if k == 0 && *base == value.base => {}
            _ => return None,
        }
    }
    Some(bindings)
}
