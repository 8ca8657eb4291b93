//! Generated cases: evaluator and rewriter agree, and each obeys the laws that
//! the allowances imply.

use reference::checker::{check_program, check_question};
use reference::evaluator;
use reference::generator::{self, Random};
use reference::language::*;
use reference::lines::{answer_all, answer_line, parse_case};
use reference::rewriter::{self, Rules};
use reference::translator::{own_list, term_words};

/// Calls `test` on generated cases that are accepted, with their steps: on half
/// of them at the least, so that no test passes for want of cases.
fn accepted(seed: u64, count: usize, mut test: impl FnMut(&Program, &Term, u64)) {
    let mut random = Random::new(seed);
    let mut tested = 0;
    for _ in 0..count {
        let case = generator::case(&mut random);
        let Ok(program) = check_program(&case.program) else {
            continue;
        };
        let Ok(question) = check_question(&program, &case.question) else {
            continue;
        };
        test(&program, &question, case.steps.min(3_000));
        tested += 1;
    }
    assert!(tested > count / 2, "{tested} of {count}");
}

#[test]
fn the_two_engines_agree() {
    let (mut equal, mut deep_alone, mut big_alone) = (0, 0, 0);
    accepted(2_024, 12_000, |program, question, steps| {
        let own = own_list(program);
        let rules = Rules::new(program, &own);
        let words = term_words(question);
        let evaluated = evaluator::evaluate(program, question, steps, MAX_LEVELS);
        let (rewritten, _) = rewriter::rewrite(&rules, &words, steps, 4_096, |_| {});
        let deep = evaluated.ending == Ending::TooDeep;
        let big = rewritten.ending == Ending::TooBig;
        match (deep, big) {
            (false, false) => {
                assert_eq!(evaluated, rewritten);
                equal += 1;
            }
            // An engine that is cut has counted no more than the other.
            (true, false) => {
                assert!(evaluated.steps <= rewritten.steps);
                deep_alone += 1;
            }
            (false, true) => {
                assert!(rewritten.steps <= evaluated.steps);
                big_alone += 1;
            }
            (true, true) => {}
        }
    });
    assert!(equal > 5_000, "{equal}");
    assert!(
        deep_alone > 20 && big_alone > 20,
        "{deep_alone} {big_alone}"
    );
}

#[test]
fn a_step_allowance_only_cuts() {
    let (mut whole, mut cut) = (0, 0);
    accepted(7, 400, |program, question, _| {
        let most = 150;
        for levels in [3, 12, MAX_LEVELS] {
            let full = evaluator::evaluate(program, question, most, levels);
            let cost = match full.ending {
                Ending::OutOfSteps => most + 1,
                _ => full.steps,
            };
            for steps in 0..=most {
                let found = evaluator::evaluate(program, question, steps, levels);
                let expected = if cost <= steps {
                    whole += 1;
                    full
                } else {
                    cut += 1;
                    Answer {
                        ending: Ending::OutOfSteps,
                        steps,
                    }
                };
                assert_eq!(found, expected);
            }
        }
    });
    assert!(whole > 10_000 && cut > 5_000, "{whole} {cut}");
}

#[test]
fn every_step_allowance_shows_its_own_term() {
    let (mut on_the_way, mut last_ones) = (0, 0);
    accepted(8, 400, |program, question, _| {
        let own = own_list(program);
        let rules = Rules::new(program, &own);
        let words = term_words(question);
        let mut terms = Vec::new();
        let (full, last) = rewriter::rewrite(&rules, &words, 60, 300, |term| {
            terms.push(term.to_vec());
        });
        assert_eq!(terms.last().cloned().unwrap_or_default(), last);
        for (steps, term) in terms.iter().enumerate() {
            let (found, held) = rewriter::rewrite(&rules, &words, steps as u64, 300, |_| {});
            assert_eq!(held, *term);
            if (steps as u64) < full.steps {
                let ending = Ending::OutOfSteps;
                let steps = steps as u64;
                assert_eq!(found, Answer { ending, steps });
                on_the_way += 1;
            } else {
                assert_eq!(found, full);
                last_ones += 1;
            }
        }
    });
    assert!(
        on_the_way > 2_000 && last_ones > 150,
        "{on_the_way} {last_ones}"
    );
}

#[test]
fn more_room_changes_no_term() {
    let (mut too_big, mut whole) = (0, 0);
    accepted(9, 600, |program, question, steps| {
        let own = own_list(program);
        let rules = Rules::new(program, &own);
        let words = term_words(question);
        let steps = steps.min(200);
        let mut terms = Vec::new();
        let (full, _) = rewriter::rewrite(&rules, &words, steps, 4_096, |term| {
            terms.push(term.to_vec());
        });
        for room in [1, words.len(), words.len() + 9, 60, 200] {
            let (found, held) = rewriter::rewrite(&rules, &words, steps, room, |_| {});
            match terms.iter().position(|term| term.len() > room) {
                // The first term over the room ends the run at its step.
                Some(at) => {
                    let ending = Ending::TooBig;
                    let steps = at as u64;
                    assert_eq!(found, Answer { ending, steps });
                    let before = at.checked_sub(1).map(|i| terms[i].clone());
                    assert_eq!(held, before.unwrap_or_default());
                    too_big += 1;
                }
                None => {
                    assert_eq!(found, full);
                    whole += 1;
                }
            }
        }
    });
    assert!(too_big > 300 && whole > 300, "{too_big} {whole}");
}

/// Reading the case back gives the case, and the same seed the same cases.
#[test]
fn generated_cases() {
    let (mut one, mut two) = (Random::new(5), Random::new(5));
    let mut refused = 0;
    for _ in 0..2_000 {
        let case = generator::case(&mut one);
        assert_eq!(case, generator::case(&mut two));
        let line = case.to_string();
        assert_eq!(parse_case(line.as_bytes()), Some(case));
        let answer = answer_line(line.as_bytes());
        assert!(answer.starts_with("ok ") || answer.starts_with("refused "));
        refused += u32::from(answer.starts_with("refused "));
    }
    assert!((400..1_600).contains(&refused), "{refused}");
}

/// Lines that are no case are among the generated ones, and each is one line.
#[test]
fn generated_lines_that_are_no_case() {
    let (mut one, mut two) = (Random::new(6), Random::new(6));
    let mut text = Vec::new();
    for _ in 0..1_000 {
        let line = generator::line(&mut one);
        assert_eq!(line, generator::line(&mut two));
        assert!(!line.contains(&b'\n'));
        text.extend(line);
        text.push(b'\n');
    }
    let lines = answer_all(&text[..], std::io::sink()).unwrap();
    assert_eq!(lines.all, 1_000);
    assert!((30..130).contains(&lines.no_case), "{}", lines.no_case);
}
