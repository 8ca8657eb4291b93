//! Vectors: cases with their answers, each engine's answer by its own call, and
//! the rewriter's terms on the way. They are the files of the folder that
//! PUFFINEST_VECTORS names; without it, the repository's stored cases.

use reference::calls;
use reference::checker::{check_program, check_question, BUILTIN, FUNCTION};
use reference::language::LAST_CALLED;
use reference::lines::{answer_line, answer_text, from_hex, parse_case, Case};
use reference::rewriter::{self, Rules};
use reference::translator::{own_list, term_words};
use std::path::{Path, PathBuf};

/// The words of a list in decimal; "-" for none.
fn words(text: &str, between: char) -> Vec<u16> {
    match text {
        "-" => Vec::new(),
        _ => text
            .split(between)
            .map(|word| word.parse().unwrap())
            .collect(),
    }
}

fn read(path: PathBuf) -> String {
    match std::fs::read_to_string(&path) {
        Ok(text) => text,
        Err(error) => panic!("{}: {error}", path.display()),
    }
}

/// The text of a vector file, where a folder of them is named.
fn vectors(name: &str) -> Option<String> {
    let folder = std::env::var_os("PUFFINEST_VECTORS")?;
    Some(read(PathBuf::from(folder).join(name)))
}

/// A file of the repository's stored cases.
fn stored(name: &str) -> String {
    read(
        Path::new(env!("CARGO_MANIFEST_DIR"))
            .join("../crates/answers")
            .join(name),
    )
}

/// Each line of cases and its answer, at least 400 of them.
fn cases() -> Vec<(String, String)> {
    let cases = vectors("cases.txt").unwrap_or_else(|| stored("stdin"));
    let answers = vectors("answers.txt").unwrap_or_else(|| stored("stdout"));
    // Not `lines`, which would take a CR off.
    let lines = |text: String| -> Vec<String> {
        let text = text.strip_suffix('\n').unwrap_or(&text);
        text.split('\n').map(str::to_string).collect()
    };
    let (cases, answers) = (lines(cases), lines(answers));
    assert_eq!(cases.len(), answers.len());
    assert!(cases.len() >= 400, "{} cases", cases.len());
    cases.into_iter().zip(answers).collect()
}

/// The cases that are accepted, each with the five fields of its answer.
fn accepted() -> Vec<(Case, Vec<String>)> {
    let fields = |(line, answer): (String, String)| {
        let fields = answer.strip_prefix("ok ")?.split(" ; ");
        let case = parse_case(line.as_bytes()).expect("an accepted case");
        Some((case, fields.map(str::to_string).collect()))
    };
    cases().into_iter().filter_map(fields).collect()
}

#[test]
fn cases_and_answers() {
    let mut tested = 0;
    for (i, (case, answer)) in cases().iter().enumerate() {
        let ours = answer_line(case.as_bytes());
        if !is_seventeen(case, &ours, answer) && !is_later_builtin(case, answer) {
            assert_eq!(ours, *answer, "line {}", i + 1);
            tested += 1;
        }
    }
    assert!(tested >= 400, "{tested} cases");
}

/// The vectors are document 01's, which has no refusal 17. There it may stand for an
/// answer that it comes before, and its place is a declaration's.
fn is_seventeen(case: &str, ours: &str, answer: &str) -> bool {
    let Some(place) = ours.strip_prefix("refused program 17 ") else {
        return false;
    };
    let place: usize = place.parse().unwrap();
    let program = parse_case(case.as_bytes()).unwrap().program;
    let comes_later = match answer.split(' ').collect::<Vec<_>>()[..] {
        ["ok", ..] | ["refused", "question", ..] => true,
        ["refused", "program", number, _] => ["10", "11", "12", "13"].contains(&number),
        _ => false,
    };
    vectors("answers.txt").is_some() && comes_later && program[place] == FUNCTION
}

/// Document 01's built-ins end with 5. There a call of one of those that came since is
/// refused by 4.
fn is_later_builtin(case: &str, answer: &str) -> bool {
    let ["refused", about, "4", place] = answer.split(' ').collect::<Vec<_>>()[..] else {
        return false;
    };
    let place: usize = place.parse().unwrap();
    let case = parse_case(case.as_bytes()).unwrap();
    let bytes = match about {
        "program" => case.program,
        _ => case.question,
    };
    let later = 6..=LAST_CALLED;
    let called = bytes[place] == BUILTIN && later.contains(&usize::from(bytes[place + 1]));
    vectors("answers.txt").is_some() && called
}

/// What the evaluator's call says and what the rewriter's says.
fn check_sum(case: &Case, expected: [&str; 2]) {
    let Case {
        program,
        question,
        steps,
        ..
    } = case;
    let evaluated = calls::evaluate(program, question, *steps, case.levels);
    assert_eq!(answer_text(evaluated.unwrap()), expected[0], "{case}");
    let [mut own, mut first, mut second] =
        [case.own, case.first, case.second].map(|length| vec![0; length.min(65_536) as usize]);
    let rewritten = calls::rewrite(
        program,
        question,
        *steps,
        case.room,
        &mut own,
        &mut first,
        &mut second,
    );
    assert_eq!(answer_text(rewritten.unwrap()), expected[1], "{case}");
}

#[test]
fn sums() {
    let mut tested = 0;
    match vectors("sums.txt") {
        Some(sums) => {
            for line in sums.lines() {
                let fields: Vec<&str> = line.split(" | ").collect();
                let numbers = "100000 500 4096 15504 4096 4096";
                let case = parse_case(format!("{} {numbers}", fields[1]).as_bytes()).unwrap();
                let expected = fields[2].trim_end().strip_prefix("ok ").unwrap();
                let (evaluated, rewritten) = expected.split_once(" ; ").unwrap();
                check_sum(&case, [evaluated, rewritten]);
                tested += 1;
            }
            assert!(tested >= 15, "{tested} sums");
        }
        None => {
            for (case, fields) in accepted() {
                check_sum(&case, [&fields[0], &fields[1]]);
                tested += 1;
            }
            assert!(tested >= 200, "{tested} accepted cases");
        }
    }
}

#[test]
fn traces() {
    let mut tested = 0;
    match vectors("traces.txt") {
        Some(traces) => {
            let mut lines = traces.lines();
            while let Some(head) = lines.next() {
                tested += check_trace(head, &mut lines);
            }
            assert!(tested >= 10, "{tested} traces");
        }
        None => {
            // The last term is the one that is seen at that step on the way.
            for (case, fields) in accepted() {
                if fields[1].starts_with("big") {
                    continue;
                }
                let steps: usize = fields[1].rsplit(' ').next().unwrap().parse().unwrap();
                let last = words(&fields[3], ',');
                assert_eq!(seen_at(&case, steps), last, "{case}");
                tested += 1;
            }
            assert!(tested >= 150, "{tested} accepted cases with a last term");
        }
    }
}

/// The term after so many steps, as it is seen on the way.
fn seen_at(case: &Case, steps: usize) -> Vec<u16> {
    let program = check_program(&case.program).unwrap();
    let question = term_words(&check_question(&program, &case.question).unwrap());
    let own = own_list(&program);
    let rules = Rules::new(&program, &own);
    let (mut seen, mut terms) = (Vec::new(), 0);
    rewriter::rewrite(&rules, &question, case.steps, case.room as usize, |term| {
        if terms == steps {
            seen = term.to_vec();
        }
        terms += 1;
    });
    assert_eq!(terms, steps + 1, "{case}");
    seen
}

/// A line `PROGRAM QUESTION N`, then N + 1 lines of words: how many are tested, one or,
/// where the program is refused by 17, none.
fn check_trace<'a>(head: &str, lines: &mut impl Iterator<Item = &'a str>) -> u32 {
    let fields: Vec<&str> = head.split(' ').collect();
    let last: u64 = fields[2].parse().unwrap();
    let program = match check_program(&from_hex(fields[0].as_bytes()).unwrap()) {
        Ok(program) => program,
        Err(refusal) => {
            assert_eq!(refusal.number, 17, "{head}");
            lines.nth(last as usize);
            return 0;
        }
    };
    let question = from_hex(fields[1].as_bytes()).unwrap();
    let question = term_words(&check_question(&program, &question).unwrap());
    let own = own_list(&program);
    let rules = Rules::new(&program, &own);
    let mut seen = Vec::new();
    rewriter::rewrite(&rules, &question, last, 4_096, |term| {
        seen.push(term.to_vec())
    });
    assert_eq!(seen.len() as u64, last + 1, "{head}");
    for (steps, term) in seen.iter().enumerate() {
        let expected = words(lines.next().unwrap(), ' ');
        assert_eq!(*term, expected, "{head}, step {steps}");
        // The same term is the last one under that step allowance.
        let (_, held) = rewriter::rewrite(&rules, &question, steps as u64, 4_096, |_| {});
        assert_eq!(held, expected);
    }
    1
}
