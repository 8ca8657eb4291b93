//! Holds another program's answers against the expected ones: counts how the
//! cases end, says what never occurred, shows differences smallest case first.

use std::collections::BTreeMap;
use std::fs::File;
use std::io::{self, BufRead, BufReader, Write};

/// From so many cases on, everything that can occur has to.
pub(crate) const TELLING: u64 = 2_000;

/// How many differences are shown, how many bytes of each line, and how many of
/// those before the first that differs, where that one would not be seen.
const SHOWN: usize = 20;
const CLIP: usize = 400;
const BEFORE: usize = 100;

const ENDINGS: [&str; 6] = ["value", "exception", "stuck", "out", "deep", "big"];
const REFUSALS: [&str; 14] = [
    "1", "2", "3", "4", "5", "6", "7", "8", "9", "10", "11", "12", "13", "17",
];
const NO_CASE: [&str; 2] = ["bad", "too"];

/// A row and a column of the counts.
pub(crate) type Cell = (&'static str, &'static str);

/// What cannot occur: the evaluator has no room, the rewriter no levels, and a
/// question is never refused by the numbers here.
pub(crate) const NEVER: [Cell; 10] = [
    ("evaluator", "big"),
    ("rewriter", "deep"),
    ("question", "1"),
    ("question", "5"),
    ("question", "6"),
    ("question", "9"),
    ("question", "10"),
    ("question", "12"),
    ("question", "13"),
    ("question", "17"),
];

/// Compares two files of answers to a file of cases and prints what was found.
/// Whether all is equal, and telling.
pub fn files(cases: &str, expected: &str, found: &str) -> io::Result<bool> {
    let inputs = [open(cases)?, open(expected)?, open(found)?];
    compare(inputs, &mut io::stdout().lock())
}

fn open(path: &str) -> io::Result<BufReader<File>> {
    let named = |error: io::Error| io::Error::new(error.kind(), format!("{path}: {error}"));
    File::open(path).map(BufReader::new).map_err(named)
}

/// The same for cases, expected answers and found ones, line by line.
pub fn compare(inputs: [impl BufRead; 3], output: &mut impl Write) -> io::Result<bool> {
    let mut lines = inputs.map(|input| input.split(b'\n'));
    let mut tally = Tally::new(&NEVER);
    let mut differences = Differences::default();
    for number in 1.. {
        let [case, expected, found] = lines.each_mut().map(|lines| lines.next().transpose());
        let (case, expected, found) = (case?, expected?, found?);
        if (&case, &expected, &found) == (&None, &None, &None) {
            break;
        }
        tally.add(expected.as_deref().unwrap_or_default());
        if case.is_none() || expected != found {
            let length = case.as_ref().map_or(0, Vec::len);
            differences.add(number, length, [case, expected, found]);
        }
    }
    tally.print(output)?;
    let [bad, long] = NO_CASE.map(|first| tally.get("no case", first));
    writeln!(output, "no case: {bad} bad lines, {long} too long")?;
    differences.print(output)?;
    let telling = tally.lines < TELLING || tally.is_full(output)?;
    // No cases are no test.
    Ok(tally.lines > 0 && differences.count == 0 && telling)
}

/// How often each kind of answer occurred.
pub(crate) struct Tally {
    pub(crate) lines: u64,
    counts: BTreeMap<(String, String), u64>,
    never: Vec<Cell>,
}

impl Tally {
    pub(crate) fn new(never: &[Cell]) -> Tally {
        Tally {
            lines: 0,
            counts: BTreeMap::new(),
            never: never.to_vec(),
        }
    }

    pub(crate) fn add(&mut self, answer: &[u8]) {
        self.lines += 1;
        let answer = String::from_utf8_lossy(answer);
        let words: Vec<&str> = answer.split(' ').take(7).collect();
        match words[..] {
            ["ok", evaluated, _, _, _, ";", rewritten] => {
                self.count("evaluator", evaluated);
                self.count("rewriter", rewritten);
            }
            ["refused", about, number, _] => self.count(about, number),
            [first, ..] => self.count("no case", first),
            [] => {}
        }
    }

    fn count(&mut self, row: &str, column: &str) {
        *self.counts.entry((row.into(), column.into())).or_default() += 1;
    }

    fn get(&self, row: &str, column: &str) -> u64 {
        let key = (row.to_string(), column.to_string());
        self.counts.get(&key).copied().unwrap_or_default()
    }

    pub(crate) fn print(&self, output: &mut impl Write) -> io::Result<()> {
        self.table(output, "ending", ["evaluator", "rewriter"], &ENDINGS)?;
        self.table(output, "refusal", ["program", "question"], &REFUSALS)
    }

    fn table(
        &self,
        output: &mut impl Write,
        title: &str,
        rows: [&'static str; 2],
        columns: &[&'static str],
    ) -> io::Result<()> {
        let heads: String = columns.iter().map(|c| format!(" {c:>5}")).collect();
        writeln!(output, "{title:<9}{heads}")?;
        for row in rows {
            let cell = |column: &&'static str| match self.never.contains(&(row, column)) {
                true => format!(" {:>1$}", "-", column.len().max(5)),
                false => format!(" {:>1$}", self.get(row, column), column.len().max(5)),
            };
            let cells: String = columns.iter().map(cell).collect();
            writeln!(output, "{row:<9}{cells}")?;
        }
        Ok(())
    }

    /// Whether everything occurred that can; says what did not.
    pub(crate) fn is_full(&self, output: &mut impl Write) -> io::Result<bool> {
        let rows: [(&str, &[&str]); 5] = [
            ("evaluator", &ENDINGS),
            ("rewriter", &ENDINGS),
            ("program", &REFUSALS),
            ("question", &REFUSALS),
            ("no case", &NO_CASE),
        ];
        let mut full = true;
        for (row, columns) in rows {
            for column in columns {
                if self.get(row, column) == 0 && !self.never.contains(&(row, column)) {
                    writeln!(output, "never in {} lines: {row} {column}", self.lines)?;
                    full = false;
                }
            }
        }
        Ok(full)
    }
}

/// The differing lines: how many, and those with the shortest cases.
#[derive(Default)]
pub(crate) struct Differences {
    pub(crate) count: u64,
    shortest: BTreeMap<(usize, u64), [Option<Vec<u8>>; 3]>,
}

impl Differences {
    /// A case by its number and length, with what was expected and found.
    pub(crate) fn add(&mut self, number: u64, length: usize, lines: [Option<Vec<u8>>; 3]) {
        self.count += 1;
        self.shortest.insert((length, number), lines);
        if self.shortest.len() > SHOWN {
            self.shortest.pop_last();
        }
    }

    pub(crate) fn print(&self, output: &mut impl Write) -> io::Result<()> {
        for ((length, number), [case, expected, found]) in &self.shortest {
            let from = first_shown(expected, found);
            writeln!(output, "line {number}, {length} bytes: {}", text(case, 0))?;
            writeln!(output, "    expected {}", text(expected, from))?;
            writeln!(output, "    found    {}", text(found, from))?;
        }
        writeln!(output, "differences: {}", self.count)
    }
}

/// Where two lines are shown from, so that their first difference is seen.
fn first_shown(one: &Option<Vec<u8>>, other: &Option<Vec<u8>>) -> usize {
    let (Some(one), Some(other)) = (one, other) else {
        return 0;
    };
    let same = one.iter().zip(other).take_while(|(a, b)| a == b).count();
    match same < CLIP {
        true => 0,
        false => same - BEFORE,
    }
}

/// A line as it can be shown.
fn text(line: &Option<Vec<u8>>, from: usize) -> String {
    let Some(line) = line else {
        return "(no line)".to_string();
    };
    let end = line.len().min(from + CLIP);
    let shown = line[from..end].escape_ascii();
    match (from, end) {
        (0, end) if end == line.len() => shown.to_string(),
        _ => format!("...{shown}... (from byte {from} of {})", line.len()),
    }
}
