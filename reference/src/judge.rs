//! Holds what another program printed for a folder of inputs against document
//! 01's program: counts the kinds of input, the branches of the frame and the
//! ends, says what never occurred, shows differences smallest input first.

use crate::compare::{Cell, Differences, Tally, NEVER, TELLING};
use crate::inputs::{inputs, KINDS};
use crate::language::MAX_PROGRAM_BYTES;
use crate::lines::{program_output, to_hex, MAX_INPUT};
use std::collections::BTreeMap;
use std::ffi::OsString;
use std::fs;
use std::io::{self, Write};
use std::path::Path;

/// What cannot occur besides: the program's allowances are in range, its slices
/// are long enough, and it reads no lines.
const NEVER_HERE: [Cell; 4] = [
    ("program", "12"),
    ("program", "13"),
    ("no case", "bad"),
    ("no case", "too"),
];

/// Writes so many inputs into a folder, each as a file NUMBER-KIND.
pub fn write(seed: u64, count: usize, folder: &str) -> io::Result<bool> {
    fs::create_dir_all(folder)?;
    for (i, (kind, input)) in inputs(seed, count).enumerate() {
        fs::write(
            Path::new(folder).join(format!("{:06}-{kind}", i + 1)),
            input,
        )?;
    }
    Ok(true)
}

/// Compares the files of one folder, what was printed, with what is to be
/// printed for the files of the same name in another. Whether all is equal, and
/// telling.
pub fn folders(asked: &str, found: &str) -> io::Result<bool> {
    let mut files = Vec::new();
    for entry in fs::read_dir(asked)? {
        files.push(entry?.file_name());
    }
    files.sort();
    let read = |name: OsString| {
        let input = fs::read(Path::new(asked).join(&name))?;
        let printed = match fs::read(Path::new(found).join(&name)) {
            Err(error) if error.kind() == io::ErrorKind::NotFound => None,
            read => Some(read?),
        };
        let expected = program_output(&input);
        Ok((
            name.to_string_lossy().into_owned(),
            input,
            expected,
            printed,
        ))
    };
    judge(files.into_iter().map(read), &mut io::stdout().lock())
}

/// An input: its name, its bytes, what is to be printed, and what was.
type Run = (String, Vec<u8>, String, Option<Vec<u8>>);

/// The same for inputs one by one.
pub fn judge(
    runs: impl Iterator<Item = io::Result<Run>>,
    output: &mut impl Write,
) -> io::Result<bool> {
    let mut tally = Tally::new(&[&NEVER[..], &NEVER_HERE].concat());
    let mut kinds = Counts::new(KINDS.iter().map(|(kind, _)| *kind));
    let mut branches = Counts::new(BRANCHES);
    let mut differences = Differences::default();
    for (number, run) in (1..).zip(runs) {
        let (name, input, expected, printed) = run?;
        kinds.add(name.split_once('-').map_or(&name, |(_, kind)| kind));
        branches.add(branch(&input));
        tally.add(one_line(&expected).as_bytes());
        if printed.as_deref() != Some(expected.as_bytes()) {
            let shown = format!("{name}: {}", to_hex(&input));
            let lines = [Some(shown.into()), Some(expected.into()), printed];
            differences.add(number, input.len(), lines);
        }
    }
    kinds.print(output, "kinds")?;
    branches.print(output, "frames")?;
    tally.print(output)?;
    differences.print(output)?;
    let mut telling = tally.lines > 0;
    if tally.lines >= TELLING {
        for full in [
            kinds.is_full(output)?,
            branches.is_full(output)?,
            tally.is_full(output)?,
        ] {
            telling &= full;
        }
    }
    Ok(differences.count == 0 && telling)
}

/// The two lines of an accepted input as the beginning of an answer line, in
/// which form the ends are counted.
fn one_line(printed: &str) -> String {
    match printed.trim_end().split_once("\nrewrite ") {
        Some((evaluated, rewritten)) => {
            format!("{} ; {rewritten}", evaluated.replacen("eval", "ok", 1))
        }
        None => printed.trim_end().to_string(),
    }
}

const BRANCHES: [&str; 11] = [
    "no byte",
    "one byte",
    "over the input's ceiling",
    "at the input's ceiling",
    "fewer than announced",
    "one fewer than announced",
    "over the program's ceiling",
    "at the program's ceiling",
    "no program",
    "no question",
    "a program and a question",
];

/// Which way an input's bytes go through the frame.
fn branch(input: &[u8]) -> &'static str {
    let [high, low, rest @ ..] = input else {
        return if input.is_empty() {
            "no byte"
        } else {
            "one byte"
        };
    };
    let length = usize::from(*high) * 256 + usize::from(*low);
    match rest.len() {
        _ if input.len() > MAX_INPUT => "over the input's ceiling",
        _ if input.len() == MAX_INPUT => "at the input's ceiling",
        there if there + 1 == length => "one fewer than announced",
        there if there < length => "fewer than announced",
        _ if length > MAX_PROGRAM_BYTES => "over the program's ceiling",
        _ if length == MAX_PROGRAM_BYTES => "at the program's ceiling",
        _ if length == 0 => "no program",
        there if there == length => "no question",
        _ => "a program and a question",
    }
}

/// How often each of some words occurred.
struct Counts {
    counts: BTreeMap<String, u64>,
    words: Vec<&'static str>,
}

impl Counts {
    fn new(words: impl IntoIterator<Item = &'static str>) -> Counts {
        Counts {
            counts: BTreeMap::new(),
            words: words.into_iter().collect(),
        }
    }

    fn add(&mut self, word: &str) {
        *self.counts.entry(word.to_string()).or_default() += 1;
    }

    fn get(&self, word: &str) -> u64 {
        self.counts.get(word).copied().unwrap_or_default()
    }

    fn print(&self, output: &mut impl Write, title: &str) -> io::Result<()> {
        let count = |word: &&str| format!("{word} {}", self.get(word));
        let counts: Vec<String> = self.words.iter().map(count).collect();
        writeln!(output, "{title}: {}", counts.join(", "))
    }

    /// Whether each word occurred; says which did not.
    fn is_full(&self, output: &mut impl Write) -> io::Result<bool> {
        let mut full = true;
        for word in &self.words {
            if self.get(word) == 0 {
                writeln!(output, "never: {word}")?;
                full = false;
            }
        }
        Ok(full)
    }
}
