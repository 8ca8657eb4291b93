//! The command: `answers` answers case lines, `generate SEED N` prints random
//! lines, `compare CASES EXPECTED FOUND` holds answers against ours, `program`
//! is document 01's program, `inputs SEED N FOLDER` writes random inputs of it
//! as files, `judge FOLDER FOUND` holds what was printed for them against ours.
//! Status 1: a line is no case, or answers differ; status 2: bad usage, or the
//! input or the output fails.

use reference::compare;
use reference::generator::{self, Random};
use reference::judge;
use reference::lines;
use std::io::{self, BufWriter, Read, Write};
use std::process::ExitCode;

const USAGE: &str = "usage: reference answers | reference generate SEED N | \
                     reference compare CASES EXPECTED FOUND | reference program | \
                     reference inputs SEED N FOLDER | reference judge FOLDER FOUND";

fn main() -> ExitCode {
    let arguments: Vec<String> = std::env::args().skip(1).collect();
    let arguments: Vec<&str> = arguments.iter().map(String::as_str).collect();
    let done = match arguments[..] {
        ["answers"] => answers(),
        ["program"] => program(),
        ["generate", seed, count] => match (seed.parse(), count.parse()) {
            (Ok(seed), Ok(count)) => generate(seed, count),
            _ => return usage(),
        },
        ["compare", cases, expected, found] => compare::files(cases, expected, found),
        ["inputs", seed, count, folder] => match (seed.parse(), count.parse()) {
            (Ok(seed), Ok(count)) => judge::write(seed, count, folder),
            _ => return usage(),
        },
        ["judge", asked, found] => judge::folders(asked, found),
        _ => return usage(),
    };
    match done {
        Ok(true) => ExitCode::SUCCESS,
        Ok(false) => ExitCode::FAILURE,
        // The reader of our output has gone: nothing more to do.
        Err(error) if error.kind() == io::ErrorKind::BrokenPipe => ExitCode::SUCCESS,
        Err(error) => {
            eprintln!("reference: {error}");
            ExitCode::from(2)
        }
    }
}

fn usage() -> ExitCode {
    eprintln!("{USAGE}");
    ExitCode::from(2)
}

/// Whether every line was a case.
fn answers() -> io::Result<bool> {
    let output = BufWriter::new(io::stdout().lock());
    let lines = lines::answer_all(io::stdin().lock(), output)?;
    if lines.no_case > 0 {
        eprintln!(
            "reference: no case: {} of {} lines",
            lines.no_case, lines.all
        );
    }
    Ok(lines.no_case == 0)
}

fn generate(seed: u64, count: u64) -> io::Result<bool> {
    let mut output = BufWriter::new(io::stdout().lock());
    let mut random = Random::new(seed);
    for _ in 0..count {
        output.write_all(&generator::line(&mut random))?;
        output.write_all(b"\n")?;
    }
    output.flush()?;
    Ok(true)
}

fn program() -> io::Result<bool> {
    let mut input = Vec::new();
    // One byte past the most that is looked at is enough.
    let most = lines::MAX_INPUT as u64 + 1;
    io::stdin().lock().take(most).read_to_end(&mut input)?;
    let output = lines::program_output(&input);
    io::stdout().lock().write_all(output.as_bytes())?;
    Ok(true)
}
