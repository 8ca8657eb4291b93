//! Inputs of the program: the same seed gives the same, every kind is among
//! them, and what is printed otherwise, or never occurs, is noticed.

use reference::inputs::{inputs, KINDS};
use reference::judge::judge;
use reference::lines::program_output;
use std::sync::OnceLock;

/// An input with its kind and what is to be printed for it.
struct Asked {
    kind: &'static str,
    input: Vec<u8>,
    expected: String,
}

/// So many inputs that everything has to occur.
fn asked() -> &'static [Asked] {
    static ASKED: OnceLock<Vec<Asked>> = OnceLock::new();
    let asked = |(kind, input): (&'static str, Vec<u8>)| Asked {
        kind,
        expected: program_output(&input),
        input,
    };
    ASKED.get_or_init(|| inputs(3, 2_400).map(asked).collect())
}

/// Judges what `printed` gives for the inputs that `taken` lets by.
fn judged(
    taken: impl Fn(&Asked) -> bool,
    printed: impl Fn(&Asked) -> Option<String>,
) -> (bool, String) {
    let runs = asked().iter().filter(|asked| taken(asked)).map(|asked| {
        let printed = printed(asked).map(String::into_bytes);
        let name = format!("1-{}", asked.kind);
        Ok((name, asked.input.clone(), asked.expected.clone(), printed))
    });
    let mut output = Vec::new();
    let good = judge(runs, &mut output).unwrap();
    (good, String::from_utf8(output).unwrap())
}

fn ours(asked: &Asked) -> Option<String> {
    Some(asked.expected.clone())
}

#[test]
fn every_kind_and_branch() {
    let (good, text) = judged(|_| true, ours);
    assert!(good, "{text}");
    assert!(text.contains("kinds: framed "));
    assert!(text.ends_with("differences: 0\n"), "{text}");
}

#[test]
fn a_kind_or_a_branch_that_never_occurs() {
    let missing = |taken: &dyn Fn(&Asked) -> bool, line: &str| {
        let (good, text) = judged(taken, ours);
        assert!(!good && text.contains(line), "{text}");
    };
    missing(&|asked| asked.kind != "short", "never: short\n");
    missing(&|asked| asked.kind != "cut", "never: cut\n");
    let ceiling = "never: at the input's ceiling\n";
    missing(&|asked| asked.input.len() != 9_218, ceiling);
    missing(
        &|asked| !asked.expected.contains("rewrite big"),
        ": rewriter big\n",
    );
    missing(
        &|asked| !asked.expected.starts_with("refused question 8 "),
        ": question 8\n",
    );
    // No inputs are no test.
    assert!(!judged(|_| false, ours).0);
}

#[test]
fn what_is_printed_otherwise() {
    // One byte off at the input's ceiling; nothing printed; an end cut off.
    let strict = |asked: &Asked| match asked.input.len() {
        9_218.. => Some("refused program 1 0\n".to_string()),
        _ => ours(asked),
    };
    let none = |asked: &Asked| (asked.input.len() != 1).then(|| asked.expected.clone());
    let cut = |asked: &Asked| Some(asked.expected.trim_end().to_string());
    for (good, text) in [
        judged(|_| true, strict),
        judged(|_| true, none),
        judged(|_| true, cut),
    ] {
        assert!(!good && text.contains("\n    expected "), "{text}");
        assert!(!text.ends_with("differences: 0\n"));
    }
}

#[test]
fn the_same_seed() {
    let one: Vec<_> = inputs(4, 100).collect();
    assert_eq!(one, inputs(4, 100).collect::<Vec<_>>());
    assert_ne!(one, inputs(5, 100).collect::<Vec<_>>());
    for (kind, _) in KINDS {
        assert!(one.iter().any(|(found, _)| *found == kind), "{kind}");
    }
}
