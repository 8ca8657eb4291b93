//! The two calls: document 01's worked example, each refusal, what the lent
//! slices hold afterwards, and the deepest runs.

use puffinest::{evaluate, rewrite, Answer, Base, Ending, Reason, Refusal, ENOUGH_FOR_OWN};

/// What the lent words hold before a call: no symbol.
const MARK: u16 = 0xabcd;

const EXAMPLE: &str = "0100 0101 020001 0300 1400 1600 1800 1500 1900 10 11 10 04";

fn bytes(hex: &str) -> Vec<u8> {
    let digits: Vec<u8> = hex.bytes().filter(|c| *c != b' ').collect();
    let pair = |pair: &[u8]| u8::from_str_radix(std::str::from_utf8(pair).unwrap(), 16).unwrap();
    digits.chunks(2).map(pair).collect()
}

/// Three slices to lend.
struct Lent {
    own: Vec<u16>,
    first: Vec<u16>,
    second: Vec<u16>,
}

impl Lent {
    fn new(own: usize, first: usize, second: usize) -> Lent {
        let lend = |length| vec![MARK; length];
        Lent {
            own: lend(own),
            first: lend(first),
            second: lend(second),
        }
    }

    fn enough() -> Lent {
        Lent::new(ENOUGH_FOR_OWN, 4_096, 4_096)
    }

    fn rewrite(
        &mut self,
        program: &[u8],
        question: &[u8],
        steps: u32,
        room: u32,
    ) -> Result<Answer, Refusal> {
        let Lent { own, first, second } = self;
        rewrite(program, question, steps, room, own, first, second)
    }

    fn is_untouched(&self) -> bool {
        let mut words = self.own.iter().chain(&self.first).chain(&self.second);
        words.all(|word| *word == MARK)
    }
}

#[test]
fn the_worked_example() {
    let (program, question) = (bytes(EXAMPLE), bytes("1900 10"));
    let answer = Answer {
        ending: Ending::Value(1, Base::Zero),
        steps: 13,
    };
    assert_eq!(evaluate(&program, &question, 100_000, 500), Ok(answer));
    let mut lent = Lent::enough();
    assert_eq!(
        lent.rewrite(&program, &question, 100_000, 4_096),
        Ok(answer)
    );
    assert_eq!(answer.to_string(), "value 1 zero 13");
}

#[test]
fn each_ending() {
    let program = bytes("0100 020000 0300 11 1900 04");
    let both = |question: &str, steps, levels, room| {
        let question = bytes(question);
        let evaluated = evaluate(&program, &question, steps, levels).unwrap();
        let rewritten = Lent::enough().rewrite(&program, &question, steps, room);
        (evaluated.to_string(), rewritten.unwrap().to_string())
    };
    let same = |text: &str| (text.to_string(), text.to_string());
    assert_eq!(both("11 12", 9, 9, 9), same("value 1 true 0"));
    assert_eq!(both("13", 9, 9, 9), same("value 0 false 0"));
    assert_eq!(both("11 1500", 9, 9, 9), same("exception 0 - 2"));
    assert_eq!(both("11 17 10 10 10", 9, 9, 9), same("stuck 1 - 0"));
    // 1 div 1, and 1 div 0
    assert_eq!(both("1809 1110 1110", 99, 20, 50), same("value 1 zero 66"));
    assert_eq!(both("1809 1110 10", 99, 20, 50), same("stuck 0 - 8"));
    assert_eq!(both("1900", 9, 9, 9), same("out - - 9"));
    let deep_and_big = ("deep - - 6".to_string(), "big - - 8".to_string());
    assert_eq!(both("1900", 100, 6, 4), deep_and_big);
}

/// A program and a question that are refused by 1 to 11, and by 17.
fn refused() -> Vec<(Vec<u8>, Vec<u8>, &'static str)> {
    let long_right = ["020000 0300", &"11".repeat(128), "10 04"].concat();
    let many: String = (0..17).map(|e| format!("01{e:02x}")).collect();
    let lost = "0100 020000 020100 0300 10 0300 10 04 04"; // besides 10 and 11
    let texts: [(&str, &str, &str); 20] = [
        (&"04".repeat(8_193), "10", "refused program 1 0"),
        ("", "10", "refused program 2 0"),
        ("0100 02", "10", "refused program 2 2"),
        ("05", "10", "refused program 3 0"),
        ("0101 04", "10", "refused program 4 0"),
        ("020001 0300 180b 10 10 10 04", "10", "refused program 4 5"),
        ("0100 020001 0300 1500 10 04", "10", "refused program 5 7"),
        ("020002 0300 1400 1400 10 04", "10", "refused program 6 7"),
        ("020001 0300 1400 1401 04", "10", "refused program 7 7"),
        (&long_right, "10", "refused program 8 133"),
        (&many, "10", "refused program 9 32"),
        ("020000 0300 10 0300 11 10 04", "10", "refused program 10 6"),
        ("04 04", "10", "refused program 11 1"),
        ("020000 04", "10", "refused program 17 0"),
        (lost, "10", "refused program 17 5"),
        ("020000 04", "11", "refused program 17 0"),
        ("04", "11", "refused question 2 1"),
        ("04", "180b 10 10", "refused question 4 0"),
        ("04", "1407", "refused question 7 0"),
        ("04", "10 10", "refused question 11 1"),
    ];
    let parsed = texts.map(|(program, question, text)| (bytes(program), bytes(question), text));
    parsed.to_vec()
}

#[test]
fn each_refusal_leaves_all_words() {
    let mut reasons = Vec::new();
    let mut check = |found: Result<Answer, Refusal>, lent: &Lent, expected: &str| {
        let refusal = found.unwrap_err();
        assert_eq!(refusal.to_string(), expected);
        assert!(lent.is_untouched(), "{expected}");
        reasons.push(refusal.reason as u8);
    };
    for (program, question, expected) in refused() {
        let mut lent = Lent::enough();
        // A refusal by 1 to 11 or 17 comes before one by 12.
        check(evaluate(&program, &question, 1, 0), &lent, expected);
        let found = lent.rewrite(&program, &question, 1, 0);
        check(found, &lent, expected);
    }
    let (program, question) = (bytes(EXAMPLE), bytes("1900 10"));
    for (steps, other) in [
        (1_000_001, 9),
        (1, 0),
        (1, 4_097),
        (1, u32::MAX),
        (u32::MAX, 1),
    ] {
        let mut lent = Lent::enough();
        check(
            evaluate(&program, &question, steps, other),
            &lent,
            "refused program 12 0",
        );
        let found = lent.rewrite(&program, &question, steps, other);
        check(found, &lent, "refused program 12 0");
    }
    let own = own_list(&program).len();
    for lengths in [
        [own - 1, 64, 64],
        [own, 63, 64],
        [own, 64, 63],
        [0, 64, 64],
        [0, 0, 0],
    ] {
        let mut lent = Lent::new(lengths[0], lengths[1], lengths[2]);
        let found = lent.rewrite(&program, &question, 1_000, 64);
        check(found, &lent, "refused program 13 0");
        assert_eq!(found.unwrap_err().reason, Reason::SliceTooShort);
    }
    reasons.sort_unstable();
    reasons.dedup();
    assert_eq!(reasons, (1..=13).chain([17]).collect::<Vec<u8>>());
}

/// The words that the rewriter's call writes into the first slice.
fn own_list(program: &[u8]) -> Vec<u16> {
    let mut lent = Lent::enough();
    lent.rewrite(program, &[0x10], 0, 1).unwrap();
    let length = lent.own.iter().position(|word| *word == MARK).unwrap();
    lent.own[..length].to_vec()
}

#[test]
fn the_words_afterwards() {
    let program = bytes(EXAMPLE);
    let own = own_list(&program);
    assert_eq!(own[..6], [2, 2, 11, 32, 6, 32]);
    for (steps, term) in [(0, vec![384, 1]), (1, vec![385, 1]), (13, vec![2, 1])] {
        let room = 64;
        let mut lent = Lent::new(own.len() + 3, room + 5, room + 7);
        let found = lent.rewrite(&program, &bytes("1900 10"), steps, room as u32);
        assert_eq!(found.unwrap().steps, steps);
        assert_eq!(lent.own[..own.len()], own);
        assert_eq!(lent.first[..term.len()], term, "step {steps}");
        assert!(lent.first[term.len()..room].iter().all(|word| *word == 0));
        assert!(lent.second[..room].iter().all(|word| *word == 0));
        assert_eq!(lent.own[own.len()..], [MARK; 3]);
        assert_eq!(lent.first[room..], [MARK; 5]);
        assert_eq!(lent.second[room..], [MARK; 7]);
    }
}

/// Nothing lent where nothing is needed, and strings of no bytes.
#[test]
fn empty_slices() {
    let empty = |program: &[u8], question: &[u8]| {
        let evaluated = evaluate(program, question, 9, 9);
        let rewritten = Lent::enough().rewrite(program, question, 9, 9);
        assert_eq!(evaluated, rewritten);
        evaluated.unwrap_err().to_string()
    };
    assert_eq!(empty(&[], &[]), "refused program 2 0");
    assert_eq!(empty(&[4], &[]), "refused question 2 0");
    let found = Lent::new(0, 9, 9).rewrite(&[4], &[0x11, 0x10], 9, 9);
    assert_eq!(found.unwrap().to_string(), "value 1 zero 0");
}

/// A function that calls itself inside so many roots.
fn growing(root: &str, count: usize, rest: &str) -> Vec<u8> {
    let (roots, rests) = (root.repeat(count), rest.repeat(count));
    bytes(&["0100 020000 0300", &roots, "1900", &rests, "04"].concat())
}

/// Runs that take much stack, from a thread that has little.
#[test]
fn the_deepest_runs() {
    let run = || {
        for (root, count, rest) in [("11", 126, ""), ("1800", 63, "10"), ("1600", 42, "10")] {
            let (program, question) = (growing(root, count, rest), bytes("1900"));
            let evaluated = evaluate(&program, &question, 1_000_000, 1_000);
            assert_eq!(evaluated.unwrap().ending, Ending::TooDeep, "{root}");
            let rewritten = Lent::enough().rewrite(&program, &question, 1_000_000, 4_096);
            assert_eq!(rewritten.unwrap().ending, Ending::TooBig, "{root}");
        }
        // Calls in the fourth argument of calls.
        let nested = "1900 10 10 10".repeat(31);
        let head = "020004 020100 0300 1400 1401 1402 1403 10 0301";
        let program = bytes(&[head, &nested, "1901 04"].concat());
        let evaluated = evaluate(&program, &bytes("1901"), 1_000_000, 1_000);
        assert_eq!(evaluated.unwrap().ending, Ending::TooDeep);
    };
    let little = std::thread::Builder::new().stack_size(256 << 10);
    little.spawn(run).unwrap().join().unwrap();
}
