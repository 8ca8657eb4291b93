//! Puffinest's two public calls as safe functions: slices go in, and out comes
//! a typed answer or a refusal. Any bytes, allowances and slices may be given.
//!
//! ```
//! let program = [0x02, 0, 1, 0x03, 0, 0x14, 0, 0x11, 0x14, 0, 0x04]; // f(x) -> succ(x)
//! let answer = puffinest::evaluate(&program, &[0x19, 0, 0x10], 100, 10).unwrap();
//! assert_eq!(answer.to_string(), "value 1 zero 5");
//! ```
//!
//! The lent slices do not overlap: one buffer lent twice does not compile.
//!
//! ```compile_fail,E0499
//! let (mut own, mut words) = ([0; 64], [0; 64]);
//! let answer = puffinest::rewrite(&[4], &[0x10], 1, 64, &mut own, &mut words, &mut words);
//! ```

mod door;
mod report;

pub use report::{About, Answer, Base, Ending, Reason, Refusal};

/// So many words are always enough for an own list (proved); the longest one
/// seen has 13,263.
pub const ENOUGH_FOR_OWN: usize = 15_504;

/// The evaluator's answer. Allowances: `steps` up to 1,000,000, `levels` from 1
/// to 1,000.
pub fn evaluate(
    program: &[u8],
    question: &[u8],
    steps: u32,
    levels: u32,
) -> Result<Answer, Refusal> {
    report::read(door::evaluate(program, question, steps, levels))
}

/// The rewriter's answer. Allowances: `steps` up to 1,000,000, `room` from 1 to
/// 4,096 words.
///
/// Afterwards `own` starts with the program's own list, `first` with the last
/// term that fitted, then zeros up to the room, and `second` with zeros up to
/// the room. Words past those are as they were; after a refusal all words are.
pub fn rewrite(
    program: &[u8],
    question: &[u8],
    steps: u32,
    room: u32,
    own: &mut [u16],
    first: &mut [u16],
    second: &mut [u16],
) -> Result<Answer, Refusal> {
    report::read(door::rewrite(
        program, question, steps, room, own, first, second,
    ))
}
