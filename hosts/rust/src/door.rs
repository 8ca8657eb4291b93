//! The C functions of `include/puffinest.h`, called as they have to be: each
//! pointer with its slice's length, no two slices overlapping (which `&mut`
//! sees to), room for the whole report, and enough stack.

use std::thread;

/// The words of a report.
pub type Report = [u32; 7];

/// The stack of a call. The deepest runs tried take 2.4 MB, more than a thread
/// is sure to have left, so each call has a thread of its own.
const STACK: usize = 16 << 20;

extern "C" {
    fn puffinest_evaluate(
        program: *const u8,
        program_len: usize,
        question: *const u8,
        question_len: usize,
        steps: u32,
        levels: u32,
        report: *mut u32,
        report_len: usize,
    );

    fn puffinest_rewrite(
        program: *const u8,
        program_len: usize,
        question: *const u8,
        question_len: usize,
        steps: u32,
        room: u32,
        own: *mut u16,
        own_len: usize,
        first: *mut u16,
        first_len: usize,
        second: *mut u16,
        second_len: usize,
        report: *mut u32,
        report_len: usize,
    );
}

/// Panics where the system gives no thread.
fn on_own_stack(call: impl FnOnce() -> Report + Send) -> Report {
    thread::scope(|scope| {
        let builder = thread::Builder::new().stack_size(STACK);
        let running = builder.spawn_scoped(scope, call);
        running.expect("a thread for the call").join()
    })
    .expect("the call returns")
}

pub fn evaluate(program: &[u8], question: &[u8], steps: u32, levels: u32) -> Report {
    on_own_stack(|| {
        let mut report = Report::default();
        // SAFETY: pointers and lengths are those of slices that live through
        // the call; only the report is written, and nothing else borrows it.
        unsafe {
            puffinest_evaluate(
                program.as_ptr(),
                program.len(),
                question.as_ptr(),
                question.len(),
                steps,
                levels,
                report.as_mut_ptr(),
                report.len(),
            );
        }
        report
    })
}

pub fn rewrite(
    program: &[u8],
    question: &[u8],
    steps: u32,
    room: u32,
    own: &mut [u16],
    first: &mut [u16],
    second: &mut [u16],
) -> Report {
    on_own_stack(|| {
        let mut report = Report::default();
        // SAFETY: as above; what is written are the report and three slices,
        // each borrowed mutably, so that none overlaps another or a string.
        unsafe {
            puffinest_rewrite(
                program.as_ptr(),
                program.len(),
                question.as_ptr(),
                question.len(),
                steps,
                room,
                own.as_mut_ptr(),
                own.len(),
                first.as_mut_ptr(),
                first.len(),
                second.as_mut_ptr(),
                second.len(),
                report.as_mut_ptr(),
                report.len(),
            );
        }
        report
    })
}
