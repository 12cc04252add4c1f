//! A timed-register bench: runs a trace against the ℓ-exclusion lock, the plain
//! decision or the fast decision, and reports where each process ends.
//!
//! Every call goes to the proved library behind its C surface ([`sys`]); this
//! crate only turns pointers and numbers into slices, enums and [`Result`]s.
//!
//! Process 1 proposes 1, looks, writes, finds its value, waits and decides:
//!
//! ```
//! use ghindulza::{Event, Kind, run, write_setup, write_step};
//!
//! let mut trace = [0; 10 + 5 * 8];
//! let mut length = write_setup(&mut trace, Kind::Plain, 2, 2, &[1, 2])?;
//! for tick in [0, 1, 1, 2, 5] {
//!     length += write_step(&mut trace[length..], 1, Event::Move, tick)?;
//! }
//!
//! let mut report = [0; 8];
//! assert_eq!(run(&trace[..length], &mut report)?, 5);
//! assert_eq!(report[..4], [8, 1, 5, 0]); // decided 1 after 5 moves, none late
//! assert_eq!(report[4..], [1, 0, 0, 0]); // process 2 did not move
//! # Ok::<(), Box<dyn std::error::Error>>(())
//! ```

mod bank;
mod record;
mod refusal;
pub mod sys;

pub use bank::{Bank, Process, Register, UNLIMITED, Written};
pub use record::{
    Event, Kind, STEP_LENGTH, Setup, Step, read_setup, read_step, rest, write_setup, write_step,
};
pub use refusal::{Refusal, RefusedRun};

/// Most processes of a trace.
pub const PROCESSES: usize = 32;
/// Most slots or values of a trace, and the registers of a bank.
pub const REGISTERS: usize = 8;
/// Most steps of a trace.
pub const STEPS: usize = 1_000_000;
/// The highest tick.
pub const TOP_TICK: u32 = 4_000_000_000;

/// What a run gives: the number of accepted steps, or what was refused and where.
pub type Outcome = Result<u32, RefusedRun>;

/// Runs a whole trace, a setup and any number of steps.
///
/// An accepted run writes four numbers a process to `report`: its place (0 rest,
/// 1 look, 2 put, 3 about to wait, 4 check, 5 critical, 6 flag, 7 scan, 8 decided,
/// 9 crashed), its slot or the value it decided (0 if undecided), its moves and its
/// late writes. Numbers behind those stay. A refused run leaves the whole report.
///
/// # Errors
///
/// [`RefusedRun`] holds the refusal and its record: 0 for the setup, a short report
/// or a long trace, 1 for the first step.
pub fn run(trace: &[u8], report: &mut [u32]) -> Outcome {
    let mut record = 0;
    // SAFETY: both slices are lent whole with their lengths, `record` is one number.
    let number = unsafe {
        sys::ghindulza_run(
            trace.as_ptr(),
            trace.len(),
            report.as_mut_ptr(),
            report.len(),
            &mut record,
        )
    };
    match Refusal::check(number) {
        Ok(()) => Ok(record),
        Err(refusal) => Err(RefusedRun { refusal, record }),
    }
}
