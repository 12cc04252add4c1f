//! The timed-register bench in plain Rust, written from its scope document alone.
//!
//! The proved library is compared with this crate and timed against it. It
//! shares no code with that library.

mod bank;
mod bench;
mod program;
mod record;
mod refusal;

pub use bank::{Bank, Process, Register, UNLIMITED, Written};
pub use bench::{Bench, Place, State, run};
pub use program::{INPUT_LIMIT, print};
pub use record::{
    Event, Kind, STEP_SIZE, Setup, Step, read_setup, read_step, rest, write_setup, write_step,
};
pub use refusal::Refusal;

/// Most processes of a trace.
pub const PROCESSES: usize = 32;
/// Most slots or values of a trace, and the registers of a bank.
pub const REGISTERS: usize = 8;
/// Most steps of a trace.
pub const STEPS: usize = 1_000_000;
/// The highest tick.
pub const TOP_TICK: u32 = 4_000_000_000;
