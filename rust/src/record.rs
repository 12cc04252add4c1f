//! Readers and writers of the trace records.

use crate::{PROCESSES, Refusal, sys};

/// Bytes of a step record.
pub const STEP_LENGTH: usize = 8;

/// The routine that a trace runs.
#[derive(Clone, Copy, Debug, PartialEq, Eq, Hash)]
#[repr(u8)]
pub enum Kind {
    /// The ℓ-exclusion lock.
    Lock = 1,
    /// The plain decision.
    Plain = 2,
    /// The fast decision.
    Fast = 3,
}

/// A setup record.
#[derive(Clone, Copy, Debug, PartialEq, Eq)]
pub struct Setup {
    pub kind: Kind,
    /// The number of slots (lock) or of values (decisions), 1 to 8.
    pub size: u32,
    /// The bound Δ.
    pub delta: u16,
    n: u8,
    starts: [u8; PROCESSES],
}

impl Setup {
    /// The start byte of each process: a slot from 0, or a proposal from 1.
    pub fn starts(&self) -> &[u8] {
        &self.starts[..self.processes()]
    }

    /// The number of processes.
    pub fn processes(&self) -> usize {
        self.n as usize
    }
}

/// What a step does to its process.
#[derive(Clone, Copy, Debug, PartialEq, Eq, Hash)]
#[repr(u8)]
pub enum Event {
    Move = 0,
    Crash = 1,
}

/// A step record.
#[derive(Clone, Copy, Debug, PartialEq, Eq, Hash)]
pub struct Step {
    pub process: u32,
    pub event: Event,
    pub tick: u32,
}

/// Reads the setup at the beginning of `bytes`; [`rest`] gives what follows it.
///
/// # Errors
///
/// [`Refusal::SetupCut`] to [`Refusal::Start`].
pub fn read_setup(bytes: &[u8]) -> Result<Setup, Refusal> {
    read(bytes).map(|(setup, _)| setup)
}

/// The part of `bytes` after the setup; the empty part at their beginning if the
/// setup is refused.
pub fn rest(bytes: &[u8]) -> &[u8] {
    match read(bytes) {
        Ok((_, [offset, length])) => &bytes[offset as usize..][..length as usize],
        Err(_) => &bytes[..0],
    }
}

fn read(bytes: &[u8]) -> Result<(Setup, [u64; 2]), Refusal> {
    let (mut fields, mut starts, mut rest) = ([0; 5], [0; PROCESSES], [0; 2]);
    // SAFETY: `bytes` is lent whole with its length, the others have the sizes asked for.
    let number = unsafe {
        sys::ghindulza_read_setup(bytes.as_ptr(), bytes.len(), &mut fields, &mut starts, &mut rest)
    };
    Refusal::check(number)?;
    let [kind, n, size, _, delta] = fields;
    let kind = match kind {
        1 => Kind::Lock,
        2 => Kind::Plain,
        3 => Kind::Fast,
        _ => panic!("the library accepted kind {kind}"),
    };
    let setup = Setup { kind, size, delta: delta as u16, n: n as u8, starts };
    Ok((setup, rest))
}

/// Reads the step at the beginning of `bytes`, for any process 1 to 32.
///
/// # Errors
///
/// [`Refusal::StepCut`] to [`Refusal::Event`], and [`Refusal::Tick`] for a tick above
/// the highest.
pub fn read_step(bytes: &[u8]) -> Result<Step, Refusal> {
    let mut fields = [0; 3];
    // SAFETY: `bytes` is lent whole with its length, `fields` has the size asked for.
    let number = unsafe { sys::ghindulza_read_step(bytes.as_ptr(), bytes.len(), &mut fields) };
    Refusal::check(number)?;
    let [process, event, tick] = fields;
    let event = match event {
        0 => Event::Move,
        1 => Event::Crash,
        _ => panic!("the library accepted event {event}"),
    };
    Ok(Step { process, event, tick })
}

/// Writes a setup of `starts.len()` processes to the beginning of `buffer` and gives
/// its length. A refused one changes no byte.
///
/// # Errors
///
/// [`Refusal::Processes`], [`Refusal::Size`], [`Refusal::Start`] or
/// [`Refusal::BufferShort`].
pub fn write_setup(
    buffer: &mut [u8],
    kind: Kind,
    size: u32,
    delta: u16,
    starts: &[u8],
) -> Result<usize, Refusal> {
    let mut length = 0;
    // SAFETY: both slices are lent whole with their lengths and cannot overlap.
    let number = unsafe {
        sys::ghindulza_write_setup(
            buffer.as_mut_ptr(),
            buffer.len(),
            kind as u32,
            size,
            delta,
            starts.as_ptr(),
            starts.len(),
            &mut length,
        )
    };
    Refusal::check(number).map(|()| length as usize)
}

/// Writes a step to the beginning of `buffer` and gives its length. A refused one
/// changes no byte.
///
/// # Errors
///
/// [`Refusal::Process`], [`Refusal::Tick`] or [`Refusal::BufferShort`].
pub fn write_step(
    buffer: &mut [u8],
    process: u32,
    event: Event,
    tick: u32,
) -> Result<usize, Refusal> {
    let mut length = 0;
    // SAFETY: `buffer` is lent whole with its length.
    let number = unsafe {
        sys::ghindulza_write_step(
            buffer.as_mut_ptr(),
            buffer.len(),
            process,
            event as u32,
            tick,
            &mut length,
        )
    };
    Refusal::check(number).map(|()| length as usize)
}
