//! Readers and writers of the trace records.

use crate::{PROCESSES, REGISTERS, Refusal, TOP_TICK};

const SETUP_MARK: [u8; 2] = [0x4F, 0x53];
const STEP_MARK: [u8; 2] = [0x4F, 0x54];
/// Bytes of a setup before its start bytes.
const SETUP_HEAD: usize = 8;
/// Bytes of a step.
pub const STEP_SIZE: usize = 8;

#[derive(Clone, Copy, Debug, PartialEq, Eq)]
#[repr(u8)]
pub enum Kind {
    Lock = 1,
    Plain = 2,
    Fast = 3,
}

impl Kind {
    fn from_byte(byte: u8) -> Option<Kind> {
        match byte {
            1 => Some(Kind::Lock),
            2 => Some(Kind::Plain),
            3 => Some(Kind::Fast),
            _ => None,
        }
    }

    /// A start byte is a slot (from 0) in the lock, a proposal (from 1) in the others.
    fn starts_fit(self, starts: &[u8], size: u8) -> bool {
        let first = match self {
            Kind::Lock => 0,
            Kind::Plain | Kind::Fast => 1,
        };
        // Without an early way out, many bytes are compared at once.
        starts.iter().fold(true, |fit, start| fit & (start.wrapping_sub(first) < size))
    }
}

#[derive(Clone, Copy, Debug, PartialEq, Eq)]
pub struct Setup {
    pub kind: Kind,
    pub n: u8,
    /// The number of slots or of values.
    pub size: u8,
    pub delta: u16,
    /// Zero from `n` on.
    pub starts: [u8; PROCESSES],
}

#[derive(Clone, Copy, Debug, PartialEq, Eq)]
#[repr(u8)]
pub enum Event {
    Move = 0,
    Crash = 1,
}

#[derive(Clone, Copy, Debug, PartialEq, Eq)]
pub struct Step {
    pub process: u8,
    pub event: Event,
    pub tick: u32,
}

/// Reads the setup at the beginning of a trace.
pub fn read_setup(bytes: &[u8]) -> Result<Setup, Refusal> {
    let (head, after) = bytes.split_first_chunk::<SETUP_HEAD>().ok_or(Refusal::SetupCut)?;
    let [mark0, mark1, kind, n, size, zero, delta0, delta1] = *head;
    if [mark0, mark1] != SETUP_MARK {
        return Err(Refusal::SetupMark);
    }
    let kind = Kind::from_byte(kind).ok_or(Refusal::Kind)?;
    let count = process_count(n as usize)?;
    if !(1..=REGISTERS as u8).contains(&size) || zero != 0 {
        return Err(Refusal::Size);
    }
    let given = after.get(..count).ok_or(Refusal::SetupCut)?;
    if !kind.starts_fit(given, size) {
        return Err(Refusal::Start);
    }
    let mut starts = [0; PROCESSES];
    starts[..count].copy_from_slice(given);
    Ok(Setup { kind, n, size, delta: u16::from_le_bytes([delta0, delta1]), starts })
}

/// The bytes after the setup; the empty part at their beginning if it is refused.
pub fn rest(bytes: &[u8]) -> &[u8] {
    match read_setup(bytes) {
        Ok(setup) => &bytes[setup.length()..],
        Err(_) => &bytes[..0],
    }
}

/// Reads the step at the beginning of `bytes`, for any process 1 to 32.
pub fn read_step(bytes: &[u8]) -> Result<Step, Refusal> {
    let card = bytes.first_chunk().ok_or(Refusal::StepCut)?;
    Step::read(card, PROCESSES as u8)
}

/// Writes a setup of as many processes as start bytes are lent; gives its length.
pub fn write_setup(
    buffer: &mut [u8],
    kind: u32,
    size: u32,
    delta: u16,
    starts: &[u8],
) -> Result<usize, Refusal> {
    let kind = u8::try_from(kind).map_err(|_| Refusal::Kind)?;
    let the_kind = Kind::from_byte(kind).ok_or(Refusal::Kind)?;
    let n = process_count(starts.len())?;
    if !(1..=REGISTERS as u32).contains(&size) {
        return Err(Refusal::Size);
    }
    let size = size as u8;
    if !the_kind.starts_fit(starts, size) {
        return Err(Refusal::Start);
    }
    let length = SETUP_HEAD + n;
    let record = buffer.get_mut(..length).ok_or(Refusal::BufferShort)?;
    let (head, tail) = record.split_at_mut(SETUP_HEAD);
    let [delta0, delta1] = delta.to_le_bytes();
    head.copy_from_slice(&[SETUP_MARK[0], SETUP_MARK[1], kind, n as u8, size, 0, delta0, delta1]);
    tail.copy_from_slice(starts);
    Ok(length)
}

/// Writes a step; gives its length.
pub fn write_step(
    buffer: &mut [u8],
    process: u32,
    event: u32,
    tick: u32,
) -> Result<usize, Refusal> {
    if !(1..=PROCESSES as u32).contains(&process) {
        return Err(Refusal::Process);
    }
    if event > Event::Crash as u32 {
        return Err(Refusal::Event);
    }
    if tick > TOP_TICK {
        return Err(Refusal::Tick);
    }
    let record = buffer.first_chunk_mut::<STEP_SIZE>().ok_or(Refusal::BufferShort)?;
    let [t0, t1, t2, t3] = tick.to_le_bytes();
    *record = [STEP_MARK[0], STEP_MARK[1], process as u8, event as u8, t0, t1, t2, t3];
    Ok(STEP_SIZE)
}

impl Setup {
    /// Bytes of this setup's record.
    pub fn length(&self) -> usize {
        SETUP_HEAD + self.n as usize
    }
}

impl Step {
    /// Reads a step of one of `processes` processes.
    #[inline]
    pub(crate) fn read(card: &[u8; STEP_SIZE], processes: u8) -> Result<Step, Refusal> {
        let [mark0, mark1, process, event, t0, t1, t2, t3] = *card;
        if [mark0, mark1] != STEP_MARK {
            return Err(Refusal::StepMark);
        }
        if process == 0 || process > processes {
            return Err(Refusal::Process);
        }
        let event = match event {
            0 => Event::Move,
            1 => Event::Crash,
            _ => return Err(Refusal::Event),
        };
        let tick = u32::from_le_bytes([t0, t1, t2, t3]);
        if tick > TOP_TICK {
            return Err(Refusal::Tick);
        }
        Ok(Step { process, event, tick })
    }
}

fn process_count(n: usize) -> Result<usize, Refusal> {
    if (1..=PROCESSES).contains(&n) { Ok(n) } else { Err(Refusal::Processes) }
}

#[cfg(test)]
mod tests {
    use super::*;

    const SETUP: [u8; 10] = [0x4F, 0x53, 2, 2, 2, 0, 2, 1, 1, 2];

    fn with(position: usize, value: u8) -> [u8; 10] {
        let mut bytes = SETUP;
        bytes[position] = value;
        bytes
    }

    #[test]
    fn a_setup_is_read_and_written() {
        let setup = read_setup(&SETUP).unwrap();
        assert_eq!((setup.kind, setup.n, setup.size, setup.delta), (Kind::Plain, 2, 2, 258));
        assert_eq!(setup.starts[..3], [1, 2, 0]);
        let mut buffer = [9; 11];
        assert_eq!(write_setup(&mut buffer, 2, 2, 258, &[1, 2]), Ok(10));
        assert_eq!((&buffer[..10], buffer[10]), (&SETUP[..], 9));
    }

    #[test]
    fn the_rest_starts_after_the_setup() {
        let mut long = SETUP.to_vec();
        long.extend([7, 8, 9]);
        assert_eq!(rest(&long), [7, 8, 9]);
        assert_eq!(rest(&long).as_ptr(), long[10..].as_ptr());
        assert_eq!(rest(&SETUP), []);
        long[0] = 0;
        assert_eq!(rest(&long), []);
        assert_eq!(rest(&long).as_ptr(), long.as_ptr());
    }

    #[test]
    fn setup_refusals() {
        for (position, value, refusal) in [
            (0, 0x4E, Refusal::SetupMark),
            (1, 0x54, Refusal::SetupMark),
            (2, 0, Refusal::Kind),
            (2, 4, Refusal::Kind),
            (3, 0, Refusal::Processes),
            (3, 33, Refusal::Processes),
            (3, 3, Refusal::SetupCut),
            (4, 0, Refusal::Size),
            (4, 9, Refusal::Size),
            (5, 1, Refusal::Size),
            (8, 0, Refusal::Start),
            (9, 3, Refusal::Start),
        ] {
            assert_eq!(read_setup(&with(position, value)), Err(refusal));
        }
        assert_eq!(read_setup(&[]), Err(Refusal::SetupCut));
        assert_eq!(read_setup(&SETUP[..7]), Err(Refusal::SetupCut));
        assert_eq!(read_setup(&SETUP[..9]), Err(Refusal::SetupCut));
        // A non-zero zero byte comes before missing start bytes, those before a bad start.
        assert_eq!(read_setup(&with(5, 1)[..8]), Err(Refusal::Size));
        assert_eq!(read_setup(&with(8, 0)[..9]), Err(Refusal::SetupCut));
    }

    #[test]
    fn lock_starts_count_from_zero() {
        let mut bytes = with(2, 1);
        assert_eq!(read_setup(&bytes), Err(Refusal::Start));
        bytes[8..].copy_from_slice(&[0, 1]);
        assert!(read_setup(&bytes).is_ok());
    }

    #[test]
    fn setup_writer_refusals() {
        let mut buffer = [9; 9];
        for (kind, size, starts, refusal) in [
            (0, 0, &[][..], Refusal::Kind),
            (257, 2, &[1, 1], Refusal::Kind),
            (u32::MAX, 2, &[1, 1], Refusal::Kind),
            (1, 0, &[], Refusal::Processes),
            (1, 0, &[0; 33], Refusal::Processes),
            (1, 0, &[9, 9], Refusal::Size),
            (1, 9, &[9, 9], Refusal::Size),
            (1, 258, &[1, 1], Refusal::Size),
            (1, 65_538, &[1, 1], Refusal::Size),
            (1, 1, &[0, 1], Refusal::Start),
            (2, 8, &[8, 0], Refusal::Start),
            (2, 8, &[8, 1], Refusal::BufferShort),
        ] {
            assert_eq!(write_setup(&mut buffer, kind, size, 0, starts), Err(refusal));
            assert_eq!(buffer, [9; 9]);
        }
    }

    #[test]
    fn a_step_is_read_and_written() {
        let mut buffer = [9; 9];
        assert_eq!(write_step(&mut buffer, 32, 1, TOP_TICK), Ok(8));
        assert_eq!(buffer, [0x4F, 0x54, 32, 1, 0x00, 0x28, 0x6B, 0xEE, 9]);
        let step = Step { process: 32, event: Event::Crash, tick: TOP_TICK };
        assert_eq!(read_step(&buffer), Ok(step));
        assert_eq!(read_step(&buffer[..7]), Err(Refusal::StepCut));
        assert_eq!(read_step(&[]), Err(Refusal::StepCut));
        for (position, value, refusal) in [
            (0, 0, Refusal::StepMark),
            (1, 0x53, Refusal::StepMark),
            (2, 0, Refusal::Process),
            (2, 33, Refusal::Process),
            (3, 2, Refusal::Event),
            (4, 1, Refusal::Tick),
        ] {
            let mut bytes = buffer;
            bytes[position] = value;
            assert_eq!(read_step(&bytes), Err(refusal));
        }
    }

    #[test]
    fn step_writer_refusals() {
        let mut buffer = [9; 7];
        for (process, event, tick, refusal) in [
            (0, 2, TOP_TICK + 1, Refusal::Process),
            (33, 2, TOP_TICK + 1, Refusal::Process),
            (257, 0, 0, Refusal::Process),
            (u32::MAX, 0, 0, Refusal::Process),
            (1, 2, TOP_TICK + 1, Refusal::Event),
            (1, 256, 0, Refusal::Event),
            (1, 65_537, 0, Refusal::Event),
            (1, 1, TOP_TICK + 1, Refusal::Tick),
            (1, 1, TOP_TICK, Refusal::BufferShort),
        ] {
            assert_eq!(write_step(&mut buffer, process, event, tick), Err(refusal));
            assert_eq!(buffer, [9; 7]);
        }
    }
}
