//! Readers and writers of the records, library against plain implementation.

mod common;

use common::{Guarded, Lent, Random, hex, scale, scaled};
use ghindulza::sys;
use independent::{STEP_SIZE, TOP_TICK};

const LONGEST: usize = 48;

/// Both readers, over guarded copies of the bytes.
struct Readers {
    bytes: Lent<u8>,
    numbers: [u64; 20],
}

impl Readers {
    fn new() -> Readers {
        Readers { bytes: Lent::new(), numbers: [0; 20] }
    }

    fn check_setup(&mut self, bytes: &[u8]) -> u32 {
        self.bytes.copy(bytes, 0x4F);
        let mut fields = Guarded::new([0xA5A5_A5A5; 5]);
        let mut starts = Guarded::new([0xA5; 32]);
        let mut rest = Guarded::new([0xA5A5_A5A5_A5A5_A5A5; 2]);
        // SAFETY: the lent areas have the sizes asked for and are apart.
        let number = unsafe {
            sys::ghindulza_read_setup(
                self.bytes.pointer(),
                self.bytes.len(),
                &mut fields.lent,
                &mut starts.lent,
                &mut rest.lent,
            )
        };
        let found = (number, fields, starts, rest);
        let wanted = match independent::read_setup(bytes) {
            Ok(setup) => {
                let (n, size, delta) = (setup.n as u32, setup.size as u32, setup.delta as u32);
                let offset = setup.length() as u64;
                (
                    0,
                    Guarded::new([setup.kind as u32, n, size, 0, delta]),
                    Guarded::new(setup.starts),
                    Guarded::new([offset, bytes.len() as u64 - offset]),
                )
            }
            Err(refusal) => (
                refusal.number(),
                Guarded::new([0; 5]),
                Guarded::new([0; 32]),
                Guarded::new([0; 2]),
            ),
        };
        if found != wanted || !self.bytes.is_right() {
            panic!(
                "setup reader differs\ninput {}\nlibrary: {found:?}\nplain:   {wanted:?}",
                hex(bytes)
            );
        }
        self.numbers[number as usize] += 1;
        number
    }

    fn check_step(&mut self, bytes: &[u8]) -> u32 {
        self.bytes.copy(bytes, 0x4F);
        let mut fields = Guarded::new([0xA5A5_A5A5; 3]);
        // SAFETY: the lent areas have the sizes asked for and are apart.
        let number = unsafe {
            sys::ghindulza_read_step(self.bytes.pointer(), self.bytes.len(), &mut fields.lent)
        };
        let found = (number, fields);
        let wanted = match independent::read_step(bytes) {
            Ok(step) => (0, Guarded::new([step.process as u32, step.event as u32, step.tick])),
            Err(refusal) => (refusal.number(), Guarded::new([0; 3])),
        };
        if found != wanted || !self.bytes.is_right() {
            panic!(
                "step reader differs\ninput {}\nlibrary: {found:?}\nplain:   {wanted:?}",
                hex(bytes)
            );
        }
        self.numbers[number as usize] += 1;
        number
    }

    fn check_both(&mut self, bytes: &[u8]) {
        self.check_setup(bytes);
        self.check_step(bytes);
    }
}

/// Both writers, over guarded buffers.
struct Writers {
    buffer: Lent<u8>,
    starts: Lent<u8>,
    numbers: [u64; 20],
}

impl Writers {
    fn new() -> Writers {
        Writers { buffer: Lent::new(), starts: Lent::new(), numbers: [0; 20] }
    }

    fn lend(&mut self, room: usize) {
        self.buffer.fill(room, |index| 0xC3 ^ index as u8);
    }

    fn check_setup(&mut self, room: usize, kind: u32, size: u32, delta: u16, starts: &[u8]) -> u32 {
        self.lend(room);
        self.starts.copy(starts, 1);
        let mut length = Guarded::new(0xA5A5_A5A5_A5A5_A5A5);
        // SAFETY: the lent areas have the sizes asked for and are apart.
        let number = unsafe {
            sys::ghindulza_write_setup(
                self.buffer.pointer(),
                room,
                kind,
                size,
                delta,
                self.starts.pointer(),
                starts.len(),
                &mut length.lent,
            )
        };
        let result = independent::write_setup(self.buffer.wanted(), kind, size, delta, starts);
        self.settle((number, length), result, || {
            format!("setup kind {kind} size {size} delta {delta} starts {}", hex(starts))
        });
        assert!(self.starts.is_right(), "the writer changed the start bytes lent to it");
        number
    }

    fn check_step(&mut self, room: usize, process: u32, event: u32, tick: u32) -> u32 {
        self.lend(room);
        let mut length = Guarded::new(0xA5A5_A5A5_A5A5_A5A5);
        // SAFETY: the lent areas have the sizes asked for and are apart.
        let number = unsafe {
            sys::ghindulza_write_step(
                self.buffer.pointer(),
                room,
                process,
                event,
                tick,
                &mut length.lent,
            )
        };
        let result = independent::write_step(self.buffer.wanted(), process, event, tick);
        self.settle((number, length), result, || {
            format!("step process {process} event {event} tick {tick}")
        });
        number
    }

    fn settle(
        &mut self,
        found: (u32, Guarded<u64>),
        result: Result<usize, independent::Refusal>,
        call: impl Fn() -> String,
    ) {
        let wanted = match result {
            Ok(length) => (0, Guarded::new(length as u64)),
            Err(refusal) => (refusal.number(), Guarded::new(0)),
        };
        if found != wanted || !self.buffer.is_right() {
            let (buffer, wanted_buffer) = self.buffer.both();
            panic!(
                "writer differs at {}, buffer of {}\nlibrary: {found:?} {}\nplain:   {wanted:?} {}",
                call(),
                self.buffer.len(),
                hex(buffer),
                hex(wanted_buffer),
            );
        }
        self.numbers[found.0 as usize] += 1;
    }

    /// What the last call wrote.
    fn written(&self) -> &[u8] {
        self.buffer.found()
    }
}

fn setup(kind: u32, n: usize, size: u32, delta: u16) -> Vec<u8> {
    let first = (kind != 1) as u8;
    let starts: Vec<u8> = (0..n).map(|index| first + (index * 5 % size as usize) as u8).collect();
    let mut bytes = vec![0; 8 + n];
    independent::write_setup(&mut bytes, kind, size, delta, &starts).unwrap();
    bytes
}

fn step(process: u32, event: u32, tick: u32) -> Vec<u8> {
    let mut bytes = vec![0; STEP_SIZE];
    independent::write_step(&mut bytes, process, event, tick).unwrap();
    bytes
}

/// Fills up with a step and other bytes, to the longest length tried.
fn filled(mut bytes: Vec<u8>) -> Vec<u8> {
    bytes.extend(step(1, 0, 3));
    bytes.extend([0, 1, 8, 9, 255].iter().cycle().take(LONGEST));
    bytes.truncate(LONGEST);
    bytes
}

/// Pairs of numbers with each of these as a low byte, at every width up to 32 bits.
fn wide_pairs(firsts: &[u32], seconds: &[u32]) -> Vec<(u32, u32)> {
    let above = [0, 0x100, 0x1_0000, 0x100_0000, 0x8000_0000, 0xFFFF_FF00];
    let wide = |lows: &[u32]| -> Vec<u32> {
        lows.iter().flat_map(|low| above.map(|high| high + low)).chain([u32::MAX]).collect()
    };
    let seconds = wide(seconds);
    wide(firsts).iter().flat_map(|&a| seconds.iter().map(move |&b| (a, b))).collect()
}

/// Every length, and at every position of it every other byte.
fn every_change(bytes: &mut [u8], mut check: impl FnMut(&[u8])) {
    for length in 0..=bytes.len() {
        check(&bytes[..length]);
        for position in 0..length {
            let kept = bytes[position];
            for value in 0..=255 {
                bytes[position] = value;
                check(&bytes[..length]);
            }
            bytes[position] = kept;
        }
    }
}

#[test]
fn setups_changed_in_one_byte() {
    let mut readers = Readers::new();
    let sizes: &[u32] = if scale() > 1.0 { &[1, 2, 3, 4, 5, 6, 7, 8] } else { &[1, 3, 8] };
    let stride = if scale() < 1.0 { 31 } else { 1 };
    for kind in 1..=3 {
        for n in (1..=32).step_by(stride) {
            for &size in sizes {
                let delta = 0x0102_u16.wrapping_mul(n as u16) ^ size as u16;
                let mut bytes = filled(setup(kind, n, size, delta));
                every_change(&mut bytes, |bytes| {
                    readers.check_setup(bytes);
                });
            }
        }
    }
    println!("numbers met: {:?}", readers.numbers);
    assert!(readers.numbers[..7].iter().all(|&times| times > 0));
}

#[test]
fn steps_changed_in_one_byte() {
    let mut readers = Readers::new();
    for process in [1, 7, 32] {
        for event in [0, 1] {
            for tick in [0, 0x0102_0304, 0xEE6B_27FF, TOP_TICK] {
                let mut bytes = filled(step(process, event, tick));
                every_change(&mut bytes, |bytes| {
                    readers.check_step(bytes);
                });
            }
        }
    }
    println!("numbers met: {:?}", readers.numbers);
    for number in [0, 9, 10, 11, 12, 13] {
        assert!(readers.numbers[number] > 0, "{number} was never met");
    }
}

/// Each reader is given the other's record too.
#[test]
fn short_inputs() {
    let mut readers = Readers::new();
    readers.check_both(&[]);
    for first in 0..=255 {
        readers.check_both(&[first]);
        for second in 0..=255 {
            readers.check_both(&[first, second]);
            let mut bytes = filled(setup(2, 2, 2, 2));
            (bytes[0], bytes[1]) = (first, second);
            readers.check_both(&bytes);
        }
    }
    // Kind, count, size and zero byte, all mixed.
    for kind in [0, 1, 2, 3, 4, 255] {
        for n in (0..=40).chain([64, 127, 128, 255]) {
            for size in (0..=10).chain([16, 128, 255]) {
                for zero in [0, 1, 128] {
                    for length in 0..=LONGEST {
                        let mut bytes = [1; LONGEST];
                        bytes[..6].copy_from_slice(&[0x4F, 0x53, kind, n, size, zero]);
                        readers.check_setup(&bytes[..length]);
                    }
                }
            }
        }
    }
}

#[test]
fn random_inputs() {
    let mut random = Random::new(0x7EC0_0001);
    let mut readers = Readers::new();
    for _ in 0..scaled(2_000_000) {
        let kind = random.between(1, 3);
        let size = random.between(1, 8);
        let mut bytes = if random.once_in(2) {
            let n = random.between(1, 32) as usize;
            let mut bytes = setup(kind, n, size, random.next() as u16);
            let more = random.below(4) as usize * 3;
            bytes.extend((0..more).map(|_| random.byte()));
            bytes
        } else {
            let mut bytes = step(random.between(1, 32), random.below(2) as u32, 0);
            let tick = match random.below(3) {
                0 => random.between(TOP_TICK - 3, TOP_TICK + 3),
                _ => random.next() as u32,
            };
            bytes[4..].copy_from_slice(&tick.to_le_bytes());
            let more = random.below(3) as usize;
            bytes.extend((0..more).map(|_| random.byte()));
            bytes
        };
        for _ in 0..random.below(3) {
            let position = random.below(bytes.len().min(16) as u64) as usize;
            bytes[position] = match random.below(3) {
                0 => random.byte(),
                1 => random.one_of(&[0, 1, 2, 3, 4, 8, 9, 32, 33, 0x4F, 0x53, 0x54]),
                _ => bytes[position].wrapping_add(1),
            };
        }
        if random.once_in(4) {
            bytes.truncate(random.below(bytes.len() as u64 + 1) as usize);
        }
        readers.check_both(&bytes);
    }
    println!("numbers met: {:?}", readers.numbers);
    assert!(readers.numbers[..7].iter().all(|&times| times > 0));
    assert!(readers.numbers[9..14].iter().all(|&times| times > 0));
}

#[test]
fn setups_written() {
    let mut writers = Writers::new();
    let counts: Vec<usize> =
        (0..=40).chain([64, 127, 128, 255, 256, 257, 258, 288, 65_536, 65_538]).collect();
    for kind in [0, 1, 2, 3, 4, 255] {
        for &n in &counts {
            for size in (0..=10).chain([128, 255]) {
                let valid = (kind != 1) as u8;
                let mut starts = vec![valid; n];
                for room in 0..=LONGEST {
                    writers.check_setup(room, kind, size, 0x0102, &starts);
                }
                // One start byte wrong or just right, at the ends and in the middle.
                for position in [0, n / 2, n.saturating_sub(1)] {
                    for value in [0, 1, size.wrapping_sub(1), size, size.wrapping_add(1), 255] {
                        if let Some(start) = starts.get_mut(position) {
                            *start = value as u8;
                        }
                        for room in [0, 7, 8, 8 + n.saturating_sub(1), 8 + n, 9 + n] {
                            writers.check_setup(room.min(100), kind, size, 65_535, &starts);
                        }
                        if let Some(start) = starts.get_mut(position) {
                            *start = valid;
                        }
                    }
                }
            }
        }
    }
    for kind in 0..=255 {
        for size in 0..=255 {
            for room in [9, 10, 11] {
                writers.check_setup(room, kind, size, 258, &[1, 1]);
                writers.check_setup(room, kind, size, 258, &[0, 7]);
            }
        }
    }
    // Numbers that do not fit a byte, among them those whose low byte would be accepted.
    for (kind, size) in wide_pairs(&[0, 1, 2, 3, 4], &[0, 1, 8, 9]) {
        for room in [0, 9, 10] {
            writers.check_setup(room, kind, size, 258, &[1, 1]);
            writers.check_setup(room, kind, size, 258, &[0, 9]);
            writers.check_setup(room, kind, size, 258, &[]);
        }
    }
    assert_eq!(writers.check_setup(10, 257, 2, 258, &[1, 1]), 3);
    assert_eq!(writers.check_setup(10, 1, 258, 258, &[1, 1]), 5);
    for delta in 0..=65_535 {
        assert_eq!(writers.check_setup(11, 1, 3, delta, &[2, 0, 1]), 0);
    }
    println!("numbers met: {:?}", writers.numbers);
    for number in [0, 3, 4, 5, 6, 19] {
        assert!(writers.numbers[number] > 0, "{number} was never met");
    }
}

#[test]
fn steps_written() {
    let mut writers = Writers::new();
    let ticks = [0, 1, 0x0102_0304, TOP_TICK - 1, TOP_TICK, TOP_TICK + 1, u32::MAX];
    for process in 0..=255 {
        for event in 0..=255 {
            for tick in ticks {
                for room in [0, 7, 8, 9] {
                    writers.check_step(room, process, event, tick);
                }
            }
        }
        for event in 0..=3 {
            for tick in ticks {
                for room in 0..=LONGEST {
                    writers.check_step(room, process, event, tick);
                }
            }
        }
    }
    // Numbers that do not fit a byte, among them those whose low byte would be accepted.
    for (process, event) in wide_pairs(&[0, 1, 32, 33], &[0, 1, 2]) {
        for tick in ticks {
            for room in [0, 7, 8, 9] {
                writers.check_step(room, process, event, tick);
            }
        }
    }
    assert_eq!(writers.check_step(8, 257, 0, 0), 11);
    assert_eq!(writers.check_step(8, 257, 256, 0), 11);
    assert_eq!(writers.check_step(8, 1, 256, 0), 12);
    println!("numbers met: {:?}", writers.numbers);
    for number in [0, 11, 12, 13, 19] {
        assert!(writers.numbers[number] > 0, "{number} was never met");
    }
}

/// What a writer wrote, the reader reads; what a reader accepts, the writer writes.
#[test]
fn round_trips() {
    let mut random = Random::new(0x7EC0_0002);
    let (mut readers, mut writers) = (Readers::new(), Writers::new());
    for _ in 0..scaled(500_000) {
        let kind = random.between(1, 3);
        let size = random.between(1, 8);
        let delta = random.next() as u16;
        let first = (kind != 1) as u8;
        let n = random.between(1, 32) as usize;
        let starts: Vec<u8> = (0..n).map(|_| first + random.below(size as u64) as u8).collect();
        let room = 8 + n + random.below(5) as usize;
        assert_eq!(writers.check_setup(room, kind, size, delta, &starts), 0);
        let written = writers.written().to_vec();
        assert_eq!(readers.check_setup(&written), 0);
        let setup = ghindulza::read_setup(&written).unwrap();
        assert_eq!(
            (setup.kind as u32, setup.size, setup.delta, setup.starts(), setup.processes()),
            (kind, size, delta, &starts[..], n)
        );
        assert_eq!(ghindulza::rest(&written), &written[8 + n..]);

        let (process, event) = (random.between(1, 32), random.below(2) as u32);
        let tick = random.between(0, TOP_TICK);
        let room = 8 + random.below(5) as usize;
        assert_eq!(writers.check_step(room, process, event, tick), 0);
        let written = writers.written().to_vec();
        assert_eq!(readers.check_step(&written), 0);
        let step = ghindulza::read_step(&written).unwrap();
        assert_eq!((step.process, step.event as u32, step.tick), (process, event, tick));
    }
}

/// The wrapper hands the rest back as a part of the caller's bytes.
#[test]
fn the_rest_is_a_part_of_the_input() {
    for kind in 1..=3 {
        for n in 1..=32 {
            for more in [0, 1, 8, 1000] {
                let mut bytes = setup(kind, n, 8, 1);
                bytes.extend(vec![7; more]);
                let rest = ghindulza::rest(&bytes);
                assert_eq!((rest.as_ptr(), rest.len()), (bytes[8 + n..].as_ptr(), more));
                bytes[0] = 0;
                let rest = ghindulza::rest(&bytes);
                assert_eq!((rest.as_ptr(), rest.len()), (bytes.as_ptr(), 0));
                assert_eq!(ghindulza::read_setup(&bytes), Err(ghindulza::Refusal::SetupMark));
            }
        }
    }
}

/// The wrapper's writers give what the C surface gives.
#[test]
fn writers_through_the_wrapper() {
    use ghindulza::{Event, Kind, Refusal};
    let mut buffer = [9; 10];
    let mut write = |kind, size, starts: &[u8]| {
        buffer = [9; 10];
        let result = ghindulza::write_setup(&mut buffer, kind, size, 258, starts);
        (result, buffer)
    };
    assert_eq!(write(Kind::Plain, 2, &[1, 2]), (Ok(10), [0x4F, 0x53, 2, 2, 2, 0, 2, 1, 1, 2]));
    assert_eq!(write(Kind::Lock, 2, &[1]), (Ok(9), [0x4F, 0x53, 1, 1, 2, 0, 2, 1, 1, 9]));
    assert_eq!(write(Kind::Lock, 2, &[]), (Err(Refusal::Processes), [9; 10]));
    assert_eq!(write(Kind::Fast, 9, &[1]), (Err(Refusal::Size), [9; 10]));
    assert_eq!(write(Kind::Fast, 8, &[0]), (Err(Refusal::Start), [9; 10]));
    assert_eq!(write(Kind::Fast, 8, &[1, 2, 3]), (Err(Refusal::BufferShort), [9; 10]));

    let write = |room, process, tick| {
        let mut buffer = [9; 9];
        let result = ghindulza::write_step(&mut buffer[..room], process, Event::Crash, tick);
        (result, buffer)
    };
    assert_eq!(write(9, 3, 258), (Ok(8), [0x4F, 0x54, 3, 1, 2, 1, 0, 0, 9]));
    assert_eq!(write(9, 33, 258), (Err(Refusal::Process), [9; 9]));
    assert_eq!(write(9, 3, TOP_TICK + 1), (Err(Refusal::Tick), [9; 9]));
    assert_eq!(write(7, 3, 258), (Err(Refusal::BufferShort), [9; 9]));
}

#[test]
fn megabytes() {
    let mut random = Random::new(0x7EC0_0003);
    let (mut readers, mut writers) = (Readers::new(), Writers::new());
    for _ in 0..scaled(40) {
        let length = 1_000_000 + random.below(1_000_000) as usize;
        let mut bytes = setup(random.between(1, 3), 32, 8, 500);
        bytes.resize(length, random.byte());
        readers.check_both(&bytes);
        bytes[random.below(40) as usize] = random.byte();
        readers.check_both(&bytes);
        bytes[..8].copy_from_slice(&step(32, 1, TOP_TICK));
        readers.check_both(&bytes);
        assert_eq!(writers.check_setup(length, 2, 8, 500, &[8; 32]), 0);
        assert_eq!(writers.check_setup(length, 2, 7, 500, &[8; 32]), 6);
        assert_eq!(writers.check_setup(length, 2, 7, 500, &bytes), 4);
        assert_eq!(writers.check_step(length, 32, 1, TOP_TICK), 0);
        assert_eq!(writers.check_step(length, 33, 1, TOP_TICK), 11);
    }
}
