//! What the comparisons share: random numbers, guarded memory, checked calls.

#![allow(dead_code)] // each test file uses its part

pub mod walk;

use std::fmt::Write;

use ghindulza::sys;

/// Splitmix64: small, and the same numbers on every machine.
#[derive(Clone)]
pub struct Random(u64);

impl Random {
    pub fn new(seed: u64) -> Random {
        Random(seed)
    }

    pub fn next(&mut self) -> u64 {
        self.0 = self.0.wrapping_add(0x9E37_79B9_7F4A_7C15);
        let mut z = self.0;
        z = (z ^ (z >> 30)).wrapping_mul(0xBF58_476D_1CE4_E5B9);
        z = (z ^ (z >> 27)).wrapping_mul(0x94D0_49BB_1331_11EB);
        z ^ (z >> 31)
    }

    /// A number below `bound`.
    pub fn below(&mut self, bound: u64) -> u64 {
        ((self.next() as u128 * bound as u128) >> 64) as u64
    }

    /// A number from `low` to `high`, both included.
    pub fn between(&mut self, low: u32, high: u32) -> u32 {
        low + self.below((high - low) as u64 + 1) as u32
    }

    pub fn byte(&mut self) -> u8 {
        self.next() as u8
    }

    /// True once in `times`.
    pub fn once_in(&mut self, times: u64) -> bool {
        self.below(times) == 0
    }

    pub fn one_of<T: Copy>(&mut self, choices: &[T]) -> T {
        choices[self.below(choices.len() as u64) as usize]
    }
}

/// `count` times the factor in `GHINDULZA_SCALE` (1 if unset).
pub fn scaled(count: u64) -> u64 {
    (count as f64 * scale()).ceil() as u64
}

pub fn scale() -> f64 {
    match std::env::var("GHINDULZA_SCALE") {
        Ok(text) => text.parse().expect("GHINDULZA_SCALE is a number such as 1 or 0.1"),
        Err(_) => 1.0,
    }
}

/// True if the tests are large enough to expect that random traces meet everything.
pub fn is_wide() -> bool {
    scale() >= 0.5
}

/// Bytes as the failure messages show them.
pub fn hex(bytes: &[u8]) -> String {
    let shown = &bytes[..bytes.len().min(4096)];
    let mut text = format!("{} bytes:", bytes.len());
    for byte in shown {
        write!(text, " {byte:02X}").unwrap();
    }
    if shown.len() < bytes.len() {
        text.push_str(" ...");
    }
    text
}

/// How many guard elements stand before and behind lent memory.
const GUARDS: usize = 8;

/// A lent slice between guards, with the content it must have after the call.
pub struct Lent<T> {
    memory: Vec<T>,
    wanted: Vec<T>,
    length: usize,
}

impl<T: Copy + Default + PartialEq> Lent<T> {
    pub fn new() -> Lent<T> {
        Lent { memory: Vec::new(), wanted: Vec::new(), length: 0 }
    }

    /// Lends `length` elements; these and the guards come from `fill`.
    pub fn fill(&mut self, length: usize, mut fill: impl FnMut(usize) -> T) {
        self.length = length;
        self.memory.clear();
        self.memory.extend((0..length + 2 * GUARDS).map(&mut fill));
        self.wanted.clear();
        self.wanted.extend_from_slice(&self.memory);
    }

    /// Lends a copy of `content` between guards.
    pub fn copy(&mut self, content: &[T], guard: T) {
        self.length = content.len();
        self.memory.clear();
        self.memory.extend([guard; GUARDS]);
        self.memory.extend_from_slice(content);
        self.memory.extend([guard; GUARDS]);
        self.wanted.clear();
        self.wanted.extend_from_slice(&self.memory);
    }

    pub fn pointer(&mut self) -> *mut T {
        self.memory[GUARDS..].as_mut_ptr()
    }

    pub fn len(&self) -> usize {
        self.length
    }

    /// The part that the plain implementation works on.
    pub fn wanted(&mut self) -> &mut [T] {
        &mut self.wanted[GUARDS..GUARDS + self.length]
    }

    /// The part that the library worked on.
    pub fn found(&self) -> &[T] {
        &self.memory[GUARDS..GUARDS + self.length]
    }

    /// True if lent elements and guards are all as they must be.
    pub fn is_right(&self) -> bool {
        self.memory == self.wanted
    }

    /// Everything, guards included, for a failure message.
    pub fn both(&self) -> (&[T], &[T]) {
        (&self.memory, &self.wanted)
    }
}

/// One lent value of a fixed size between guards.
#[repr(C)]
#[derive(Clone, Copy, PartialEq, Debug)]
pub struct Guarded<T> {
    before: [u64; 4],
    pub lent: T,
    behind: [u64; 4],
}

const BEFORE: [u64; 4] = [0x0123_4567_89AB_CDEF; 4];
const BEHIND: [u64; 4] = [0xFEDC_BA98_7654_3210; 4];

impl<T> Guarded<T> {
    pub fn new(lent: T) -> Guarded<T> {
        Guarded { before: BEFORE, lent, behind: BEHIND }
    }

    pub fn guards_stand(&self) -> bool {
        self.before == BEFORE && self.behind == BEHIND
    }
}

/// Runs traces through the library and the plain implementation and compares.
pub struct Runs {
    trace: Lent<u8>,
    report: Lent<u32>,
    fill: u32,
    pub count: u64,
}

impl Runs {
    pub fn new() -> Runs {
        Runs { trace: Lent::new(), report: Lent::new(), fill: 0, count: 0 }
    }

    /// The outcome that both gave, number and record.
    pub fn check(&mut self, trace: &[u8], report_length: usize) -> (u32, u32) {
        self.count += 1;
        self.fill = self.fill.wrapping_mul(1_664_525).wrapping_add(1_013_904_223);
        let fill = self.fill;
        self.trace.copy(trace, fill as u8);
        self.report.fill(report_length, |index| fill ^ index as u32);
        let garbage = !fill;
        let mut record = Guarded::new(garbage);
        // SAFETY: the lent areas have the lengths told and are apart.
        let number = unsafe {
            sys::ghindulza_run(
                self.trace.pointer(),
                self.trace.len(),
                self.report.pointer(),
                self.report.len(),
                &mut record.lent,
            )
        };
        let wanted = independent::run(trace, self.report.wanted());
        let right = number == wanted.0
            && record == Guarded::new(wanted.1)
            && self.trace.is_right()
            && self.report.is_right();
        if !right {
            self.fail(trace, (number, record), wanted);
        }
        wanted
    }

    /// The report that both gave.
    pub fn report(&self) -> &[u32] {
        self.report.found()
    }

    #[cold]
    fn fail(&self, trace: &[u8], found: (u32, Guarded<u32>), wanted: (u32, u32)) -> ! {
        let (report, wanted_report) = self.report.both();
        panic!(
            "run differs\ninput {}\nlibrary: number {} record {:?}\nplain:   number {} record {}\n\
             library's report with {GUARDS} guards on each side: {report:?}\n\
             plain report, the same way:                 {wanted_report:?}\n\
             the trace itself was {}",
            hex(trace),
            found.0,
            found.1,
            wanted.0,
            wanted.1,
            if self.trace.is_right() { "left alone" } else { "CHANGED" },
        );
    }
}
