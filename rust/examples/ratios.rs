//! Times the library against the plain Rust implementation, and both against merely
//! reading the bytes.
//!
//!     cargo run --release --example ratios
//!
//! Each case runs in many short rounds that alternate between the two, so that a
//! busy machine slows both alike; the smallest time of each counts. The plain side
//! stands behind the same C surface (`plain`), and small calls go through function
//! pointers on both sides: neither is inlined into the loop, both pass and put out
//! the same numbers. Lent areas are not cleared before a call.
//!
//! Where a loop begins within a line of the processor's cache changes its time by
//! several parts in a hundred, on either side. `PLACE` (0, 16, 32 or 48, read when
//! this is built) moves all code by so many bytes; `make bench` goes through the four.

#[path = "../tests/common/mod.rs"]
mod common;

use std::{
    hint::black_box,
    time::{Duration, Instant},
};

use common::{
    Random,
    walk::{Walk, endless},
};
use ghindulza::sys;
use independent::{Bank, UNLIMITED};

/// How far the code is moved.
const PLACE: usize = match option_env!("PLACE") {
    Some(bytes) => place(bytes.as_bytes()),
    None => 0,
};

const fn place(digits: &[u8]) -> usize {
    let (mut number, mut at) = (0, 0);
    while at < digits.len() {
        number = 10 * number + (digits[at] - b'0') as usize;
        at += 1;
    }
    number
}

// The linker lays this section in front of all other code.
std::arch::global_asm!(
    ".pushsection .text.unlikely, \"axR\", @progbits",
    ".balign 64",
    ".skip {place}",
    ".popsection",
    place = const PLACE,
);

const ROUNDS: usize = 40;
const ROUND: Duration = Duration::from_millis(4);

/// The smallest time of each side, in nanoseconds an item.
struct Timed {
    proved: f64,
    plain: f64,
    reading: f64,
}

/// Times three ways to go once through a case of `items` items.
fn time(
    items: usize,
    mut proved: impl FnMut(),
    mut plain: impl FnMut(),
    mut reading: impl FnMut(),
) -> Timed {
    let mut passes = 1;
    while (0..3).map(|_| elapsed(passes, &mut plain)).min().unwrap() < ROUND {
        passes *= 2;
    }
    let mut best = [Duration::MAX; 3];
    for round in 0..ROUNDS {
        // Each side goes first in every other round.
        for side in if round % 2 == 0 { [0, 1, 2] } else { [1, 0, 2] } {
            let taken = match side {
                0 => elapsed(passes, &mut proved),
                1 => elapsed(passes, &mut plain),
                _ => elapsed(passes, &mut reading),
            };
            best[side] = best[side].min(taken);
        }
    }
    let [proved, plain, reading] =
        best.map(|taken| taken.as_nanos() as f64 / (passes * items) as f64);
    Timed { proved, plain, reading }
}

fn elapsed(passes: usize, pass: &mut impl FnMut()) -> Duration {
    let start = Instant::now();
    for _ in 0..passes {
        pass();
    }
    start.elapsed()
}

/// Prints the table and keeps its worst line.
struct Table {
    worst: (f64, String),
}

impl Table {
    fn new() -> Table {
        println!("all code moved by {PLACE} bytes");
        println!(
            "{:<44} {:>6} {:>9} {:>9} {:>7} {:>9}",
            "case", "item", "proved", "plain", "ratio", "reading"
        );
        Table { worst: (0.0, String::new()) }
    }

    fn line(&mut self, name: &str, item: &str, timed: Timed) {
        let Timed { proved, plain, reading } = timed;
        let ratio = proved / plain;
        println!(
            "{name:<44} {item:>6} {proved:>6.2} ns {plain:>6.2} ns {ratio:>7.3} {reading:>6.2} ns"
        );
        if ratio > self.worst.0 {
            self.worst = (ratio, name.to_owned());
        }
    }

    /// Runs of the traces, timed by steps or by traces.
    fn runs(&mut self, name: &str, item: &str, traces: &[Vec<u8>], accepted: bool) {
        let mut items = traces.len();
        let mut report = [0; 128];
        for trace in traces {
            let (number, record) = independent::run(trace, &mut report);
            assert_eq!(number == 0, accepted, "{name}: {number} at {record}");
            if item == "step" {
                items += record as usize - 1;
            }
        }
        let side = |call: Run| {
            let call = black_box(call);
            let (mut report, mut record) = ([0; 128], 0);
            move || {
                for trace in traces {
                    let trace = black_box(&trace[..]);
                    // SAFETY: trace and report are lent with their lengths.
                    let number = unsafe {
                        call(trace.as_ptr(), trace.len(), report.as_mut_ptr(), 128, &mut record)
                    };
                    black_box((number, &record, &report));
                }
            }
        };
        let timed = time(items, side(sys::ghindulza_run), side(plain::run), || read_bytes(traces));
        self.line(name, item, timed);
    }
}

fn read_bytes(areas: &[Vec<u8>]) {
    for area in areas {
        let sum = black_box(&area[..]).iter().fold(0_u32, |sum, &byte| sum + byte as u32);
        black_box(sum);
    }
}

/// The plain implementation behind the C surface.
mod plain {
    use std::slice::{from_raw_parts, from_raw_parts_mut};

    use independent::{Bank, Process, Refusal, Register, Written};

    fn told<T: Default>(result: Result<T, Refusal>, out: &mut T) -> u32 {
        match result {
            Ok(value) => {
                *out = value;
                0
            }
            Err(refusal) => {
                *out = T::default();
                refusal.number()
            }
        }
    }

    pub unsafe extern "C" fn run(
        trace: *const u8,
        trace_len: usize,
        report: *mut u32,
        report_len: usize,
        record: *mut u32,
    ) -> u32 {
        // SAFETY: the caller lends what the surface says; so in every function here.
        let (trace, report) =
            unsafe { (from_raw_parts(trace, trace_len), from_raw_parts_mut(report, report_len)) };
        let (number, at) = independent::run(trace, report);
        unsafe { *record = at };
        number
    }

    pub unsafe extern "C" fn read_setup(
        bytes: *const u8,
        len: usize,
        fields: *mut [u32; 5],
        starts: *mut [u8; 32],
        rest: *mut [u64; 2],
    ) -> u32 {
        let bytes = unsafe { from_raw_parts(bytes, len) };
        let (fields, starts, rest) = unsafe { (&mut *fields, &mut *starts, &mut *rest) };
        match independent::read_setup(bytes) {
            Ok(setup) => {
                *fields =
                    [setup.kind as u32, setup.n as u32, setup.size as u32, 0, setup.delta as u32];
                *starts = setup.starts;
                let begin = setup.length();
                *rest = [begin as u64, (len - begin) as u64];
                0
            }
            Err(refusal) => {
                (*fields, *starts, *rest) = ([0; 5], [0; 32], [0; 2]);
                refusal.number()
            }
        }
    }

    pub unsafe extern "C" fn read_step(bytes: *const u8, len: usize, fields: *mut [u32; 3]) -> u32 {
        let step = independent::read_step(unsafe { from_raw_parts(bytes, len) });
        let numbers = step.map(|step| [step.process as u32, step.event as u32, step.tick]);
        told(numbers, unsafe { &mut *fields })
    }

    #[allow(clippy::too_many_arguments)]
    pub unsafe extern "C" fn write_setup(
        buffer: *mut u8,
        len: usize,
        kind: u32,
        size: u32,
        delta: u16,
        starts: *const u8,
        n: usize,
        length: *mut u64,
    ) -> u32 {
        let (buffer, starts) =
            unsafe { (from_raw_parts_mut(buffer, len), from_raw_parts(starts, n)) };
        let written = independent::write_setup(buffer, kind, size, delta, starts);
        told(written.map(|length| length as u64), unsafe { &mut *length })
    }

    pub unsafe extern "C" fn write_step(
        buffer: *mut u8,
        len: usize,
        process: u32,
        event: u32,
        tick: u32,
        length: *mut u64,
    ) -> u32 {
        let buffer = unsafe { from_raw_parts_mut(buffer, len) };
        let written = independent::write_step(buffer, process, event, tick);
        told(written.map(|length| length as u64), unsafe { &mut *length })
    }

    /// The bank is one struct here; the two further pointers are passed as the surface
    /// passes them, and not used.
    #[allow(clippy::too_many_arguments)]
    pub unsafe extern "C" fn bank_read(
        bank: *mut Bank,
        _deadlines: *mut [u32; 256],
        _last: *mut u32,
        process: u32,
        register: u32,
        tick: u32,
        wait: u32,
        value: *mut u32,
    ) -> u32 {
        let bank = unsafe { &mut *bank };
        let read = bank.read(Process(process), Register(register), tick, wait);
        told(read, unsafe { &mut *value })
    }

    #[allow(clippy::too_many_arguments)]
    pub unsafe extern "C" fn bank_write(
        bank: *mut Bank,
        _deadlines: *mut [u32; 256],
        _last: *mut u32,
        process: u32,
        register: u32,
        tick: u32,
        value: u32,
        answer: *mut u32,
    ) -> u32 {
        let bank = unsafe { &mut *bank };
        let written = bank.write(Process(process), Register(register), tick, value);
        let code = written.map(|written| if written == Written::Done { 1 } else { 2 });
        told(code, unsafe { &mut *answer })
    }
}

// The shapes of the calls, so that they can go through pointers.
type Run = unsafe extern "C" fn(*const u8, usize, *mut u32, usize, *mut u32) -> u32;
type ReadSetup =
    unsafe extern "C" fn(*const u8, usize, *mut [u32; 5], *mut [u8; 32], *mut [u64; 2]) -> u32;
type ReadStep = unsafe extern "C" fn(*const u8, usize, *mut [u32; 3]) -> u32;
type WriteSetup =
    unsafe extern "C" fn(*mut u8, usize, u32, u32, u16, *const u8, usize, *mut u64) -> u32;
type WriteStep = unsafe extern "C" fn(*mut u8, usize, u32, u32, u32, *mut u64) -> u32;
type BankCall<First> =
    unsafe extern "C" fn(First, *mut [u32; 256], *mut u32, u32, u32, u32, u32, *mut u32) -> u32;

fn main() {
    let mut random = Random::new(0xBE7C_0001);
    let mut table = Table::new();
    long_traces(&mut random, &mut table);
    short_traces(&mut random, &mut table);
    refused_traces(&mut random, &mut table);
    readers(&mut random, &mut table);
    writers(&mut random, &mut table);
    bank(&mut random, &mut table);
    println!("worst ratio {:.3} ({})", table.worst.0, table.worst.1);
}

const KINDS: [&str; 4] = ["", "lock", "plain decision", "fast decision"];

fn long_traces(random: &mut Random, table: &mut Table) {
    for kind in 1..=3 {
        for n in [4, 32] {
            for size in [1, 8] {
                let trace = endless(random, [kind, n, size], 20_000, 2_000);
                let name = format!("long {}, n {n}, size {size}", KINDS[kind as usize]);
                table.runs(&name, "step", &[trace], true);
            }
        }
    }
    for kind in 2..=3 {
        for n in [4, 32] {
            let traces: Vec<_> = (0..100).map(|_| decided(random, kind, n)).collect();
            let name = format!("{}, n {n}, size 8, to the end", KINDS[kind as usize]);
            table.runs(&name, "step", &traces, true);
        }
    }
}

/// A trace that goes on until every process has decided or crashed.
fn decided(random: &mut Random, kind: u8, n: u8) -> Vec<u8> {
    let mut walk = Walk::new();
    walk.begin_with(random, kind, n, 8, 2);
    while walk.go(random) {
        if walk.steps > 20_000 {
            walk.begin_with(random, kind, n, 8, 2); // one that only writes late
        }
    }
    walk.bytes
}

fn short_traces(random: &mut Random, table: &mut Table) {
    for n in [2, 32] {
        for steps in [0, 5] {
            let traces: Vec<_> =
                (0..252).map(|index| endless(random, [1 + index % 3, n, 2], steps, 8)).collect();
            let name = match steps {
                0 => format!("setup only, n {n}"),
                _ => format!("setup and five steps, n {n}"),
            };
            table.runs(&name, "trace", &traces, true);
        }
    }
}

fn refused_traces(random: &mut Random, table: &mut Table) {
    let mut traces: Vec<_> =
        (0..252).map(|index| endless(random, [1 + index % 3, 32, 2], 5, 8)).collect();
    for trace in &mut traces {
        trace[39] = 99;
    }
    table.runs("refused at the last start byte, n 32", "trace", &traces, false);
    for trace in &mut traces {
        trace[1] = 0;
    }
    table.runs("refused at the setup mark", "trace", &traces, false);
    for kind in 1..=3 {
        let mut trace = endless(random, [kind, 32, 8], 20_000, 2_000);
        trace.extend([0x4F, 0x54, 1, 0, 0, 0, 0, 0]);
        let name = format!("{} refused at record 20,001", KINDS[kind as usize]);
        table.runs(&name, "step", &[trace], false);
    }
}

fn readers(random: &mut Random, table: &mut Table) {
    for n in [2, 32] {
        let setups: Vec<_> =
            (0..252).map(|index| endless(random, [1 + index % 3, n, 8], 0, 8)).collect();
        let side = |call: ReadSetup| {
            let call = black_box(call);
            let (mut fields, mut starts, mut rest) = ([0; 5], [0; 32], [0; 2]);
            let setups = &setups;
            move || {
                for setup in setups {
                    let setup = black_box(&setup[..]);
                    // SAFETY: the lent areas have the sizes asked for.
                    let number = unsafe {
                        call(setup.as_ptr(), setup.len(), &mut fields, &mut starts, &mut rest)
                    };
                    black_box((number, &fields, &starts, &rest));
                }
            }
        };
        let timed =
            time(setups.len(), side(sys::ghindulza_read_setup), side(plain::read_setup), || {
                read_bytes(&setups)
            });
        table.line(&format!("setup read, n {n}"), "call", timed);
    }

    let trace = endless(random, [1, 32, 8], 1_000, 50);
    let steps: Vec<_> = trace[40..].chunks_exact(8).map(<[u8]>::to_vec).collect();
    let side = |call: ReadStep| {
        let call = black_box(call);
        let mut fields = [0; 3];
        let steps = &steps;
        move || {
            for step in steps {
                let step = black_box(&step[..]);
                // SAFETY: the lent areas have the sizes asked for.
                let number = unsafe { call(step.as_ptr(), step.len(), &mut fields) };
                black_box((number, &fields));
            }
        }
    };
    let timed = time(steps.len(), side(sys::ghindulza_read_step), side(plain::read_step), || {
        read_bytes(&steps)
    });
    table.line("step read", "call", timed);
}

fn writers(random: &mut Random, table: &mut Table) {
    for n in [2, 32] {
        let starts: Vec<Vec<u8>> =
            (0..300).map(|_| (0..n).map(|_| random.between(1, 7) as u8).collect()).collect();
        let side = |call: WriteSetup| {
            let call = black_box(call);
            let (mut buffer, mut length) = ([0; 40], 0);
            let starts = &starts;
            move || {
                for starts in starts {
                    let (starts, kind) = (black_box(&starts[..]), black_box(2));
                    // SAFETY: the lent areas have the sizes told.
                    let number = unsafe {
                        call(
                            buffer.as_mut_ptr(),
                            buffer.len(),
                            kind,
                            8,
                            500,
                            starts.as_ptr(),
                            starts.len(),
                            &mut length,
                        )
                    };
                    black_box((number, &length, &buffer));
                }
            }
        };
        let timed =
            time(starts.len(), side(sys::ghindulza_write_setup), side(plain::write_setup), || {
                read_bytes(&starts)
            });
        table.line(&format!("setup written, n {n}"), "call", timed);
    }

    let ticks: Vec<u32> = (0..1_000).map(|_| random.between(0, independent::TOP_TICK)).collect();
    let read: Vec<_> = ticks.iter().map(|_| vec![0_u8; 8]).collect();
    let side = |call: WriteStep| {
        let call = black_box(call);
        let (mut buffer, mut length) = ([0; 8], 0);
        let ticks = &ticks;
        move || {
            for &tick in ticks {
                // SAFETY: the lent areas have the sizes told.
                let number =
                    unsafe { call(buffer.as_mut_ptr(), 8, 7, 0, black_box(tick), &mut length) };
                black_box((number, &length, &buffer));
            }
        }
    };
    let timed = time(ticks.len(), side(sys::ghindulza_write_step), side(plain::write_step), || {
        read_bytes(&read)
    });
    table.line("step written", "call", timed);
}

fn bank(random: &mut Random, table: &mut Table) {
    // Process, register, tick, and the wait or the value.
    let mut tick = 0;
    let calls: Vec<(u32, u32, u32, u32)> = (0..1_000)
        .map(|_| {
            tick += random.between(0, 3);
            let wait = random.one_of(&[0, 1, 2, 5, UNLIMITED]);
            (random.between(1, 32), random.between(0, 7), tick, wait)
        })
        .collect();
    for (name, reads_in_8) in [("bank read", 8), ("bank write", 0), ("bank read or write", 4)] {
        let is_read: Vec<bool> = calls.iter().map(|_| random.below(8) < reads_in_8).collect();
        let timed = time(
            calls.len(),
            bank_side(
                &calls,
                &is_read,
                sys::ghindulza_bank_read,
                sys::ghindulza_bank_write,
                |bank| (&raw const bank.values, &raw mut bank.values),
            ),
            bank_side(&calls, &is_read, plain::bank_read, plain::bank_write, |bank| {
                let bank = &raw mut *bank;
                (bank, bank)
            }),
            || {
                black_box(
                    black_box(&calls).iter().fold(0_u32, |sum, call| sum.wrapping_add(call.2)),
                );
            },
        );
        table.line(name, "call", timed);
    }
}

/// One side of the bank's timing. `first` says what its functions take first.
fn bank_side<Read: Copy, Write: Copy>(
    calls: &[(u32, u32, u32, u32)],
    is_read: &[bool],
    read: BankCall<Read>,
    write: BankCall<Write>,
    first: fn(&mut Bank) -> (Read, Write),
) -> impl FnMut() {
    let (read, write) = black_box((read, write));
    let mut bank = Bank::fresh();
    move || {
        bank.last = 0;
        let (lent_read, lent_write) = first(&mut bank);
        let (deadlines, last) = (&raw mut bank.deadlines, &raw mut bank.last);
        for (&(process, register, tick, x), &is_read) in calls.iter().zip(is_read) {
            let mut out = 0;
            // SAFETY: the lent areas have the sizes asked for.
            let number = unsafe {
                if is_read {
                    read(lent_read, deadlines, last, process, register, tick, x, &mut out)
                } else {
                    write(lent_write, deadlines, last, process, register, tick, x, &mut out)
                }
            };
            black_box((number, &out));
        }
    }
}
