//! Whole runs, library against plain implementation.

mod common;

use std::collections::{HashSet, VecDeque};

use common::{
    Random, Runs, is_wide, scaled,
    walk::{Walk, endless},
};
use independent::{
    Bench, STEP_SIZE, STEPS, TOP_TICK, UNLIMITED, read_setup, write_setup, write_step,
};

/// What the traces of a test have met, so that a tame generator is noticed.
#[derive(Default)]
struct Met {
    early: [bool; 17],
    late: [bool; 17],
    places: [[bool; 10]; 4],
    accepted: u64,
    steps: u64,
    late_writes: u64,
    crowded: bool,
    top: bool,
}

impl Met {
    fn note(&mut self, walk: &Walk, outcome: (u32, u32), report: &[u32]) {
        let (number, record) = outcome;
        self.early[number as usize] |= record <= 8;
        self.late[number as usize] |= record >= 100;
        if number != 0 {
            return;
        }
        self.accepted += 1;
        self.steps += record as u64;
        self.top |= walk.bench().last() == TOP_TICK;
        let rows = report.chunks_exact(4).take(walk.n());
        let mut inside = 0;
        for row in rows {
            self.places[walk.kind() as usize][row[0] as usize] = true;
            self.late_writes += row[3] as u64;
            inside += (row[0] == 5) as u32;
        }
        self.crowded |= inside == 8;
    }

    fn assert_wide(&self) {
        assert_eq!(self.early[9..], [true; 8], "refusals 9 to 16 at an early record");
        assert_eq!(self.late[9..], [true; 8], "refusals 9 to 16 at a late record");
        let reached =
            |kind: usize| (0..10).filter(|&place| self.places[kind][place]).collect::<Vec<_>>();
        assert_eq!(reached(1), [0, 1, 2, 3, 4, 5, 9]);
        assert_eq!(reached(2), [1, 2, 3, 4, 8, 9]);
        assert_eq!(reached(3), [1, 2, 3, 4, 6, 7, 8, 9]);
        assert!(self.late_writes > self.accepted / 4, "few late writes: {}", self.late_writes);
        assert!(self.crowded, "eight slots were never all taken");
        assert!(self.top, "the highest tick was never reached");
    }
}

fn random_length(random: &mut Random) -> u64 {
    match random.below(16) {
        0..6 => random.below(12),
        6..12 => random.below(60),
        12..15 => random.below(200),
        _ => random.below(1_500),
    }
}

/// A long report, mostly; now and then one that is exact or too short.
fn report_length(random: &mut Random, n: usize) -> usize {
    match random.below(16) {
        0 => random.below(4 * n as u64) as usize,
        1 => 4 * n - 1,
        2..8 => 4 * n,
        8 => 4 * n + 1,
        _ => 4 * n + random.below(9) as usize,
    }
}

#[test]
fn long_lived_traces() {
    let mut random = Random::new(0x1EA5_0001);
    let (mut runs, mut walk, mut met) = (Runs::new(), Walk::new(), Met::default());
    for _ in 0..scaled(1_200_000) {
        walk.begin(&mut random);
        if random.once_in(12) {
            let back = random.one_of(&[0, 1, 5, 60, 70_000, 140_000]);
            walk.jump(&mut random, TOP_TICK - back);
        }
        let length = random_length(&mut random);
        walk.go_on(&mut random, length);
        match random.below(4) {
            0 => {
                let number = random.between(9, 16);
                walk.spoil(&mut random, number);
            }
            1 if random.once_in(2) => walk.gamble(&mut random),
            _ => {}
        }
        let room = report_length(&mut random, walk.n());
        let outcome = runs.check(&walk.bytes, room);
        met.note(&walk, outcome, runs.report());
    }
    println!(
        "{} traces, {} accepted with {} steps and {} late writes",
        runs.count, met.accepted, met.steps, met.late_writes
    );
    if is_wide() {
        met.assert_wide();
        assert!(met.accepted > runs.count / 2, "most traces are accepted");
    }
}

/// Each refusal of a step, right after each accepted step of a trace.
#[test]
fn every_refusal_after_every_record() {
    let mut random = Random::new(0x1EA5_0002);
    let (mut runs, mut walk) = (Runs::new(), Walk::new());
    let mut seen = [0_u32; 17];
    for _ in 0..scaled(3_000) {
        walk.begin(&mut random);
        for _ in 0..random.between(1, 60) {
            for number in 9..=16 {
                let length = walk.bytes.len();
                if walk.spoil(&mut random, number) {
                    let (found, record) = runs.check(&walk.bytes, 4 * walk.n());
                    // A spoiled card may by chance be refused for an earlier reason.
                    if found == number {
                        assert_eq!(record, walk.steps + 1);
                        seen[number as usize] += 1;
                    }
                    // More bytes behind a refused record change nothing.
                    walk.bytes.extend([0x4F, 0x54, 1, 0, 0, 0, 0, 0, 0xFF]);
                    runs.check(&walk.bytes, 4 * walk.n());
                    walk.bytes.truncate(length);
                }
            }
            walk.gamble(&mut random);
            runs.check(&walk.bytes, 4 * walk.n());
            walk.bytes.truncate(walk.bytes.len() - STEP_SIZE);
            if !walk.go(&mut random) {
                break;
            }
        }
    }
    println!("{} runs, refusals met: {seen:?}", runs.count);
    if is_wide() {
        assert!(seen[9..].iter().all(|&times| times > 100), "refusals met: {seen:?}");
    }
}

/// A trace cut at each length, with a report of each small length.
#[test]
fn cut_at_every_byte() {
    let mut random = Random::new(0x1EA5_0003);
    let (mut runs, mut walk) = (Runs::new(), Walk::new());
    for _ in 0..scaled(1_500) {
        walk.begin(&mut random);
        let length = random.below(50);
        walk.go_on(&mut random, length);
        for cut in 0..=walk.bytes.len() {
            runs.check(&walk.bytes[..cut], 4 * walk.n());
        }
        for room in 0..=4 * walk.n() + 3 {
            let (number, record) = runs.check(&walk.bytes, room);
            let wanted = if room < 4 * walk.n() { (7, 0) } else { (0, walk.steps) };
            assert_eq!((number, record), wanted);
        }
    }
    println!("{} runs", runs.count);
}

/// Small benches: each state that can be reached (up to a shift of all ticks), and
/// from it each step of each process at each of the next ticks.
#[test]
fn every_state_of_small_benches() {
    let mut runs = Runs::new();
    let most = scaled(12_000) as usize;
    let mut states = 0;
    for (kind, size, starts) in [
        (1, 1, &[0, 0][..]),
        (1, 2, &[0, 1]),
        (1, 2, &[0, 0, 0]),
        (2, 2, &[1, 2]),
        (2, 3, &[1, 2, 3]),
        (3, 1, &[1, 1]),
        (3, 2, &[1, 2]),
        (3, 3, &[3, 1, 1]),
    ] {
        for delta in [0, 1, 2] {
            let mut setup = vec![0; 8 + starts.len()];
            write_setup(&mut setup, kind, size, delta, starts).unwrap();
            let bench = Bench::new(&read_setup(&setup).unwrap());
            let mut seen = HashSet::from([shape(&bench)]);
            let mut queue = VecDeque::from([(setup, bench)]);
            while let Some((mut trace, bench)) = queue.pop_front() {
                let length = trace.len();
                for process in 1..=starts.len() as u32 {
                    for ahead in 0..=delta as u32 + 2 {
                        for event in [0, 1] {
                            let mut card = [0; STEP_SIZE];
                            write_step(&mut card, process, event, bench.last() + ahead).unwrap();
                            trace.extend(card);
                            runs.check(&trace, 4 * starts.len());
                            let mut next = bench.clone();
                            if next.step(&card).is_ok()
                                && seen.len() < most
                                && seen.insert(shape(&next))
                            {
                                queue.push_back((trace.clone(), next));
                            }
                            trace.truncate(length);
                        }
                    }
                }
            }
            states += seen.len();
        }
    }
    println!("{} runs, {states} states", runs.count);
}

/// What decides a bench's future, its ticks counted from the last one.
fn shape(bench: &Bench) -> Vec<u32> {
    let last = bench.last();
    let mut shape: Vec<u32> = bench.bank.values.to_vec();
    shape.extend(bench.flags().iter().map(|&flag| flag as u32));
    for (state, deadlines) in bench.states().iter().zip(bench.bank.deadlines.chunks_exact(8)) {
        let left = state.earliest.saturating_sub(last);
        shape.extend([state.place as u32, state.slot.0, state.decided, state.scanned, left]);
        shape.extend(deadlines.iter().map(|&deadline| match deadline {
            UNLIMITED => UNLIMITED,
            _ if deadline < last => UNLIMITED - 1,
            _ => deadline - last,
        }));
    }
    shape
}

/// One byte of a trace changed, at each position.
#[test]
fn damaged_by_one_byte() {
    let mut random = Random::new(0x1EA5_0004);
    let (mut runs, mut walk) = (Runs::new(), Walk::new());
    let mut numbers = [0_u64; 17];
    for round in 0..scaled(400) {
        walk.begin(&mut random);
        let length = random.below(if round % 8 == 0 { 12 } else { 60 });
        walk.go_on(&mut random, length);
        let room = 4 * 32;
        for position in 0..walk.bytes.len() {
            let kept = walk.bytes[position];
            let values = if round % 8 == 0 { 256 } else { 12 };
            for value in 0..values {
                walk.bytes[position] = match values {
                    256 => value as u8,
                    _ if value < 8 => kept ^ 1 << value,
                    _ => random.byte(),
                };
                numbers[runs.check(&walk.bytes, room).0 as usize] += 1;
            }
            walk.bytes[position] = kept;
        }
    }
    println!("{} runs, numbers met: {numbers:?}", runs.count);
    if is_wide() {
        for number in [0, 1, 2, 3, 4, 5, 6, 9, 10, 11, 12, 13, 14, 15, 16] {
            assert!(numbers[number] > 0, "refusal {number} was never met");
        }
    }
}

/// Setups with several things wrong at once, short reports, and steps behind them.
#[test]
fn setups_in_a_run() {
    let mut random = Random::new(0x1EA5_0005);
    let (mut runs, mut walk) = (Runs::new(), Walk::new());
    let mut numbers = [0_u64; 17];
    for _ in 0..scaled(400_000) {
        walk.begin(&mut random);
        let length = random.below(3);
        walk.go_on(&mut random, length);
        let n = walk.n();
        for (place, odds) in [(0, 12), (1, 12), (2, 6), (3, 6), (4, 6), (5, 10), (6, 4), (7, 4)] {
            if random.once_in(odds) {
                walk.bytes[place] = random.one_of(&[0, 1, 2, 3, 8, 9, 32, 33, 0x4F, 0x53, 255]);
            }
        }
        if random.once_in(4) {
            let place = 8 + random.below(n as u64) as usize;
            walk.bytes[place] = random.between(0, 9) as u8;
        }
        let cut = random.below(walk.bytes.len() as u64 * 2) as usize;
        let kept = walk.bytes.len().min(cut);
        let room = random.below(4 * n as u64 + 2) as usize;
        let trace = if random.once_in(3) { &walk.bytes[..kept] } else { &walk.bytes[..] };
        let room = if random.once_in(3) { room } else { 128 };
        numbers[runs.check(trace, room).0 as usize] += 1;
    }
    println!("{} runs, numbers met: {numbers:?}", runs.count);
    if is_wide() {
        assert!(numbers[..8].iter().all(|&times| times > 0), "numbers met: {numbers:?}");
    }
}

/// The longest traces: 8,000,000 bytes after the setup, one less and one more.
#[test]
fn a_million_steps() {
    let mut random = Random::new(0x1EA5_0006);
    let mut runs = Runs::new();
    for kind in 1..=3 {
        for n in [1, 32] {
            let mut trace = endless(&mut random, [kind, n, 1], STEPS, 20_000);
            let setup = 8 + n as usize;
            assert_eq!(trace.len(), setup + 8_000_000);
            let room = 4 * n as usize;
            assert_eq!(runs.check(&trace, room + 5), (0, 1_000_000));
            let moves: u32 = (0..n as usize).map(|index| runs.report()[4 * index + 2]).sum();
            assert!(moves > 990_000, "{moves} moves");
            assert_eq!(runs.check(&trace[..trace.len() - 1], room), (9, 1_000_000));
            let end = trace.len() - 1;
            trace[end] ^= 0xFF;
            assert_eq!(runs.check(&trace, room), (13, 1_000_000));
            trace[end] ^= 0xFF;
            trace.push(0x4F);
            assert_eq!(runs.check(&trace, room), (8, 0));
            assert_eq!(runs.check(&trace, room - 1), (7, 0));
            trace[setup - 1] = 99;
            assert_eq!(runs.check(&trace, room), (6, 0));
        }
    }
}

/// The wrapper gives what the C surface gives.
#[test]
fn through_the_wrapper() {
    let mut random = Random::new(0x1EA5_0007);
    let mut walk = Walk::new();
    for _ in 0..scaled(100_000) {
        walk.begin(&mut random);
        let length = random.below(30);
        walk.go_on(&mut random, length);
        if random.once_in(2) {
            walk.gamble(&mut random);
        }
        let room = report_length(&mut random, walk.n());
        let (mut found_report, mut wanted_report) = (vec![7; room], vec![7; room]);
        let found = match ghindulza::run(&walk.bytes, &mut found_report) {
            Ok(steps) => (0, steps),
            Err(refused) => (refused.refusal.number(), refused.record),
        };
        let wanted = independent::run(&walk.bytes, &mut wanted_report);
        assert!(
            found == wanted && found_report == wanted_report,
            "run differs\ninput {}\nlibrary: {found:?} {found_report:?}\nplain: {wanted:?} {wanted_report:?}",
            common::hex(&walk.bytes)
        );
    }
}
