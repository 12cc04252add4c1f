//! The register bank, library against plain implementation.

mod common;

use common::{Guarded, Random, scaled};
use ghindulza::sys;
use independent::{Bank, Process, Register, TOP_TICK, UNLIMITED, Written};

#[derive(Clone, Copy, Debug)]
enum Call {
    Read { process: u32, register: u32, tick: u32, wait: u32 },
    Write { process: u32, register: u32, tick: u32, value: u32 },
}

/// A bank lent part by part, each between guards.
#[derive(Clone, PartialEq, Debug)]
struct LentBank {
    values: Guarded<[u32; 8]>,
    deadlines: Guarded<[u32; 256]>,
    last: Guarded<u32>,
}

impl LentBank {
    fn new(bank: &Bank) -> LentBank {
        LentBank {
            values: Guarded::new(bank.values),
            deadlines: Guarded::new(bank.deadlines),
            last: Guarded::new(bank.last),
        }
    }

    fn is(&self, bank: &Bank) -> bool {
        self.values == Guarded::new(bank.values)
            && self.deadlines.lent == bank.deadlines
            && self.deadlines.guards_stand()
            && self.last == Guarded::new(bank.last)
    }

    /// The library's number, and the value or the answer with its guards.
    fn call(&mut self, call: Call, garbage: u32) -> (u32, Guarded<u32>) {
        let mut out = Guarded::new(garbage);
        let LentBank { values, deadlines, last } = self;
        let (values, deadlines, last) = (&mut values.lent, &mut deadlines.lent, &mut last.lent);
        // SAFETY: the lent areas have the sizes asked for and are apart.
        let number = unsafe {
            match call {
                Call::Read { process, register, tick, wait } => sys::ghindulza_bank_read(
                    values,
                    deadlines,
                    last,
                    process,
                    register,
                    tick,
                    wait,
                    &mut out.lent,
                ),
                Call::Write { process, register, tick, value } => sys::ghindulza_bank_write(
                    values,
                    deadlines,
                    last,
                    process,
                    register,
                    tick,
                    value,
                    &mut out.lent,
                ),
            }
        };
        (number, out)
    }
}

/// The plain implementation's number, and the value or the answer.
fn plain(bank: &mut Bank, call: Call) -> (u32, u32) {
    let result = match call {
        Call::Read { process, register, tick, wait } => {
            bank.read(Process(process), Register(register), tick, wait)
        }
        Call::Write { process, register, tick, value } => bank
            .write(Process(process), Register(register), tick, value)
            .map(|written| match written {
                Written::Done => 1,
                Written::Late => 2,
            }),
    };
    match result {
        Ok(value) => (0, value),
        Err(refusal) => (refusal.number(), 0),
    }
}

/// Makes one call on both; `bank` is what the plain implementation holds.
fn check(lent: &mut LentBank, bank: &mut Bank, call: Call, garbage: u32) -> (u32, u32) {
    let (number, out) = lent.call(call, garbage);
    let before = (bank.values, bank.last);
    let wanted = plain(bank, call);
    if number != wanted.0 || out != Guarded::new(wanted.1) || !lent.is(bank) {
        panic!(
            "bank differs at {call:?}\nvalues and last tick before: {before:?}\n\
             library: number {number} out {out:?} bank {lent:?}\nplain:   {wanted:?} bank {bank:?}"
        );
    }
    wanted
}

fn check_wrapper(bank: &Bank, call: Call, after: &Bank, wanted: (u32, u32)) {
    let mut wrapped =
        ghindulza::Bank { values: bank.values, deadlines: bank.deadlines, last: bank.last };
    let result = match call {
        Call::Read { process, register, tick, wait } => {
            wrapped.read(ghindulza::Process(process), ghindulza::Register(register), tick, wait)
        }
        Call::Write { process, register, tick, value } => wrapped
            .write(ghindulza::Process(process), ghindulza::Register(register), tick, value)
            .map(|written| match written {
                ghindulza::Written::Done => 1,
                ghindulza::Written::Late => 2,
            }),
    };
    let found = match result {
        Ok(value) => (0, value),
        Err(refusal) => (refusal.number(), 0),
    };
    assert_eq!(found, wanted, "wrapper, {call:?}");
    assert_eq!(
        (wrapped.values, wrapped.deadlines, wrapped.last),
        (after.values, after.deadlines, after.last),
        "wrapper, {call:?}"
    );
}

fn any_number(random: &mut Random) -> u32 {
    match random.below(5) {
        0 => random.between(0, 40),
        1 => TOP_TICK.wrapping_add(random.between(0, 4)).wrapping_sub(2),
        2 => random.one_of(&[0, 1, 65_535, 65_536, UNLIMITED, UNLIMITED - 1]),
        3 => 1 << random.below(32),
        _ => random.next() as u32,
    }
}

fn any_bank(random: &mut Random) -> Bank {
    let mut bank = Bank::fresh();
    bank.values = std::array::from_fn(|_| any_number(random));
    bank.deadlines = std::array::from_fn(|_| any_number(random));
    bank.last = any_number(random);
    bank
}

fn any_call(random: &mut Random, bank: &Bank) -> Call {
    let process = match random.below(16) {
        0 => random.between(0, 40),
        1 => random.one_of(&[0, 33, 64, 256, 257, 1 << 31, u32::MAX]),
        2..6 => random.between(1, 2),
        _ => random.between(1, 32),
    };
    let register = match random.below(16) {
        0 => random.between(0, 10),
        1 => random.one_of(&[8, 16, 256, 1 << 29, u32::MAX]),
        2..6 => 0,
        _ => random.between(0, 7),
    };
    let pair = (process.wrapping_sub(1).wrapping_mul(8).wrapping_add(register)) as usize;
    let deadline = bank.deadlines.get(pair).copied().unwrap_or(0);
    let near = random.between(0, 4);
    let tick = match random.below(64) {
        0..16 => bank.last,
        16..32 => bank.last.wrapping_add(near),
        32 => bank.last.wrapping_sub(near),
        33..60 if deadline <= TOP_TICK && deadline.wrapping_add(2) > bank.last => {
            deadline.wrapping_add(near).wrapping_sub(2)
        }
        33..60 => bank.last.wrapping_add(random.between(0, 70_000)),
        60 if random.once_in(4) => TOP_TICK - 2 + near,
        61 if random.once_in(4) => random.between(bank.last.min(TOP_TICK), TOP_TICK),
        _ => bank.last.wrapping_add(1),
    };
    if random.once_in(2) {
        let wait = match random.below(16) {
            0 => random.one_of(&[0, 65_535, 65_536, UNLIMITED - 1, 1 << 31]),
            1..4 => UNLIMITED,
            4..6 => random.between(0, 65_536),
            _ => random.between(0, 6),
        };
        Call::Read { process, register, tick, wait }
    } else {
        let value = if random.once_in(4) { any_number(random) } else { random.between(0, 40) };
        Call::Write { process, register, tick, value }
    }
}

#[test]
fn a_million_calls() {
    let mut random = Random::new(0xBA17_0001);
    let mut bank = Bank::fresh();
    let mut lent = LentBank::new(&bank);
    let mut met = [0_u64; 19];
    let (mut done, mut late) = (0_u64, 0_u64);
    let mut left = 0;
    for _ in 0..scaled(4_000_000) {
        if left == 0 {
            left = random.between(1, 400);
            // A fresh bank is made over whatever lay there.
            bank = any_bank(&mut random);
            lent = LentBank::new(&bank);
            if random.below(4) > 0 {
                fresh(&mut lent);
                bank = Bank::fresh();
                assert!(lent.is(&bank), "fresh bank: {lent:?}");
            } else if random.once_in(2) {
                bank.last = random.between(0, 100);
                lent = LentBank::new(&bank);
            }
        }
        if bank.last > TOP_TICK - 3 {
            left = left.min(8); // little is accepted from here on
        }
        left -= 1;
        let call = any_call(&mut random, &bank);
        let through_wrapper = random.once_in(8).then(|| bank.clone());
        let wanted = check(&mut lent, &mut bank, call, random.next() as u32);
        if let Some(before) = through_wrapper {
            check_wrapper(&before, call, &bank, wanted);
        }
        met[wanted.0 as usize] += 1;
        if let (Call::Write { .. }, 0) = (call, wanted.0) {
            done += (wanted.1 == 1) as u64;
            late += (wanted.1 == 2) as u64;
        }
    }
    println!("numbers met: {met:?}; {done} writes done, {late} late");
    for number in [0, 11, 13, 17, 18] {
        assert!(met[number] > 0, "{number} was never met");
    }
    assert!(done > late && late > met[0] / 100, "{done} done, {late} late");
}

fn fresh(lent: &mut LentBank) {
    // SAFETY: the lent areas have the sizes asked for and are apart.
    unsafe {
        sys::ghindulza_bank_fresh(
            &mut lent.values.lent,
            &mut lent.deadlines.lent,
            &mut lent.last.lent,
        );
    }
}

#[test]
fn a_fresh_bank() {
    let mut random = Random::new(0xBA17_0002);
    for _ in 0..100 {
        let mut lent = LentBank::new(&any_bank(&mut random));
        fresh(&mut lent);
        assert!(lent.is(&Bank::fresh()), "{lent:?}");
    }
    let wrapped = ghindulza::Bank::fresh();
    let bank = Bank::fresh();
    assert_eq!(
        (wrapped.values, wrapped.deadlines, wrapped.last),
        (bank.values, bank.deadlines, bank.last)
    );
}

/// Every mix of process, register, tick and wait around the limits, on some banks.
#[test]
fn every_mix_around_the_limits() {
    let mut random = Random::new(0xBA17_0003);
    let processes: Vec<u32> = (0..=40).chain([256, 257, 1 << 29, u32::MAX]).collect();
    let registers: Vec<u32> = (0..=10).chain([256, 1 << 31, u32::MAX]).collect();
    let waits = [0, 1, 65_534, 65_535, 65_536, 1 << 31, UNLIMITED - 1, UNLIMITED];
    for round in 0..scaled(6) {
        let mut bank = any_bank(&mut random);
        bank.last = [0, 1000, TOP_TICK - 1, TOP_TICK, TOP_TICK + 1, UNLIMITED][round as usize % 6];
        let last = bank.last;
        let ticks = [
            0,
            last.wrapping_sub(1),
            last,
            last.wrapping_add(1),
            TOP_TICK,
            TOP_TICK + 1,
            UNLIMITED,
        ];
        let lent = LentBank::new(&bank);
        for &process in &processes {
            for &register in &registers {
                for tick in ticks {
                    for wait in waits {
                        let call = Call::Read { process, register, tick, wait };
                        check(&mut lent.clone(), &mut bank.clone(), call, !tick);
                    }
                    let call = Call::Write { process, register, tick, value: 0xDEAD_BEEF };
                    check(&mut lent.clone(), &mut bank.clone(), call, !tick);
                }
            }
        }
    }
}

/// Every wait, and a write at its deadline and one tick after it.
#[test]
fn every_wait() {
    for wait in 0..=65_540 {
        for past in [0, 1] {
            let mut bank = Bank::fresh();
            let mut lent = LentBank::new(&bank);
            let (process, register) = (1 + wait % 32, wait / 32 % 8);
            let tick = if past == 0 { 0 } else { TOP_TICK - 65_536 };
            let read = Call::Read { process, register, tick, wait };
            check(&mut lent, &mut bank, read, 5);
            let tick = tick + wait.min(65_535) + past;
            let write = Call::Write { process, register, tick, value: 9 };
            let answer = check(&mut lent, &mut bank, write, 5);
            if wait <= 65_535 {
                assert_eq!(answer, (0, 1 + past));
            }
            let again = Call::Write { process, register, tick, value: 10 };
            assert_eq!(check(&mut lent, &mut bank, again, 5), (0, 1));
        }
    }
}
