//! Random traces that know where their processes stand, so that they live long.

use independent::{Bench, Event, Place, STEP_SIZE, TOP_TICK, read_setup, write_setup, write_step};

use super::Random;

/// A trace under construction and the bench it has led to.
pub struct Walk {
    pub bytes: Vec<u8>,
    pub steps: u32,
    bench: Option<Bench>,
    kind: u8,
    n: u8,
    delta: u32,
    habits: Habits,
}

/// What a trace is fond of, so that traces differ from each other.
#[derive(Clone, Copy)]
struct Habits {
    /// A step is a crash once in so many (0: never).
    crash: u64,
    /// Of 8 writes, so many are late.
    late: u64,
    /// Of 8 steps, so many come at the tick of the one before.
    equal: u64,
    /// Moves go to processes 1 to this one.
    busy: u8,
    /// Processes stay long in the critical section.
    linger: bool,
}

impl Walk {
    pub fn new() -> Walk {
        Walk {
            bytes: Vec::new(),
            steps: 0,
            bench: None,
            kind: 0,
            n: 0,
            delta: 0,
            habits: Habits { crash: 0, late: 0, equal: 0, busy: 1, linger: false },
        }
    }

    /// Begins a new trace with a random setup.
    pub fn begin(&mut self, random: &mut Random) {
        let kind = random.between(1, 3) as u8;
        let n = match random.below(4) {
            0 => random.between(1, 2),
            1 => random.between(3, 6),
            2 => random.between(1, 32),
            _ => random.one_of(&[1, 2, 3, 4, 31, 32]),
        };
        let size = random.one_of(&[1, 1, 2, 2, 3, 4, 5, 6, 7, 8, 8]);
        let delta = match random.below(8) {
            0 => 0,
            1 => 1,
            2 => 65_535,
            3 => random.below(65_536) as u16,
            _ => random.between(0, 6) as u16,
        };
        self.begin_with(random, kind, n as u8, size, delta);
    }

    pub fn begin_with(&mut self, random: &mut Random, kind: u8, n: u8, size: u8, delta: u16) {
        let first = if kind == 1 { 0 } else { 1 };
        let alike = random.once_in(3);
        let common = first + random.below(size as u64) as u8;
        let mut starts = [0; 32];
        for start in &mut starts[..n as usize] {
            *start = if alike { common } else { first + random.below(size as u64) as u8 };
        }
        self.bytes.clear();
        self.bytes.resize(8 + n as usize, 0);
        let starts = &starts[..n as usize];
        write_setup(&mut self.bytes, kind.into(), size.into(), delta, starts).unwrap();
        let setup = read_setup(&self.bytes).unwrap();
        self.bench = Some(Bench::new(&setup));
        (self.kind, self.n, self.delta, self.steps) = (kind, n, delta as u32, 0);
        self.habits = Habits {
            crash: random.one_of(&[0, 0, 5, 20, 100]),
            late: random.one_of(&[0, 1, 2, 4, 7, 8]),
            equal: random.one_of(&[0, 2, 4, 6, 7]),
            busy: if random.once_in(2) { n } else { random.between(1, n as u32) as u8 },
            linger: random.once_in(2),
        };
    }

    pub fn n(&self) -> usize {
        self.n as usize
    }

    pub fn kind(&self) -> u8 {
        self.kind
    }

    pub fn bench(&self) -> &Bench {
        self.bench.as_ref().expect("a trace was begun")
    }

    fn last(&self) -> u32 {
        self.bench().last()
    }

    /// Moves the clock by one step near `tick`, if a process can make it.
    pub fn jump(&mut self, random: &mut Random, tick: u32) {
        if let Some(process) = self.pick(random, |place| place != Place::Crashed) {
            let event = if self.may_move(process, tick) { Event::Move } else { Event::Crash };
            self.push(process, event, tick.max(self.last()));
        }
    }

    /// Adds one accepted step; false if no process can make one.
    pub fn go(&mut self, random: &mut Random) -> bool {
        let crash = self.habits.crash != 0 && random.once_in(self.habits.crash);
        if crash && let Some(process) = self.pick(random, |place| place != Place::Crashed) {
            let tick = self.near_tick(random);
            self.push(process, Event::Crash, tick);
            return true;
        }
        for _ in 0..12 {
            let Some(process) =
                self.pick(random, |place| !matches!(place, Place::Crashed | Place::Decided))
            else {
                return false;
            };
            let inside = self.bench().states()[process as usize - 1].place == Place::Critical;
            if inside && self.habits.linger && !random.once_in(16) {
                continue;
            }
            let tick = self.fitting_tick(random, process);
            if self.may_move(process, tick) {
                self.push(process, Event::Move, tick);
                return true;
            }
        }
        false
    }

    /// Adds up to `count` accepted steps.
    pub fn go_on(&mut self, random: &mut Random, count: u64) {
        for _ in 0..count {
            if !self.go(random) {
                break;
            }
        }
    }

    fn may_move(&self, process: u8, tick: u32) -> bool {
        let state = &self.bench().states()[process as usize - 1];
        !matches!(state.place, Place::Crashed | Place::Decided)
            && tick >= state.earliest
            && tick >= self.last()
            && tick <= TOP_TICK
    }

    /// A busy process at a fitting place, or else any.
    fn pick(&self, random: &mut Random, fits: impl Fn(Place) -> bool) -> Option<u8> {
        let states = self.bench().states();
        for _ in 0..3 {
            let process = random.between(1, self.habits.busy as u32) as u8;
            if fits(states[process as usize - 1].place) {
                return Some(process);
            }
        }
        let from = random.below(self.n as u64) as usize;
        let order = (from..self.n()).chain(0..from);
        order.into_iter().find(|&index| fits(states[index].place)).map(|index| index as u8 + 1)
    }

    fn near_tick(&self, random: &mut Random) -> u32 {
        let last = self.last();
        if random.below(8) < self.habits.equal {
            return last;
        }
        let ahead = match random.below(8) {
            0..4 => 1,
            4..6 => random.between(0, self.delta + 2),
            6 => random.between(0, 3),
            _ => random.between(0, 2 * self.delta + 9),
        };
        (last + ahead).min(TOP_TICK)
    }

    fn fitting_tick(&self, random: &mut Random, process: u8) -> u32 {
        let state = &self.bench().states()[process as usize - 1];
        let last = self.last();
        match state.place {
            Place::Put => {
                let pair = (process as usize - 1) * 8 + state.slot.0 as usize;
                let deadline = self.bench().bank.deadlines[pair];
                if random.below(8) < self.habits.late {
                    let past = random.one_of(&[1, 1, 1, 2, 5]);
                    return (deadline.saturating_add(past)).clamp(last, TOP_TICK);
                }
                match random.below(4) {
                    0 if deadline <= TOP_TICK => deadline.max(last),
                    1 if deadline > last => random.between(last, deadline.min(TOP_TICK)),
                    2 => self.near_tick(random),
                    _ => last,
                }
            }
            Place::Check if state.earliest > last => {
                let past = random.one_of(&[0, 0, 0, 1, 3]);
                state.earliest + past
            }
            _ => self.near_tick(random),
        }
    }

    fn push(&mut self, process: u8, event: Event, tick: u32) {
        let mut card = [0; STEP_SIZE];
        write_step(&mut card, process.into(), event as u32, tick).unwrap();
        self.bench.as_mut().unwrap().step(&card).expect("the walk adds accepted steps only");
        self.bytes.extend(card);
        self.steps += 1;
    }

    /// Adds a step that is refused with `number` (9 to 16), if one can be made here.
    pub fn spoil(&mut self, random: &mut Random, number: u32) -> bool {
        let mut card = [0x4F, 0x54, 0, 0, 0, 0, 0, 0];
        card[2] = random.between(1, self.n as u32) as u8;
        card[3] = random.below(2) as u8;
        let mut tick = self.near_tick(random);
        let mut length = STEP_SIZE;
        match number {
            9 => length = random.between(1, 7) as usize,
            10 => {
                let place = random.below(2) as usize;
                card[place] = if random.once_in(2) { 0x53 } else { random.byte() | 0x80 };
            }
            11 => card[2] = random.one_of(&[0, self.n + 1, 33, 255, self.n | 0x80]),
            12 => card[3] = random.one_of(&[2, 3, 128, 255]),
            13 if self.last() > 0 && random.once_in(2) => {
                let any = random.between(0, self.last() - 1);
                tick = random.one_of(&[self.last() - 1, 0, any]);
            }
            13 => tick = random.one_of(&[TOP_TICK + 1, u32::MAX, TOP_TICK + 65_536]),
            14 => match self.pick(random, |place| place == Place::Crashed) {
                Some(process) => card[2] = process,
                None => return false,
            },
            15 => match self.pick(random, |place| place == Place::Decided) {
                Some(process) => (card[2], card[3]) = (process, 0),
                None => return false,
            },
            _ => {
                let last = self.last();
                let states = self.bench().states();
                let waits = |index: &usize| {
                    let state = &states[*index];
                    state.place == Place::Check && state.earliest > last
                };
                let from = random.below(self.n as u64) as usize;
                let Some(index) = (from..self.n()).chain(0..from).find(waits) else {
                    return false;
                };
                let end = (states[index].earliest - 1).min(TOP_TICK);
                tick = if random.once_in(2) { end } else { random.between(last, end) };
                (card[2], card[3]) = (index as u8 + 1, 0);
            }
        }
        card[4..].copy_from_slice(&tick.to_le_bytes());
        self.bytes.extend_from_slice(&card[..length]);
        true
    }

    /// Adds a step in which each field may be wrong.
    pub fn gamble(&mut self, random: &mut Random) {
        let mut card = [0x4F, 0x54, 0, 0, 0, 0, 0, 0];
        card[2] = random.between(1, self.n as u32) as u8;
        card[3] = random.once_in(6) as u8;
        let mut tick = self.near_tick(random);
        if random.once_in(4) {
            tick = self.last().wrapping_sub(random.below(3) as u32);
        }
        if random.once_in(8) {
            tick = random.one_of(&[TOP_TICK, TOP_TICK + 1, u32::MAX, 0]);
        }
        card[4..].copy_from_slice(&tick.to_le_bytes());
        for (place, odds) in [(0, 12), (1, 12), (2, 4), (3, 4), (6, 20)] {
            if random.once_in(odds) {
                card[place] = random.byte();
            }
        }
        self.bytes.extend(card);
    }
}

/// An accepted trace of `steps` steps with Δ = 1: a lock can be used for ever, and a
/// register that is only written late never leads to a decision. Of `crash` steps,
/// about one is a crash; process 1 never does.
pub fn endless(random: &mut Random, [kind, n, size]: [u8; 3], steps: usize, crash: u64) -> Vec<u8> {
    let first = (kind != 1) as u8;
    let starts: Vec<u8> = (0..n).map(|_| first + random.below(size as u64) as u8).collect();
    let mut trace = vec![0; 8 + n as usize];
    write_setup(&mut trace, kind.into(), size.into(), 1, &starts).unwrap();
    let mut bench = Bench::new(&read_setup(&trace).unwrap());
    let (mut tick, mut made) = (0, 0);
    while made < steps {
        let process = random.between(1, n as u32);
        let event = (process > 1 && random.once_in(crash)) as u32;
        let at_put = bench.states()[process as usize - 1].place == Place::Put;
        let ahead = match (kind, at_put) {
            (2 | 3, true) => 2,
            (_, true) if random.once_in(4) => 2,
            _ => random.below(2) as u32,
        };
        let mut card = [0; STEP_SIZE];
        write_step(&mut card, process, event, tick + ahead).unwrap();
        if bench.step(&card).is_ok() {
            trace.extend(card);
            made += 1;
            tick += ahead;
        } else {
            tick += 1;
        }
    }
    trace
}
