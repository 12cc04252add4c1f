//! The bench: the three routines, moved by a trace.

use crate::{
    Bank, Event, Kind, PROCESSES, Process, REGISTERS, Refusal, Register, STEP_SIZE, STEPS, Setup,
    Step, UNLIMITED, Written, read_setup,
};

/// Where a process stands. The discriminant is the place's code.
#[derive(Clone, Copy, Debug, PartialEq, Eq)]
#[repr(u8)]
pub enum Place {
    Rest = 0,
    Look = 1,
    Put = 2,
    AboutToWait = 3,
    Check = 4,
    Critical = 5,
    Flag = 6,
    Scan = 7,
    Decided = 8,
    Crashed = 9,
}

/// One process of a bench.
#[derive(Clone, Copy, Debug, PartialEq, Eq)]
pub struct State {
    pub place: Place,
    /// The slot it stands at (lock).
    pub slot: Register,
    /// What it proposes (decisions).
    pub proposal: u32,
    /// What it decided, 0 before.
    pub decided: u32,
    /// The value whose flag it reads next, while it scans.
    pub scanned: u32,
    /// The first tick at which it may move.
    pub earliest: u32,
    pub moves: u32,
    pub late: u32,
}

#[derive(Clone, Debug)]
pub struct Bench {
    kind: Kind,
    n: u8,
    size: u32,
    delta: u32,
    pub bank: Bank,
    /// The flag of value v stands at v − 1.
    flags: [bool; REGISTERS],
    states: [State; PROCESSES],
    /// The last accepted tick.
    last: u32,
}

/// Runs a whole trace. Gives 0 and the number of steps, or the refusal's number
/// and its record; a refused trace leaves the report as it is.
pub fn run(trace: &[u8], report: &mut [u32]) -> (u32, u32) {
    match run_trace(trace, report) {
        Ok(steps) => (0, steps as u32),
        Err((refusal, record)) => (refusal.number(), record as u32),
    }
}

fn run_trace(trace: &[u8], report: &mut [u32]) -> Result<usize, (Refusal, usize)> {
    let setup = read_setup(trace).map_err(|refusal| (refusal, 0))?;
    let rows = report.get_mut(..4 * setup.n as usize).ok_or((Refusal::ReportShort, 0))?;
    let rest = &trace[setup.length()..];
    if rest.len() > STEPS * STEP_SIZE {
        return Err((Refusal::TraceLong, 0));
    }
    let mut bench = Bench::new(&setup);
    let (cards, cut) = rest.as_chunks::<STEP_SIZE>();
    for (index, card) in cards.iter().enumerate() {
        bench.step(card).map_err(|refusal| (refusal, index + 1))?;
    }
    if !cut.is_empty() {
        return Err((Refusal::StepCut, cards.len() + 1));
    }
    bench.report(rows);
    Ok(cards.len())
}

impl Bench {
    pub fn new(setup: &Setup) -> Self {
        let place = match setup.kind {
            Kind::Lock => Place::Rest,
            Kind::Plain => Place::Look,
            Kind::Fast => Place::Flag,
        };
        let mut states = [State::at(place); PROCESSES];
        for (state, &start) in states.iter_mut().zip(&setup.starts[..setup.n as usize]) {
            match setup.kind {
                Kind::Lock => state.slot = Register(start as u32),
                Kind::Plain | Kind::Fast => state.proposal = start as u32,
            }
        }
        Bench {
            kind: setup.kind,
            n: setup.n,
            size: setup.size as u32,
            delta: setup.delta as u32,
            bank: Bank::fresh(),
            flags: [false; REGISTERS],
            states,
            last: 0,
        }
    }

    /// The processes, in order.
    pub fn states(&self) -> &[State] {
        &self.states[..self.n as usize]
    }

    /// The flag of each value, that of v at v − 1.
    pub fn flags(&self) -> &[bool] {
        &self.flags
    }

    /// The last accepted tick, 0 before the first.
    pub fn last(&self) -> u32 {
        self.last
    }

    /// Takes one step record. A refused one changes nothing.
    #[inline]
    pub fn step(&mut self, card: &[u8; STEP_SIZE]) -> Result<(), Refusal> {
        let Step { process, event, tick } = Step::read(card, self.n)?;
        if tick < self.last {
            return Err(Refusal::Tick);
        }
        let state = &mut self.states[process as usize - 1];
        if state.place == Place::Crashed {
            return Err(Refusal::Crashed);
        }
        match event {
            Event::Crash => state.place = Place::Crashed,
            Event::Move if state.place == Place::Decided => return Err(Refusal::Decided),
            Event::Move if tick < state.earliest => return Err(Refusal::Waiting),
            Event::Move => self.make_move(Process(process as u32), tick),
        }
        self.last = tick;
        Ok(())
    }

    fn make_move(&mut self, i: Process, tick: u32) {
        let (size, delta, bank) = (self.size, self.delta, &mut self.bank);
        let state = &mut self.states[i.0 as usize - 1];
        state.moves += 1;
        match self.kind {
            Kind::Lock => state.move_in_lock(bank, i, tick, size, delta),
            Kind::Plain => {
                if state.move_in_decision(bank, i, tick, delta) {
                    state.place = Place::AboutToWait;
                }
            }
            Kind::Fast => match state.place {
                Place::Flag => {
                    self.flags[state.proposal as usize - 1] = true;
                    state.place = Place::Look;
                }
                Place::Scan if self.flags[state.scanned as usize - 1] => {
                    state.place = Place::AboutToWait;
                }
                Place::Scan => state.scan_from(state.scanned + 1, size),
                _ => {
                    if state.move_in_decision(bank, i, tick, delta) {
                        state.scan_from(1, size);
                    }
                }
            },
        }
    }

    /// Four numbers a process: place, slot or decided value, moves, late writes.
    fn report(&self, rows: &mut [u32]) {
        for (row, state) in rows.as_chunks_mut::<4>().0.iter_mut().zip(self.states()) {
            let second = match self.kind {
                Kind::Lock => state.slot.0,
                Kind::Plain | Kind::Fast => state.decided,
            };
            *row = [state.place as u32, second, state.moves, state.late];
        }
    }
}

impl State {
    fn at(place: Place) -> Self {
        State {
            place,
            slot: Register(0),
            proposal: 0,
            decided: 0,
            scanned: 0,
            earliest: 0,
            moves: 0,
            late: 0,
        }
    }

    fn move_in_lock(&mut self, bank: &mut Bank, i: Process, tick: u32, slots: u32, delta: u32) {
        match self.place {
            Place::Rest => self.place = Place::Look,
            Place::Look => {
                if bank.read_checked(i, self.slot, tick, delta) == 0 {
                    self.place = Place::Put;
                } else {
                    let next = self.slot.0 + 1;
                    self.slot = Register(if next == slots { 0 } else { next });
                }
            }
            Place::Put => {
                self.place = match bank.write_checked(i, self.slot, tick, i.0) {
                    Written::Done => Place::AboutToWait,
                    Written::Late => {
                        self.late += 1;
                        Place::Check
                    }
                };
            }
            Place::AboutToWait => self.wait(tick, delta),
            Place::Check => {
                let value = bank.read_checked(i, self.slot, tick, UNLIMITED);
                self.place = if value == i.0 { Place::Critical } else { Place::Look };
            }
            Place::Critical => {
                // The check before lifted the deadline, so this write is never late.
                bank.write_checked(i, self.slot, tick, 0);
                self.place = Place::Rest;
            }
            Place::Flag | Place::Scan | Place::Decided | Place::Crashed => {
                unreachable!("no move of the lock starts there")
            }
        }
    }

    /// The moves that both decisions share. True if the register was found filled,
    /// which leads to the wait in one and to the scan in the other.
    fn move_in_decision(&mut self, bank: &mut Bank, i: Process, tick: u32, delta: u32) -> bool {
        const Y: Register = Register(0);
        match self.place {
            Place::Look => {
                if bank.read_checked(i, Y, tick, delta) != 0 {
                    return true;
                }
                self.place = Place::Put;
            }
            Place::Put => {
                if bank.write_checked(i, Y, tick, self.proposal) == Written::Late {
                    self.late += 1;
                }
                self.place = Place::Look;
            }
            Place::AboutToWait => self.wait(tick, delta),
            Place::Check => {
                self.decided = bank.read_checked(i, Y, tick, UNLIMITED);
                self.place = Place::Decided;
            }
            Place::Rest
            | Place::Critical
            | Place::Flag
            | Place::Scan
            | Place::Decided
            | Place::Crashed => unreachable!("no such move of a decision starts there"),
        }
        false
    }

    fn wait(&mut self, tick: u32, delta: u32) {
        self.place = Place::Check;
        self.earliest = tick + delta + 1;
    }

    /// Goes on with the scan at `value`, or past it if that is its own; to the
    /// check when no value is left.
    fn scan_from(&mut self, value: u32, values: u32) {
        self.scanned = if value == self.proposal { value + 1 } else { value };
        self.place = if self.scanned <= values { Place::Scan } else { Place::Check };
    }
}

#[cfg(test)]
mod tests {
    use super::*;
    use crate::{write_setup, write_step};

    fn trace(kind: u32, size: u32, starts: &[u8], steps: &[(u8, u32)]) -> Vec<u8> {
        let mut bytes = vec![0; 8 + starts.len()];
        write_setup(&mut bytes, kind, size, 2, starts).unwrap();
        for &(process, tick) in steps {
            push(&mut bytes, process.into(), 0, tick);
        }
        bytes
    }

    fn push(bytes: &mut Vec<u8>, process: u32, event: u32, tick: u32) {
        let mut card = [0; STEP_SIZE];
        write_step(&mut card, process, event, tick).unwrap();
        bytes.extend(card);
    }

    /// Runs an accepted trace of two processes.
    fn rows(trace: &[u8]) -> [[u32; 4]; 2] {
        let mut report = [77; 9];
        let steps = (trace.len() - 10) / STEP_SIZE;
        assert_eq!(run(trace, &mut report), (0, steps as u32));
        assert_eq!(report[8], 77);
        [report[..4].try_into().unwrap(), report[4..8].try_into().unwrap()]
    }

    fn refused(trace: &[u8]) -> (u32, u32) {
        let mut report = [77; 8];
        let answer = run(trace, &mut report);
        assert_eq!(report, [77; 8]);
        answer
    }

    const LOOK_PUT_LOOK_WAIT: [(u8, u32); 4] = [(1, 0), (1, 1), (1, 1), (1, 2)];
    const P5: [(u8, u32); 10] =
        [(2, 0), (1, 0), (1, 0), (1, 0), (1, 0), (2, 2), (1, 3), (2, 3), (2, 3), (2, 6)];
    const P7: [(u8, u32); 5] = [(1, 0), (1, 0), (1, 1), (1, 1), (1, 4)];

    fn plain(steps: &[(u8, u32)]) -> Vec<u8> {
        trace(2, 2, &[1, 2], steps)
    }

    #[test]
    fn empty_and_setup_only() {
        assert_eq!(refused(&[]), (1, 0));
        assert_eq!(rows(&trace(1, 2, &[1, 0], &[])), [[0, 1, 0, 0], [0, 0, 0, 0]]);
        assert_eq!(rows(&trace(2, 2, &[1, 2], &[])), [[1, 0, 0, 0]; 2]);
        assert_eq!(rows(&trace(3, 2, &[1, 2], &[])), [[6, 0, 0, 0]; 2]);
    }

    #[test]
    fn p1_and_p2_the_wait_ends_above_its_start_and_delta() {
        let mut steps = LOOK_PUT_LOOK_WAIT.to_vec();
        steps.push((1, 4));
        assert_eq!(refused(&plain(&steps)), (16, 5));
        steps[4] = (1, 5);
        assert_eq!(rows(&plain(&steps)), [[8, 1, 5, 0], [1, 0, 0, 0]]);
    }

    #[test]
    fn p3_and_p4_a_gap_of_delta_is_done_and_more_is_late() {
        assert_eq!(rows(&plain(&[(1, 0), (1, 2)]))[0], [1, 0, 2, 0]);
        assert_eq!(rows(&plain(&[(1, 0), (1, 2), (1, 2)]))[0], [3, 0, 3, 0]);
        assert_eq!(rows(&plain(&[(1, 0), (1, 3)]))[0], [1, 0, 2, 1]);
        // The register is still empty: the next look goes to put again.
        assert_eq!(rows(&plain(&[(1, 0), (1, 3), (1, 3)]))[0], [2, 0, 3, 1]);
    }

    #[test]
    fn p5_decides_the_value_read_and_not_the_own_proposal() {
        assert_eq!(rows(&plain(&P5[..7])), [[8, 2, 5, 0], [1, 0, 2, 0]]);
        assert_eq!(rows(&plain(&P5)), [[8, 2, 5, 0], [8, 2, 5, 0]]);
    }

    /// Slip: ending the wait at its start + Δ.
    #[test]
    fn p5_with_an_early_check_is_refused() {
        let mut steps = P5.to_vec();
        steps.insert(5, (1, 2));
        assert_eq!(refused(&plain(&steps)), (16, 6));
    }

    /// Slip: one deadline a register, which process 1's later look would move.
    #[test]
    fn p6_a_deadline_belongs_to_its_process() {
        let steps =
            [(2, 0), (1, 0), (1, 0), (1, 0), (1, 0), (1, 3), (2, 3), (2, 3), (2, 3), (2, 6)];
        assert_eq!(rows(&plain(&steps)), [[8, 1, 5, 0], [8, 1, 5, 1]]);
    }

    #[test]
    fn p7_and_p8_one_slot() {
        let mut steps = P7.to_vec();
        assert_eq!(rows(&trace(1, 1, &[0, 0], &steps)), [[5, 0, 5, 0], [0, 0, 0, 0]]);
        steps.extend([(2, 4), (2, 4)]);
        assert_eq!(rows(&trace(1, 1, &[0, 0], &steps)), [[5, 0, 5, 0], [1, 0, 2, 0]]);
    }

    #[test]
    fn p9_two_slots() {
        let mut steps = P7.to_vec();
        steps.extend([(2, 4), (2, 4), (2, 4), (2, 5), (2, 5), (2, 8)]);
        assert_eq!(rows(&trace(1, 2, &[0, 0], &steps)), [[5, 0, 5, 0], [5, 1, 6, 0]]);
        // Leaving empties the slot; process 1 may then take it again.
        steps.extend([(1, 8), (1, 8), (1, 8)]);
        assert_eq!(rows(&trace(1, 2, &[0, 0], &steps))[0], [2, 0, 8, 0]);
    }

    #[test]
    fn a_late_write_in_the_lock_goes_to_the_check_without_a_wait() {
        let mut steps = vec![(1, 0), (1, 0), (1, 3)];
        assert_eq!(rows(&trace(1, 2, &[1, 0], &steps))[0], [4, 1, 3, 1]);
        steps.push((1, 3));
        assert_eq!(rows(&trace(1, 2, &[1, 0], &steps))[0], [1, 1, 4, 1]);
    }

    #[test]
    fn p10_no_other_flag_no_wait() {
        let steps = [(1, 0); 6];
        assert_eq!(rows(&trace(3, 2, &[2, 2], &steps)), [[8, 2, 6, 0], [6, 0, 0, 0]]);
        // With one value there is nothing to scan.
        assert_eq!(rows(&trace(3, 1, &[1, 1], &steps[..4]))[0], [4, 0, 4, 0]);
        assert_eq!(rows(&trace(3, 1, &[1, 1], &steps[..5]))[0], [8, 1, 5, 0]);
    }

    #[test]
    fn p11_another_flag_leads_to_the_wait() {
        let mut steps = vec![(1, 0), (2, 0), (1, 0), (1, 0), (1, 0), (1, 0), (1, 0)];
        assert_eq!(rows(&trace(3, 2, &[1, 2], &steps))[0], [4, 0, 6, 0]);
        steps.push((1, 3));
        assert_eq!(rows(&trace(3, 2, &[1, 2], &steps)), [[8, 1, 7, 0], [1, 0, 1, 0]]);
    }

    /// Slip: scanning flags before the register was found filled.
    #[test]
    fn the_scan_sees_flags_set_after_the_put() {
        let steps = [(1, 0), (1, 0), (1, 0), (1, 0), (2, 0), (1, 0)];
        assert_eq!(rows(&trace(3, 2, &[1, 2], &steps))[0], [3, 0, 5, 0]);
    }

    #[test]
    fn the_scan_goes_upward_one_flag_a_move() {
        let mut steps = vec![(1, 0); 4];
        let scan = |steps: &[(u8, u32)]| rows(&trace(3, 5, &[3, 5], steps))[0][0];
        for _ in 0..4 {
            assert_eq!(scan(&steps), 7);
            steps.push((1, 0));
        }
        assert_eq!(scan(&steps), 4);
        steps.truncate(7);
        steps.extend([(2, 0), (1, 0)]);
        assert_eq!(scan(&steps), 3);
    }

    #[test]
    fn crashes() {
        let mut bytes = plain(&LOOK_PUT_LOOK_WAIT);
        push(&mut bytes, 1, 1, 3);
        assert_eq!(rows(&bytes), [[9, 0, 4, 0], [1, 0, 0, 0]]);
        let accepted = bytes.len();
        push(&mut bytes, 1, 1, 3);
        assert_eq!(refused(&bytes), (14, 6));
        bytes.truncate(accepted);
        push(&mut bytes, 1, 0, 9);
        assert_eq!(refused(&bytes), (14, 6));
        bytes.truncate(accepted);
        push(&mut bytes, 2, 0, 2);
        assert_eq!(refused(&bytes), (13, 6));

        let mut decided = plain(&P5[..7]);
        push(&mut decided, 1, 1, 3);
        assert_eq!(rows(&decided)[0], [9, 2, 5, 0]);
    }

    #[test]
    fn refusals_of_steps() {
        let accepted = plain(&P5[..7]);
        let after = |card: [u8; 8]| refused(&[&accepted[..], &card].concat());
        assert_eq!(after([0x4E, 0x54, 0, 2, 0, 0, 0, 0]), (10, 8));
        assert_eq!(after([0x4F, 0x53, 0, 2, 0, 0, 0, 0]), (10, 8));
        assert_eq!(after([0x4F, 0x54, 0, 2, 0, 0, 0, 0]), (11, 8));
        assert_eq!(after([0x4F, 0x54, 3, 2, 0, 0, 0, 0]), (11, 8));
        assert_eq!(after([0x4F, 0x54, 1, 2, 0, 0, 0, 0]), (12, 8));
        assert_eq!(after([0x4F, 0x54, 1, 0, 2, 0, 0, 0]), (13, 8));
        assert_eq!(after([0x4F, 0x54, 1, 0, 1, 0x28, 0x6B, 0xEE]), (13, 8));
        assert_eq!(after([0x4F, 0x54, 1, 0, 3, 0, 0, 0]), (15, 8));
        for cut in 1..8 {
            assert_eq!(refused(&accepted[..accepted.len() - cut]), (9, 7));
        }
    }

    #[test]
    fn refusals_of_a_run() {
        let long = vec![0; STEPS * STEP_SIZE + 1];
        let too_long = [&plain(&[])[..], &long].concat();
        assert_eq!(run(&too_long, &mut [77; 7]), (7, 0));
        assert_eq!(refused(&too_long), (8, 0));
        assert_eq!(refused(&too_long[..too_long.len() - 1]), (10, 1));
    }
}
