//! The bank of timed registers.

use crate::{PROCESSES, REGISTERS, Refusal, TOP_TICK};

/// The wait and the deadline that never end.
pub const UNLIMITED: u32 = u32::MAX;

const LONGEST_WAIT: u32 = 65_535;

/// A process number, 1 to 32. (The letter i.)
#[derive(Clone, Copy, Debug, PartialEq, Eq)]
pub struct Process(pub u32);

/// A register number, 0 to 7. (The letter c, where it names a slot.)
#[derive(Clone, Copy, Debug, PartialEq, Eq)]
pub struct Register(pub u32);

/// The answer of an accepted write.
#[derive(Clone, Copy, Debug, PartialEq, Eq)]
pub enum Written {
    Done,
    Late,
}

#[derive(Clone, Debug, PartialEq, Eq)]
pub struct Bank {
    pub values: [u32; REGISTERS],
    /// One for each pair: process i and register c stand at (i − 1) × 8 + c.
    pub deadlines: [u32; PROCESSES * REGISTERS],
    pub last: u32,
}

impl Bank {
    pub fn fresh() -> Self {
        Bank { values: [0; REGISTERS], deadlines: [UNLIMITED; PROCESSES * REGISTERS], last: 0 }
    }

    /// Reads a register; the process's next write to it is due within `wait`.
    pub fn read(
        &mut self,
        process: Process,
        register: Register,
        tick: u32,
        wait: u32,
    ) -> Result<u32, Refusal> {
        self.check(process, register, tick)?;
        if wait > LONGEST_WAIT && wait != UNLIMITED {
            return Err(Refusal::Wait);
        }
        Ok(self.read_checked(process, register, tick, wait))
    }

    /// Writes a register, unless the pair's deadline has passed.
    pub fn write(
        &mut self,
        process: Process,
        register: Register,
        tick: u32,
        value: u32,
    ) -> Result<Written, Refusal> {
        self.check(process, register, tick)?;
        Ok(self.write_checked(process, register, tick, value))
    }

    fn check(&self, process: Process, register: Register, tick: u32) -> Result<(), Refusal> {
        if !(1..=PROCESSES as u32).contains(&process.0) {
            Err(Refusal::Process)
        } else if register.0 >= REGISTERS as u32 {
            Err(Refusal::Register)
        } else if tick > TOP_TICK || tick < self.last {
            Err(Refusal::Tick)
        } else {
            Ok(())
        }
    }

    #[inline]
    pub(crate) fn read_checked(&mut self, i: Process, c: Register, tick: u32, wait: u32) -> u32 {
        self.last = tick;
        *self.deadline(i, c) = if wait == UNLIMITED { UNLIMITED } else { tick + wait };
        self.values[c.0 as usize]
    }

    #[inline]
    pub(crate) fn write_checked(
        &mut self,
        i: Process,
        c: Register,
        tick: u32,
        value: u32,
    ) -> Written {
        self.last = tick;
        let deadline = std::mem::replace(self.deadline(i, c), UNLIMITED);
        if tick <= deadline {
            self.values[c.0 as usize] = value;
            Written::Done
        } else {
            Written::Late
        }
    }

    #[inline]
    fn deadline(&mut self, i: Process, c: Register) -> &mut u32 {
        &mut self.deadlines[(i.0 as usize - 1) * REGISTERS + c.0 as usize]
    }
}

#[cfg(test)]
mod tests {
    use super::*;

    const I: Process = Process(1);
    const C: Register = Register(0);

    #[test]
    fn a_write_is_done_up_to_the_deadline_and_late_after_it() {
        let mut bank = Bank::fresh();
        assert_eq!(bank.read(I, C, 10, 2), Ok(0));
        assert_eq!(bank.deadlines[0], 12);
        assert_eq!(bank.write(I, C, 12, 7), Ok(Written::Done));
        assert_eq!(bank.read(I, C, 12, 2), Ok(7));
        assert_eq!(bank.write(I, C, 15, 8), Ok(Written::Late));
        assert_eq!((bank.values[0], bank.last), (7, 15));
    }

    /// Slip: a late write that leaves its deadline.
    #[test]
    fn only_the_first_write_after_a_read_is_bound() {
        let mut bank = Bank::fresh();
        bank.read(I, C, 0, 2).unwrap();
        assert_eq!(bank.write(I, C, 3, 5), Ok(Written::Late));
        assert_eq!(bank.deadlines, [UNLIMITED; 256]);
        assert_eq!(bank.write(I, C, 3, 5), Ok(Written::Done));
        bank.read(I, C, 3, 2).unwrap();
        assert_eq!(bank.write(I, C, 4, 6), Ok(Written::Done));
        assert_eq!(bank.write(I, C, 40, 7), Ok(Written::Done));
    }

    /// Slip: one deadline a register for all processes.
    #[test]
    fn pairs_do_not_meet() {
        let mut bank = Bank::fresh();
        bank.read(Process(32), Register(7), 5, 1).unwrap();
        bank.read(Process(31), Register(7), 6, UNLIMITED).unwrap();
        bank.read(Process(32), Register(6), 6, 9).unwrap();
        assert_eq!(bank.deadlines[255], 6);
        assert_eq!(bank.deadlines[254], 15);
        assert_eq!(bank.deadlines[247], UNLIMITED);
        assert_eq!(bank.write(Process(31), Register(7), 9, 1), Ok(Written::Done));
        assert_eq!(bank.write(Process(32), Register(7), 9, 2), Ok(Written::Late));
    }

    #[test]
    fn the_latest_read_counts() {
        let mut bank = Bank::fresh();
        bank.read(I, C, 0, 0).unwrap();
        bank.read(I, C, 1, 65_535).unwrap();
        assert_eq!(bank.write(I, C, 65_536, 1), Ok(Written::Done));
        bank.read(I, C, 65_536, 9).unwrap();
        bank.read(I, C, 65_536, UNLIMITED).unwrap();
        assert_eq!(bank.write(I, C, TOP_TICK, 2), Ok(Written::Done));
    }

    #[test]
    fn refusals_come_in_order_and_leave_the_bank() {
        let mut bank = Bank::fresh();
        bank.read(I, C, 9, 2).unwrap();
        let before = bank.clone();
        let wrong_wait = UNLIMITED - 1;
        for (process, register, tick, wait, refusal) in [
            (0, 8, 8, wrong_wait, Refusal::Process),
            (33, 8, 8, wrong_wait, Refusal::Process),
            (32, 8, 8, wrong_wait, Refusal::Register),
            (32, 7, 8, wrong_wait, Refusal::Tick),
            (32, 7, TOP_TICK + 1, 0, Refusal::Tick),
            (32, 7, 9, wrong_wait, Refusal::Wait),
            (32, 7, 9, 65_536, Refusal::Wait),
        ] {
            let (i, c) = (Process(process), Register(register));
            assert_eq!(bank.read(i, c, tick, wait), Err(refusal));
            if refusal != Refusal::Wait {
                assert_eq!(bank.write(i, c, tick, 1), Err(refusal));
            }
            assert_eq!(bank, before);
        }
    }
}
