//! The bank of timed registers, used by itself.

use crate::{PROCESSES, REGISTERS, Refusal, sys};

/// The wait and the deadline that never end.
pub const UNLIMITED: u32 = u32::MAX;

/// A process number, 1 to 32.
#[derive(Clone, Copy, Debug, PartialEq, Eq, Hash)]
pub struct Process(pub u32);

/// A register number, 0 to 7.
#[derive(Clone, Copy, Debug, PartialEq, Eq, Hash)]
pub struct Register(pub u32);

/// The answer of an accepted write.
#[derive(Clone, Copy, Debug, PartialEq, Eq, Hash)]
pub enum Written {
    /// The value is stored.
    Done,
    /// The deadline had passed; the value stays as it was.
    Late,
}

/// Eight registers for 32 processes.
///
/// ```
/// use ghindulza::{Bank, Process, Register, Written};
///
/// let mut bank = Bank::fresh();
/// let (one, slot) = (Process(1), Register(0));
/// assert_eq!(bank.read(one, slot, 10, 2), Ok(0));
/// assert_eq!(bank.write(one, slot, 13, 7), Ok(Written::Late));
/// assert_eq!(bank.write(one, slot, 13, 7), Ok(Written::Done));
/// ```
#[derive(Clone, Debug, PartialEq, Eq)]
pub struct Bank {
    /// The value of each register; 0 is the empty mark.
    pub values: [u32; REGISTERS],
    /// One deadline for each pair: process i and register c stand at (i - 1) * 8 + c.
    pub deadlines: [u32; PROCESSES * REGISTERS],
    /// The tick of the last accepted read or write.
    pub last: u32,
}

impl Bank {
    /// All values empty, every deadline unlimited, last tick 0.
    pub fn fresh() -> Bank {
        let mut bank = Bank { values: [0; 8], deadlines: [0; 256], last: 0 };
        // SAFETY: the three areas have the sizes asked for and are apart.
        unsafe {
            sys::ghindulza_bank_fresh(&mut bank.values, &mut bank.deadlines, &mut bank.last);
        }
        bank
    }

    /// Reads a register; the process's next write to it is due by `tick + wait`.
    ///
    /// # Errors
    ///
    /// [`Refusal::Process`], [`Refusal::Register`], [`Refusal::Tick`] or
    /// [`Refusal::Wait`]; the bank stays as it was.
    pub fn read(
        &mut self,
        process: Process,
        register: Register,
        tick: u32,
        wait: u32,
    ) -> Result<u32, Refusal> {
        let mut value = 0;
        // SAFETY: the areas have the sizes asked for and are apart.
        let number = unsafe {
            sys::ghindulza_bank_read(
                &self.values,
                &mut self.deadlines,
                &mut self.last,
                process.0,
                register.0,
                tick,
                wait,
                &mut value,
            )
        };
        Refusal::check(number).map(|()| value)
    }

    /// Writes a register, if `tick` is at most the pair's deadline. Done or late, the
    /// pair's deadline is lifted.
    ///
    /// # Errors
    ///
    /// [`Refusal::Process`], [`Refusal::Register`] or [`Refusal::Tick`]; the bank stays
    /// as it was.
    pub fn write(
        &mut self,
        process: Process,
        register: Register,
        tick: u32,
        value: u32,
    ) -> Result<Written, Refusal> {
        let mut answer = 0;
        // SAFETY: the areas have the sizes asked for and are apart.
        let number = unsafe {
            sys::ghindulza_bank_write(
                &mut self.values,
                &mut self.deadlines,
                &mut self.last,
                process.0,
                register.0,
                tick,
                value,
                &mut answer,
            )
        };
        Refusal::check(number)?;
        match answer {
            1 => Ok(Written::Done),
            2 => Ok(Written::Late),
            _ => panic!("the library answered {answer} to an accepted write"),
        }
    }
}

impl Default for Bank {
    fn default() -> Bank {
        Bank::fresh()
    }
}
