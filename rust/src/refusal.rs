//! What is refused.

use std::{error::Error, fmt};

/// Why a call was refused. The discriminant is the refusal's number.
#[derive(Clone, Copy, Debug, PartialEq, Eq, Hash)]
#[repr(u32)]
pub enum Refusal {
    /// Fewer than 8 bytes, or fewer than the setup's 8 + n.
    SetupCut = 1,
    /// The setup mark is wrong.
    SetupMark = 2,
    /// The kind is not 1 to 3.
    Kind = 3,
    /// The number of processes is not 1 to 32.
    Processes = 4,
    /// The number of slots or values is not 1 to 8, or the zero byte is not 0.
    Size = 5,
    /// A start byte is out of range.
    Start = 6,
    /// The report is shorter than four numbers a process.
    ReportShort = 7,
    /// More than 8,000,000 bytes stand after the setup.
    TraceLong = 8,
    /// Fewer than 8 bytes are left for a step.
    StepCut = 9,
    /// The step mark is wrong.
    StepMark = 10,
    /// There is no such process.
    Process = 11,
    /// The event is neither a move nor a crash.
    Event = 12,
    /// The tick is above 4,000,000,000 or below the last accepted one.
    Tick = 13,
    /// The process has crashed.
    Crashed = 14,
    /// A move of a process that has decided.
    Decided = 15,
    /// A move before the process's wait is over.
    Waiting = 16,
    /// The bank has no such register.
    Register = 17,
    /// The wait is above 65,535 and not unlimited.
    Wait = 18,
    /// The buffer is too short for the record.
    BufferShort = 19,
}

use Refusal::*;

const IN_ORDER: [Refusal; 19] = [
    SetupCut,
    SetupMark,
    Kind,
    Processes,
    Size,
    Start,
    ReportShort,
    TraceLong,
    StepCut,
    StepMark,
    Process,
    Event,
    Tick,
    Crashed,
    Decided,
    Waiting,
    Register,
    Wait,
    BufferShort,
];

impl Refusal {
    /// The refusal's number, 1 to 19.
    pub fn number(self) -> u32 {
        self as u32
    }

    /// The refusal with this number, if there is one.
    pub fn from_number(number: u32) -> Option<Refusal> {
        IN_ORDER.into_iter().find(|refusal| refusal.number() == number)
    }

    /// Takes a number that the library returned.
    pub(crate) fn check(number: u32) -> Result<(), Refusal> {
        match number {
            0 => Ok(()),
            _ => Err(Refusal::from_number(number)
                .unwrap_or_else(|| panic!("the library has no refusal {number}"))),
        }
    }
}

impl fmt::Display for Refusal {
    fn fmt(&self, f: &mut fmt::Formatter<'_>) -> fmt::Result {
        let text = match self {
            SetupCut => "setup cut short",
            SetupMark => "setup mark wrong",
            Kind => "kind not 1 to 3",
            Processes => "number of processes not 1 to 32",
            Size => "number of slots or values not 1 to 8, or zero byte not 0",
            Start => "start byte out of range",
            ReportShort => "report too short",
            TraceLong => "more than 8,000,000 bytes after the setup",
            StepCut => "step cut short",
            StepMark => "step mark wrong",
            Process => "no such process",
            Event => "event not 0 or 1",
            Tick => "tick above 4,000,000,000 or below the last one",
            Crashed => "the process has crashed",
            Decided => "the process has decided",
            Waiting => "the process still waits",
            Register => "register not 0 to 7",
            Wait => "wait above 65,535 and not unlimited",
            BufferShort => "buffer too short",
        };
        write!(f, "refused {}: {text}", self.number())
    }
}

impl Error for Refusal {}

/// What a run refused, and at which record.
#[derive(Clone, Copy, Debug, PartialEq, Eq, Hash)]
pub struct RefusedRun {
    pub refusal: Refusal,
    /// 0 for the setup, a short report or a long trace; the first step is 1.
    pub record: u32,
}

impl fmt::Display for RefusedRun {
    fn fmt(&self, f: &mut fmt::Formatter<'_>) -> fmt::Result {
        write!(f, "{} at record {}", self.refusal, self.record)
    }
}

impl Error for RefusedRun {
    fn source(&self) -> Option<&(dyn Error + 'static)> {
        Some(&self.refusal)
    }
}
