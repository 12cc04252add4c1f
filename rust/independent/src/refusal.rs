//! What is refused, with its number.

/// Why a call was refused. The discriminant is the refusal's number.
#[derive(Clone, Copy, Debug, PartialEq, Eq)]
#[repr(u32)]
pub enum Refusal {
    SetupCut = 1,
    SetupMark = 2,
    Kind = 3,
    Processes = 4,
    Size = 5,
    Start = 6,
    ReportShort = 7,
    TraceLong = 8,
    StepCut = 9,
    StepMark = 10,
    Process = 11,
    Event = 12,
    Tick = 13,
    Crashed = 14,
    Decided = 15,
    Waiting = 16,
    Register = 17,
    Wait = 18,
    BufferShort = 19,
}

impl Refusal {
    pub fn number(self) -> u32 {
        self as u32
    }
}
