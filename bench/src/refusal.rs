//! The numbers of the refusals.

#[derive(Clone, Copy)]
#[repr(u8)]
pub enum Refusal {
    Processors = 1,
    Speeds = 2,
    PowerTable = 3,
    JobNumbers = 4,
    Malformed = 5,
    NoRoom = 6,
    NoMachine = 11,
    MachineOpen = 12,
    IdHeld = 13,
    IdNotHeld = 14,
    PlacesFull = 15,
    HyperperiodTooLong = 16,
    NoPlan = 17,
    NotAList = 18,
    UnevenGaps = 19,
}
