//! The refusal numbers of document 01 and the requests in 02.

pub type Refusal = u8;

pub const PROCESSORS: Refusal = 1;
pub const SPEEDS: Refusal = 2;
pub const POWER_TABLE: Refusal = 3;
pub const JOB_NUMBERS: Refusal = 4;
pub const MALFORMED: Refusal = 5;
pub const NO_ROOM: Refusal = 6;
pub const NO_MACHINE: Refusal = 11;
pub const MACHINE_OPEN: Refusal = 12;
pub const ID_HELD: Refusal = 13;
pub const ID_NOT_HELD: Refusal = 14;
pub const PLACES_FULL: Refusal = 15;
pub const CYCLE_TOO_LONG: Refusal = 16;
pub const NO_PLAN: Refusal = 17;
pub const NOT_A_LIST: Refusal = 18;
pub const UNEVEN_GAPS: Refusal = 19;

/// Every number that a line of a sheet can meet.
pub const OF_A_LINE: [Refusal; 12] = [1, 2, 3, 4, 5, 11, 12, 13, 14, 15, 16, 17];

/// Every number that the library call can meet: those of an admission, and never 17.
pub const OF_THE_CALL: [Refusal; 5] = [11, 4, 13, 15, 16];

/// Every two numbers of an admission that can hold at once, the one that is given first.
pub const TWO_AT_ONCE: [(Refusal, Refusal); 11] =
    [(11, 4), (4, 13), (4, 15), (4, 16), (4, 17), (13, 15), (13, 16), (13, 17), (15, 16), (15, 17), (16, 17)];

/// Every number that an import can meet, in their order.
pub const OF_AN_IMPORT: [Refusal; 5] = [1, 18, 19, 2, 6];
