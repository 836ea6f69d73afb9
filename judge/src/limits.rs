//! The limits of the bench, and the rooms that the largest task needs.

pub const TEXT: usize = 16_384;
pub const VARS: usize = 8;
pub const VALUES: usize = 8;
pub const OPS: usize = 64;
pub const COST: u64 = 1_000_000;
pub const MAPS: usize = 8;
pub const STATES: usize = 4_096;
pub const STEPS: usize = 1_024;
/// The highest quota of stored tests.
pub const QUOTA: usize = 1_024;

/// Stands for none in a distance table.
pub const NONE: u32 = u32::MAX;
/// Stands for none in a table of best steps.
pub const NO_STEP: u8 = 255;

/// Facts are rows of eight places.
pub const ROW: usize = 8;
pub const ROW_DOM: usize = 0;
pub const ROW_INIT: usize = 1;
pub const ROW_GOAL: usize = 2;
pub const ROW_PRE: usize = 3;
pub const ROW_EFF: usize = 67;
pub const ROW_MAP: usize = 131;
/// The last rows have a place an operator: its mark.
pub const ROW_MARK: usize = 195;

/// The columns of a run: one a map, then the unshared one, then the one of stored tests.
pub const UNSHARED: usize = MAPS;
pub const STORED: usize = MAPS + 1;
pub const COLUMNS: usize = MAPS + 2;

pub const FACTS_ROOM: usize = 203 * ROW;
pub const COSTS_ROOM: usize = OPS;
pub const SHARES_ROOM: usize = OPS * MAPS;
pub const OUT_ROOM: usize = STATES;
pub const BEST_ROOM: usize = STATES;
/// The buffer has room for the longest text that may be read, whatever the task.
pub const BUFFER_ROOM: usize = TEXT;
/// The work area of a text that comes in pieces.
pub const AREA_ROOM: usize = 8_192;

/// Up to so many concrete states a view is built by looking at each of them.
pub const ENUMERATED: usize = 20_000;
