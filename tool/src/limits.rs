//! The limits of document 01 that the tool itself needs.

/// The longest text, in bytes.
pub const TEXT: usize = 16_384;

/// The most records of a table, its header among them.
pub const RECORDS: u32 = 2_048;

/// The most bytes of names in a table.
pub const POOL: u32 = 16_384;

/// The bytes of a record.
pub const RECORD: usize = 24;

/// The longest table, in bytes.
pub const TABLE: usize = RECORD * RECORDS as usize + POOL as usize;

/// The most levels of blocks in a data text.
pub const LEVELS: u8 = 16;
