//! The limits that the rule book names.

/// Longest constraint text and longest data text.
pub const TEXT: usize = 16_384;
/// Deepest level of objects, and of blocks.
pub const LEVELS: usize = 16;
/// Most items of one leaf.
pub const ITEMS: usize = 16;
/// Longest type, and longest name.
pub const NAME: usize = 63;
/// Longest code, without its brackets.
pub const CODE: usize = 31;
/// Longest string, without its quotes.
pub const STRING: usize = 255;
/// Most records of a table, the header among them.
pub const RECORDS: usize = 2_048;
/// Most bytes of a pool.
pub const POOL: usize = 16_384;
/// Bytes of one record.
pub const RECORD: usize = 24;
