//! The five jobs over the C interface of `include/dubrakosh.h`, for Rust.
//!
//! Each function answers for any bytes. A number is 0 or document 01's.

mod c {
    extern "C" {
        pub fn dk_compile(
            text: *const u8,
            text_len: usize,
            little: bool,
            out: *mut u8,
            out_len: usize,
            place: *mut u64,
        ) -> u32;
        pub fn dk_check(table: *const u8, table_len: usize, place: *mut u64) -> u32;
        pub fn dk_merge(
            first: *const u8,
            first_len: usize,
            second: *const u8,
            second_len: usize,
            little: bool,
            out: *mut u8,
            out_len: usize,
            place: *mut u64,
            record_shift: *mut u32,
            pool_shift: *mut u32,
            which: *mut u32,
        ) -> u32;
        pub fn dk_judge(
            table: *const u8,
            table_len: usize,
            root: u32,
            data: *const u8,
            data_len: usize,
            record: *mut u32,
            place: *mut u64,
        ) -> u32;
        pub fn dk_name(table: *const u8, table_len: usize, record: u32, start: *mut u64, len: *mut u64) -> u32;
    }
}

/// What the numbers that a call sets hold before it, so that one that is left alone is seen.
const UNSET: u64 = 0xA5A5_A5A5_A5A5_A5A5;
const UNSET_32: u32 = 0xA5A5_A5A5;

/// A number and a place; for a table that was written, 0 and its length.
#[derive(Clone, Copy, Debug, PartialEq, Eq)]
pub struct Placed {
    pub number: u32,
    pub place: u64,
}

/// What merging says: 0 and the length with both shifts, or a number, its place and the table that it names (1, 2, else 0).
#[derive(Clone, Copy, Debug, PartialEq, Eq)]
pub struct Merged {
    pub number: u32,
    pub place: u64,
    pub record_shift: u32,
    pub pool_shift: u32,
    pub which: u32,
}

/// What judging says: 0, or a number with its place, and for 20 to 24 the constraint's record.
#[derive(Clone, Copy, Debug, PartialEq, Eq)]
pub struct Judged {
    pub number: u32,
    pub record: u32,
    pub place: u64,
}

/// Where a name lies in the table's bytes; with a number other than 0, its place and length 0.
#[derive(Clone, Copy, Debug, PartialEq, Eq)]
pub struct Named {
    pub number: u32,
    pub start: u64,
    pub length: u64,
}

/// Compiles a constraint text into a table.
pub fn compile(text: &[u8], little: bool, out: &mut [u8]) -> Placed {
    let mut place = UNSET;
    // Both parts live through the call with the lengths given, and a `&mut` overlaps nothing.
    let number = unsafe { c::dk_compile(text.as_ptr(), text.len(), little, out.as_mut_ptr(), out.len(), &mut place) };
    Placed { number, place }
}

/// Checks a table.
pub fn check(table: &[u8]) -> Placed {
    let mut place = UNSET;
    // The part lives through the call with the length given.
    let number = unsafe { c::dk_check(table.as_ptr(), table.len(), &mut place) };
    Placed { number, place }
}

/// Merges two tables.
pub fn merge(first: &[u8], second: &[u8], little: bool, out: &mut [u8]) -> Merged {
    let mut place = UNSET;
    let (mut record_shift, mut pool_shift, mut which) = (UNSET_32, UNSET_32, UNSET_32);
    // The parts live through the call with the lengths given, and a `&mut` overlaps nothing.
    let number = unsafe {
        c::dk_merge(
            first.as_ptr(),
            first.len(),
            second.as_ptr(),
            second.len(),
            little,
            out.as_mut_ptr(),
            out.len(),
            &mut place,
            &mut record_shift,
            &mut pool_shift,
            &mut which,
        )
    };
    Merged { number, place, record_shift, pool_shift, which }
}

/// Judges a data text by a table at a root.
pub fn judge(table: &[u8], root: u32, data: &[u8]) -> Judged {
    let mut place = UNSET;
    let mut record = UNSET_32;
    // Both parts live through the call with the lengths given.
    let number =
        unsafe { c::dk_judge(table.as_ptr(), table.len(), root, data.as_ptr(), data.len(), &mut record, &mut place) };
    Judged { number, record, place }
}

/// Asks for the name of a record.
pub fn name(table: &[u8], record: u32) -> Named {
    let (mut start, mut length) = (UNSET, UNSET);
    // The part lives through the call with the length given.
    let number = unsafe { c::dk_name(table.as_ptr(), table.len(), record, &mut start, &mut length) };
    Named { number, start, length }
}
