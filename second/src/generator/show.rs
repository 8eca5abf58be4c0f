//! A list case in a form to be read: escaped strings, tables in hex record by record.

use super::cases::{ListCase, Other};
use super::lines::hex;
use super::tables::{Table, RECORD};
use std::fmt::Write;

/// Bytes as a quoted string with escapes.
pub fn quoted(bytes: &[u8]) -> String {
    format!("b\"{}\"", bytes.escape_ascii())
}

/// The whole case, one thing a line.
pub fn list_case(case: &ListCase) -> String {
    let mut out = String::new();
    let order = if case.little { "little" } else { "big" };
    let _ = writeln!(out, "text ({} bytes, {order}, room {:?}, fill {}):", case.text.len(), case.room, case.fill);
    let _ = writeln!(out, "  {}", quoted(&case.text));
    for (index, step) in case.steps.iter().enumerate() {
        let side = if step.carried_first { "first" } else { "second" };
        let order = if step.little { "little" } else { "big" };
        let _ = writeln!(
            out,
            "merge {}: carried table {side}, {order}, room {:?}, fill {}, other table:",
            index + 1,
            step.room,
            step.fill
        );
        match &step.other {
            Other::Carried => out.push_str("  the carried table's own bytes\n"),
            Other::Bytes(bytes) => out.push_str(&table(bytes)),
        }
    }
    for (index, data) in case.data.iter().enumerate() {
        let _ = writeln!(out, "data {index} ({} bytes):\n  {}", data.len(), quoted(data));
    }
    let _ = writeln!(out, "asked: {:?}", case.asked);
    out
}

/// A table: each record in hex, then the pool.
pub fn table(bytes: &[u8]) -> String {
    let parts = Table::read(bytes);
    let mut out = format!("  {} bytes\n", bytes.len());
    for (number, record) in bytes.chunks(RECORD).take(parts.records.len()).enumerate() {
        let _ = writeln!(out, "  {number:>4}: {}", hex(record));
    }
    let _ = writeln!(out, "  pool: {} {}", hex(&parts.pool), quoted(&parts.pool));
    out
}
