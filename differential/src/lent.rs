//! What is lent to the product: parts of which no byte outside may be read or written.

use second::generator::filling;

/// How parts are lent.
#[derive(Clone, Copy, Debug, PartialEq, Eq)]
pub enum Lending {
    /// An output lies between guards, which are compared behind each call.
    Guarded,
    /// Each part is a block of the heap of just its length, for a memory checker.
    Exact,
}

/// The bytes of a guard.
const GUARD: usize = 64;

/// An output buffer, filled as a case says.
pub struct Output {
    whole: Box<[u8]>,
    guard: usize,
    fill: u8,
}

impl Output {
    pub fn new(lending: Lending, fill: u8, room: usize) -> Output {
        let guard = if lending == Lending::Guarded { GUARD } else { 0 };
        Output { whole: filling(fill, room + 2 * guard).into_boxed_slice(), guard, fill }
    }

    /// The part that is lent.
    pub fn lent(&mut self) -> &mut [u8] {
        let end = self.whole.len() - self.guard;
        &mut self.whole[self.guard..end]
    }

    /// The lent part as it was before any call.
    pub fn before(&self) -> Vec<u8> {
        let whole = filling(self.fill, self.whole.len());
        whole[self.guard..whole.len() - self.guard].to_vec()
    }

    /// Where the bytes are not the expected ones: a place in the part, or one of the guards.
    pub fn difference(&self, expected: &[u8]) -> Option<String> {
        let mut wanted = filling(self.fill, self.whole.len());
        wanted[self.guard..self.guard + expected.len()].copy_from_slice(expected);
        let at = (0..wanted.len()).find(|&at| wanted[at] != self.whole[at])?;
        let (got, want) = (self.whole[at], wanted[at]);
        Some(if at < self.guard {
            format!("a byte before the output was written: {got:#04x}")
        } else if at >= self.whole.len() - self.guard {
            format!("a byte behind the output was written: {got:#04x}")
        } else {
            format!("output byte {}: product {got:#04x}, second {want:#04x}", at - self.guard)
        })
    }
}

/// Bytes to read, in a block of just their length.
pub fn input(bytes: &[u8]) -> Box<[u8]> {
    bytes.into()
}
