//! Cases as a program reads them, and the lines that it must print.
//!
//! A case is six bytes, its kind, an order (1 where the lowest byte comes first) and a number of four bytes with the
//! highest first; then its title and its arguments. Each of these is a row of pieces: two bytes say how many bytes a
//! piece fills, two how many it brings, and then come these, to be repeated as far as it goes; one that fills none
//! ends the row. The program prints the title, a colon and the answer.

/// The periods in which bytes are seen to repeat: one byte, a record, and the bytes that fill an output.
const PERIODS: [usize; 3] = [1, 24, 256];

/// The fewest bytes that a repetition must save.
const WORTH: usize = 32;

/// The most bytes of a piece.
const MOST: usize = u16::MAX as usize;

#[derive(Default)]
pub struct Stream {
    pub input: Vec<u8>,
    pub output: String,
}

/// What a case begins with.
pub struct Head {
    pub kind: u8,
    pub little: bool,
    pub number: u32,
}

impl Stream {
    pub fn add(&mut self, head: &Head, title: &str, arguments: &[&[u8]], answer: &str) {
        self.input.extend([head.kind, u8::from(head.little)]);
        self.input.extend(head.number.to_be_bytes());
        self.row(title.as_bytes());
        for argument in arguments {
            self.row(argument);
        }
        self.output.push_str(&format!("{title}:{answer}\n"));
    }

    fn row(&mut self, bytes: &[u8]) {
        let mut literal = 0;
        let mut at = 0;
        while at < bytes.len() {
            match repetition(&bytes[at..]) {
                Some((period, run)) => {
                    self.literal(&bytes[literal..at]);
                    self.piece(run, &bytes[at..at + period]);
                    at += run;
                    literal = at;
                }
                None => at += 1,
            }
        }
        self.literal(&bytes[literal..]);
        self.piece(0, &[]);
    }

    fn literal(&mut self, bytes: &[u8]) {
        for part in bytes.chunks(MOST) {
            self.piece(part.len(), part);
        }
    }

    fn piece(&mut self, fills: usize, brings: &[u8]) {
        self.input.extend((fills as u16).to_be_bytes());
        self.input.extend((brings.len() as u16).to_be_bytes());
        self.input.extend(brings);
    }
}

/// The period and the length of the longest run at the front of the bytes that is worth a piece of its own.
fn repetition(bytes: &[u8]) -> Option<(usize, usize)> {
    let run = |period: usize| {
        let same = bytes.iter().skip(period).zip(bytes).take_while(|(next, byte)| next == byte).count();
        (period, (period + same).min(bytes.len()).min(MOST))
    };
    let best = PERIODS.into_iter().map(run).max_by_key(|(period, run)| run.saturating_sub(*period))?;
    (best.1 >= best.0 + WORTH).then_some(best)
}

/// A number by which a buffer's bytes are compared.
pub fn digest(bytes: &[u8]) -> u64 {
    bytes.iter().fold(0, |sum, byte| (sum * 257 + u64::from(*byte) + 1) % 4_294_967_291)
}
