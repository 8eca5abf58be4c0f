//! How often each refusal and reason was met, and each kind of record, job by job.

use super::tables::Table;
use std::fmt;

/// The jobs that are counted.
#[derive(Clone, Copy, Debug, PartialEq, Eq)]
pub enum Job {
    Compile,
    Check,
    Merge,
    Judge,
    Name,
    Meaning,
}

/// The jobs with their names and the numbers that each can answer.
const JOBS: [(&str, &[usize]); 6] = [
    ("compile", &[1, 2, 3, 4, 5, 6, 7, 8, 9, 11]),
    ("check", &[12, 13]),
    ("merge", &[8, 10, 11, 12, 13]),
    ("judge", &[1, 2, 3, 4, 5, 9, 12, 13, 14, 20, 21, 22, 23, 24]),
    ("name", &[12, 13, 14]),
    ("meaning", &[1, 2, 3, 4, 5, 6, 7, 8, 9, 20, 21, 22, 23, 24]),
];

const NUMBERS: [usize; 20] = [0, 1, 2, 3, 4, 5, 6, 7, 8, 9, 10, 11, 12, 13, 14, 20, 21, 22, 23, 24];

/// Counts by job and number; number 0 stands for an answer without refusal or reason.
#[derive(Clone, Debug, Default)]
pub struct Counts {
    met: [[u64; 32]; 6],
    /// How many tables of a job had a record of a kind.
    kinds: [[u64; 10]; 6],
}

impl Counts {
    pub fn add(&mut self, job: Job, number: u32) {
        self.met[job as usize][number.min(31) as usize] += 1;
    }

    /// Counts the kinds 1 to 9 that a table has, each once, of records with a mark. The table may be any bytes.
    pub fn meet(&mut self, job: Job, table: &[u8]) {
        let mut met = [false; 10];
        for record in Table::read(table).records.iter().skip(1).filter(|record| record.has_mark()) {
            if let Some(kind) = met.get_mut(usize::from(record.kind)) {
                *kind = true;
            }
        }
        for (count, met) in self.kinds[job as usize].iter_mut().zip(met) {
            *count += u64::from(met);
        }
    }

    pub fn add_all(&mut self, other: &Counts) {
        for (own, others) in self.met.iter_mut().zip(&other.met) {
            add_row(own, others);
        }
        for (own, others) in self.kinds.iter_mut().zip(&other.kinds) {
            add_row(own, others);
        }
    }

    /// The job and number met least often among those that can be met, and how often that was.
    pub fn rarest(&self) -> (&'static str, usize, u64) {
        let mut rarest = ("", 0, u64::MAX);
        for (row, (job, numbers)) in self.met.iter().zip(JOBS) {
            for &number in numbers {
                if row[number] < rarest.2 {
                    rarest = (job, number, row[number]);
                }
            }
        }
        rarest
    }

    /// A number that was met although its job can never answer it.
    pub fn impossible(&self) -> Option<(&'static str, usize)> {
        for (row, (job, numbers)) in self.met.iter().zip(JOBS) {
            let strange = (1..row.len()).find(|number| row[*number] > 0 && !numbers.contains(number));
            if let Some(number) = strange {
                return Some((job, number));
            }
        }
        None
    }
}

fn add_row(own: &mut [u64], others: &[u64]) {
    for (a, b) in own.iter_mut().zip(others) {
        *a += b;
    }
}

impl fmt::Display for Counts {
    fn fmt(&self, out: &mut fmt::Formatter<'_>) -> fmt::Result {
        write!(out, "{:>8}", "number")?;
        for (job, _) in JOBS {
            write!(out, "{job:>12}")?;
        }
        for number in NUMBERS {
            let label = if number == 0 { String::from("none") } else { number.to_string() };
            write!(out, "\n{label:>8}")?;
            for (row, (_, numbers)) in self.met.iter().zip(JOBS) {
                if row[number] == 0 && number != 0 && !numbers.contains(&number) {
                    write!(out, "{:>12}", "-")?;
                } else {
                    write!(out, "{:>12}", row[number])?;
                }
            }
        }
        for kind in 1..10 {
            write!(out, "\n{:>8}", format!("kind {kind}"))?;
            for (job, row) in self.kinds.iter().enumerate() {
                if job == Job::Meaning as usize {
                    write!(out, "{:>12}", "-")?;
                } else {
                    write!(out, "{:>12}", row[kind])?;
                }
            }
        }
        writeln!(out)
    }
}
