//! One case run by the product and by the second implementation, with all answers and bytes compared.

use crate::lent::{input, Lending, Output};
use crate::told;
use second::api::{CheckAnswer, MeaningAnswer};
use second::generator::{
    rules, CheckCase, CompileCase, Counts, Job, JudgeCase, ListCase, MergeCase, NameCase, Other, Step, LONGEST_TABLE,
};
use std::fmt::Debug;

/// The words for a difference, or nothing.
pub type Agreement = Result<(), String>;

/// What a comparison works with.
pub struct Desk {
    pub lending: Lending,
    pub counts: Counts,
}

/// A case that both can run.
pub trait Compared {
    fn compare(&self, desk: &mut Desk) -> Agreement;
}

fn same<T: PartialEq + Debug>(job: &str, product: T, second: T) -> Agreement {
    if product == second {
        return Ok(());
    }
    Err(format!("{job}: product {product:?}, second {second:?}"))
}

fn same_bytes(job: &str, product: &Output, second: &[u8]) -> Agreement {
    product.difference(second).map_or(Ok(()), |what| Err(format!("{job}: {what}")))
}

/// Counts the kinds of a table that a job was given, if it passes the check.
fn meet(desk: &mut Desk, job: Job, table: &[u8]) {
    if matches!(second::check(table), CheckAnswer::Passed) {
        desk.counts.meet(job, table);
    }
}

/// Compiles by both; the output as it is behind the call, and the table's length if it was written.
fn compile(desk: &mut Desk, text: &[u8], little: bool, room: usize, fill: u8) -> Result<Option<Vec<u8>>, String> {
    let text = input(text);
    let mut out = Output::new(desk.lending, fill, room);
    let mut expected = out.before();
    let answer = told::compiled(second::compile(&text, little, &mut expected));
    let got = binding::compile(&text, little, out.lent());
    desk.counts.add(Job::Compile, got.number);
    same("compile", got, answer)?;
    same_bytes("compile", &out, &expected)?;
    let written = (answer.number == 0).then(|| expected[..answer.place as usize].to_vec());
    written.iter().for_each(|table| desk.counts.meet(Job::Compile, table));
    Ok(written)
}

fn check(desk: &mut Desk, table: &[u8]) -> Agreement {
    let table = input(table);
    let got = binding::check(&table);
    desk.counts.add(Job::Check, got.number);
    meet(desk, Job::Check, &table);
    same("check", got, told::checked(second::check(&table)))
}

/// Merges by both; the table written and the record shift.
fn merge(
    desk: &mut Desk,
    first: &[u8],
    second: &[u8],
    little: bool,
    room: usize,
    fill: u8,
) -> Result<Option<(Vec<u8>, u32)>, String> {
    let (first, second) = (input(first), input(second));
    let mut out = Output::new(desk.lending, fill, room);
    let mut expected = out.before();
    let answer = told::merged(second::merge(&first, &second, little, &mut expected));
    let got = binding::merge(&first, &second, little, out.lent());
    desk.counts.add(Job::Merge, got.number);
    meet(desk, Job::Merge, &first);
    meet(desk, Job::Merge, &second);
    same("merge", got, answer)?;
    same_bytes("merge", &out, &expected)?;
    Ok((answer.number == 0).then(|| (expected[..answer.place as usize].to_vec(), answer.record_shift)))
}

fn judge(desk: &mut Desk, table: &[u8], root: u32, data: &[u8]) -> Agreement {
    let (table, data) = (input(table), input(data));
    let got = binding::judge(&table, root, &data);
    desk.counts.add(Job::Judge, got.number);
    meet(desk, Job::Judge, &table);
    same(&format!("judge at {root}"), got, told::judged(second::judge(&table, root, &data)))
}

fn name(desk: &mut Desk, table: &[u8], record: u32) -> Agreement {
    let table = input(table);
    let got = binding::name(&table, record);
    desk.counts.add(Job::Name, got.number);
    meet(desk, Job::Name, &table);
    same(&format!("name of {record}"), got, told::named(second::name(&table, record)))
}

impl Compared for CompileCase {
    fn compare(&self, desk: &mut Desk) -> Agreement {
        compile(desk, &self.text, self.little, self.room, self.fill).map(drop)
    }
}

impl Compared for CheckCase {
    fn compare(&self, desk: &mut Desk) -> Agreement {
        check(desk, &self.table)
    }
}

impl Compared for MergeCase {
    fn compare(&self, desk: &mut Desk) -> Agreement {
        merge(desk, &self.first, &self.second, self.little, self.room, self.fill).map(drop)
    }
}

impl Compared for JudgeCase {
    fn compare(&self, desk: &mut Desk) -> Agreement {
        judge(desk, &self.table, self.root, &self.data)
    }
}

impl Compared for NameCase {
    fn compare(&self, desk: &mut Desk) -> Agreement {
        name(desk, &self.table, self.record)
    }
}

impl Compared for ListCase {
    /// The text compiled, in full room and in the case's, then each merge, then the data judged by the carried table at record 1 + sum.
    fn compare(&self, desk: &mut Desk) -> Agreement {
        let Some(mut carried) = compile(desk, &self.text, self.little, LONGEST_TABLE, self.fill)? else {
            return Ok(());
        };
        compile(desk, &self.text, self.little, self.room.bytes(carried.len()), self.fill)?;
        let mut sum = 0;
        for (index, step) in self.steps.iter().enumerate() {
            merge_step(desk, step, &mut carried, &mut sum).map_err(|what| format!("step {}: {what}", index + 1))?;
        }
        check(desk, &carried)?;
        for data in &self.data {
            judge(desk, &carried, 1 + sum, data)?;
            meant(desk, &self.text, &carried, sum, data)?;
        }
        self.asked.iter().try_for_each(|&number| {
            name(desk, &carried, number)?;
            judge(desk, &carried, number, self.data.first().map_or(b"<>", |data| data))
        })
    }
}

/// What the two texts alone mean, by the second implementation, is what the product says of the carried table at record 1 + sum.
fn meant(desk: &mut Desk, text: &[u8], carried: &[u8], sum: u32, data: &[u8]) -> Agreement {
    let mut expected = match second::meaning(text, data) {
        MeaningAnswer::Answer(answer) => told::judged(answer),
        refused => return Err(format!("the text was compiled, yet the meaning says {refused:?}")),
    };
    desk.counts.add(Job::Meaning, expected.number);
    if expected.record != 0 {
        expected.record += sum;
    }
    same(
        &format!("judge at {} and the meaning", 1 + sum),
        binding::judge(&input(carried), 1 + sum, &input(data)),
        expected,
    )
}

/// One merge of a list; a refused one changes neither table nor sum.
fn merge_step(desk: &mut Desk, step: &Step, carried: &mut Vec<u8>, sum: &mut u32) -> Agreement {
    let other = match &step.other {
        Other::Bytes(bytes) => bytes.clone(),
        Other::Carried => carried.clone(),
    };
    let (first, second) = if step.carried_first { (&*carried, &other) } else { (&other, &*carried) };
    let sound = matches!(second::check(&other), CheckAnswer::Passed);
    let needed = if sound { rules::merged_length(first, second) } else { first.len() + second.len() };
    let Some((written, shift)) = merge(desk, first, second, step.little, step.room.bytes(needed), step.fill)? else {
        return Ok(());
    };
    if !step.carried_first {
        *sum += shift;
    }
    *carried = written;
    Ok(())
}
