//! Runs random cases by the product, over its C interface, and by the second implementation, and compares each answer and each byte of each buffer.
//!
//!     differential --seed S --cases N [--from I] [--threads T] [--exact]
//!
//! Takes cases I to I + N - 1 of a seed: compile, check, merge, judge and name one after the other, and a list of merges each sixth time.
//! It prints how often each number was met, and ends with 1 at a difference, with the shortest case found that shows it.
//! With `--exact` each part is lent as a heap block of its own length, for a run under a memory checker.

use differential::compare::{Agreement, Compared, Desk};
use differential::lent::Lending;
use second::generator::{law::Jobs, lines, show, shrink, Counts, Maker, Smaller};
use std::panic::{catch_unwind, AssertUnwindSafe};
use std::process::ExitCode;
use std::sync::atomic::{AtomicU64, Ordering};
use std::sync::Mutex;
use std::thread;
use std::time::Instant;

/// How many cases a thread takes at a time.
const PORTION: u64 = 600;

/// How many trials the shrinker gets.
const TRIALS: usize = 400_000;

struct Options {
    seed: u64,
    cases: u64,
    from: u64,
    threads: usize,
    lending: Lending,
}

fn main() -> ExitCode {
    match options(std::env::args().skip(1)) {
        Ok(options) => run(&options),
        Err(what) => {
            eprintln!("differential: {what}");
            ExitCode::from(2)
        }
    }
}

fn options(mut words: impl Iterator<Item = String>) -> Result<Options, String> {
    let mut options = Options { seed: 1, cases: 100_000, from: 0, threads: 2, lending: Lending::Guarded };
    while let Some(word) = words.next() {
        if word == "--exact" {
            options.lending = Lending::Exact;
            continue;
        }
        let value = words.next().ok_or(format!("{word} lacks its value"))?;
        let number = value.parse::<u64>().map_err(|_| format!("{word} {value}: not a number"))?;
        match word.as_str() {
            "--seed" => options.seed = number,
            "--cases" => options.cases = number,
            "--from" => options.from = number,
            "--threads" => options.threads = number.clamp(1, 256) as usize,
            _ => return Err(format!("{word} is unknown")),
        }
    }
    Ok(options)
}

/// What the threads share.
struct Shared {
    maker: Maker,
    next: AtomicU64,
    end: u64,
    /// The lowest number of a case with a difference so far.
    failed: AtomicU64,
    counts: Mutex<Counts>,
}

fn run(options: &Options) -> ExitCode {
    let begun = Instant::now();
    // A panic of the second implementation is told as a difference; its own message would only be in the way.
    std::panic::set_hook(Box::new(|_| {}));
    let shared = Shared {
        maker: Maker::new(options.seed),
        next: AtomicU64::new(options.from),
        end: options.from.saturating_add(options.cases),
        failed: AtomicU64::new(u64::MAX),
        counts: Mutex::new(Counts::default()),
    };
    thread::scope(|scope| {
        for _ in 0..options.threads {
            scope.spawn(|| portions(&shared, options.lending));
        }
    });
    let failed = shared.failed.load(Ordering::SeqCst);
    if failed != u64::MAX {
        println!("case {failed} of seed {} differs", options.seed);
        one(&shared.maker, failed, &mut Reporting(desk(options.lending)));
        return ExitCode::FAILURE;
    }
    let counts = shared.counts.into_inner().unwrap_or_else(|poisoned| poisoned.into_inner());
    print!("{counts}");
    println!(
        "{} cases of seed {}, no difference, in {:.1} s",
        options.cases,
        options.seed,
        begun.elapsed().as_secs_f64()
    );
    ExitCode::SUCCESS
}

fn desk(lending: Lending) -> Desk {
    Desk { lending, counts: Counts::default() }
}

/// Takes portions of cases until all are taken or a case before them differs.
fn portions(shared: &Shared, lending: Lending) {
    let mut comparing = Comparing { desk: desk(lending), agreement: Ok(()) };
    loop {
        let first = shared.next.fetch_add(PORTION, Ordering::SeqCst);
        if first >= shared.end || first > shared.failed.load(Ordering::SeqCst) {
            break;
        }
        for number in first..(first + PORTION).min(shared.end) {
            one(&shared.maker, number, &mut comparing);
            if comparing.agreement.is_err() {
                shared.failed.fetch_min(number, Ordering::SeqCst);
                break;
            }
        }
    }
    if let Ok(mut counts) = shared.counts.lock() {
        counts.add_all(&comparing.desk.counts);
    }
}

/// Something that takes a case of any kind, and can print it.
trait Taker {
    fn take<C: Compared + Smaller>(&mut self, case: &C, print: impl Fn(&C) -> String);
}

/// Makes case `number` and hands it over.
fn one(maker: &Maker, number: u64, taker: &mut impl Taker) {
    let jobs = Jobs::library();
    match number % 6 {
        0 => taker.take(&maker.compile(number), |case| lines::compile_line(case, &jobs)),
        1 => taker.take(&maker.check(number), |case| lines::check_line(case, &jobs)),
        2 => taker.take(&maker.merge(number), |case| lines::merge_line(case, &jobs)),
        3 => taker.take(&maker.judge(number), |case| lines::judge_line(case, &jobs)),
        4 => taker.take(&maker.name(number), |case| lines::name_line(case, &jobs)),
        _ => taker.take(&maker.list(number), show::list_case),
    }
}

fn compared<C: Compared>(case: &C, desk: &mut Desk) -> Agreement {
    catch_unwind(AssertUnwindSafe(|| case.compare(desk)))
        .unwrap_or_else(|_| Err(String::from("the second implementation panicked")))
}

/// Compares each case.
struct Comparing {
    desk: Desk,
    agreement: Agreement,
}

impl Taker for Comparing {
    fn take<C: Compared + Smaller>(&mut self, case: &C, _print: impl Fn(&C) -> String) {
        self.agreement = compared(case, &mut self.desk);
    }
}

/// Makes a case with a difference small and prints it.
struct Reporting(Desk);

impl Taker for Reporting {
    fn take<C: Compared + Smaller>(&mut self, case: &C, print: impl Fn(&C) -> String) {
        let desk = &mut self.0;
        let small = shrink(case, TRIALS, |candidate| compared(candidate, desk).is_err());
        if let Err(what) = compared(&small, desk) {
            println!("{what}");
        }
        println!("{}", print(&small));
    }
}
