//! Runs and prints random cases.
//!
//!     cases law --seed S --cases N [--threads T] [--least K] [--from I]
//!     cases jobs --seed S --cases N [--threads T] [--from I]
//!     cases shapes --seed S --cases N [--threads T] [--from I]
//!     cases leaves --seed S --cases N [--threads T] [--from I]
//!     cases make --seed S --cases N --kind compile|check|merge|judge|name [--from I]
//!
//! Each takes cases I to I + N - 1 of a seed. `law` runs lists of merges; `jobs` runs a single case of
//! each job; `shapes` runs texts without faults, whose tables are known, with data that fits them;
//! `leaves` runs single leaves, good and bad, whose answers are known.
//! These print how often each number was met, and how many tables of each job had a record of each kind.
//! They end with 1 at the first failing case, made small; `law` also when a number was met fewer than K times.
//! `make` prints cases with the library's answers; `src/generator/lines.rs` says how they are written.

use second::generator::law::{Bench, Jobs, Outcome};
use second::generator::leaves::leaf_case;
use second::generator::shapes::{shape_case, ShapeCase};
use second::generator::single::Single;
use second::generator::{lines, show, shrink, Counts, ListCase, Maker, Smaller};
use std::fmt::Debug;
use std::io::{self, BufWriter, Write};
use std::process::ExitCode;
use std::sync::atomic::{AtomicU64, Ordering};
use std::sync::Mutex;
use std::thread;
use std::time::Instant;

/// How many cases a thread takes at a time.
const PORTION: u64 = 500;

/// How many trials the shrinker gets.
const TRIALS: usize = 400_000;

struct Options {
    job: String,
    seed: u64,
    cases: u64,
    from: u64,
    threads: usize,
    least: u64,
    kind: String,
}

fn main() -> ExitCode {
    let options = match options(std::env::args().skip(1)) {
        Ok(options) => options,
        Err(what) => {
            eprintln!("cases: {what}");
            return ExitCode::from(2);
        }
    };
    match options.job.as_str() {
        "law" => run(&options, run_list, report_list),
        "jobs" => run(&options, run_single, report_single),
        "shapes" => run(&options, run_shape, report_shape),
        "leaves" => run(&options, run_leaf, report_leaf),
        _ => make(&options),
    }
}

fn options(mut words: impl Iterator<Item = String>) -> Result<Options, String> {
    let job = words.next().unwrap_or_default();
    if !["law", "jobs", "shapes", "leaves", "make"].contains(&job.as_str()) {
        return Err(String::from("say `law`, `jobs`, `shapes`, `leaves` or `make` first"));
    }
    let mut options =
        Options { job, seed: 1, cases: 1_000, from: 0, threads: 2, least: 0, kind: String::from("compile") };
    while let Some(word) = words.next() {
        let value = words.next().ok_or(format!("{word} lacks its value"))?;
        let number = || value.parse::<u64>().map_err(|_| format!("{word} {value}: not a number"));
        match word.as_str() {
            "--seed" => options.seed = number()?,
            "--cases" => options.cases = number()?,
            "--from" => options.from = number()?,
            "--threads" => options.threads = number()?.clamp(1, 256) as usize,
            "--least" => options.least = number()?,
            "--kind" => options.kind = value,
            _ => return Err(format!("{word} is unknown")),
        }
    }
    Ok(options)
}

/// Where cases come from.
struct Source {
    seed: u64,
    maker: Maker,
}

/// What the threads share.
struct Shared {
    next: AtomicU64,
    end: u64,
    /// The lowest number of a failing case so far.
    failed: AtomicU64,
    counts: Mutex<Counts>,
}

/// Runs one case by its number.
type RunOne = fn(&Source, &mut Bench, u64) -> Outcome;

/// Makes a failing case small and prints it.
type Report = fn(&Source, &mut Bench, u64);

fn run(options: &Options, run_one: RunOne, report: Report) -> ExitCode {
    let begun = Instant::now();
    // A panic in a job is reported as a failing case; its own message would only be in the way.
    std::panic::set_hook(Box::new(|_| {}));
    let source = Source { seed: options.seed, maker: Maker::new(options.seed) };
    let shared = Shared {
        next: AtomicU64::new(options.from),
        end: options.from.saturating_add(options.cases),
        failed: AtomicU64::new(u64::MAX),
        counts: Mutex::new(Counts::default()),
    };
    thread::scope(|scope| {
        for _ in 0..options.threads {
            scope.spawn(|| portions(&source, &shared, run_one));
        }
    });
    let failed = shared.failed.load(Ordering::SeqCst);
    if failed != u64::MAX {
        println!("case {failed} of seed {} fails", options.seed);
        report(&source, &mut Bench::new(Jobs::library()), failed);
        return ExitCode::FAILURE;
    }
    let counts = shared.counts.into_inner().unwrap_or_else(|poisoned| poisoned.into_inner());
    print!("{counts}");
    println!("{} cases of seed {} in {:.1} s", options.cases, options.seed, begun.elapsed().as_secs_f64());
    enough(&counts, options.least)
}

/// Takes portions of cases until all are taken or a case before them has failed.
fn portions(source: &Source, shared: &Shared, run_one: RunOne) {
    let mut bench = Bench::new(Jobs::library());
    loop {
        let first = shared.next.fetch_add(PORTION, Ordering::SeqCst);
        if first >= shared.end || first > shared.failed.load(Ordering::SeqCst) {
            break;
        }
        for number in first..(first + PORTION).min(shared.end) {
            if run_one(source, &mut bench, number).is_err() {
                shared.failed.fetch_min(number, Ordering::SeqCst);
                break;
            }
        }
    }
    if let Ok(mut counts) = shared.counts.lock() {
        counts.add_all(&bench.counts);
    }
}

/// Whether every number that can be met was met often enough, and no other was met.
fn enough(counts: &Counts, least: u64) -> ExitCode {
    if let Some((job, number)) = counts.impossible() {
        println!("{job} answered {number}, which it never may");
        return ExitCode::FAILURE;
    }
    if least == 0 {
        return ExitCode::SUCCESS;
    }
    let (job, number, met) = counts.rarest();
    println!("rarest: {number} of {job}, met {met} times");
    if met < least {
        println!("that is fewer than {least}");
        return ExitCode::FAILURE;
    }
    ExitCode::SUCCESS
}

fn what(outcome: Outcome) -> String {
    outcome.err().unwrap_or_else(|| String::from("nothing"))
}

fn run_list(source: &Source, bench: &mut Bench, number: u64) -> Outcome {
    bench.run(&source.maker.list(number))
}

fn report_list(source: &Source, bench: &mut Bench, number: u64) {
    let case = source.maker.list(number);
    println!("{}", what(bench.run(&case)));
    let small: ListCase = shrink(&case, TRIALS, |candidate| bench.run(candidate).is_err());
    println!("made small: {}", what(bench.run(&small)));
    print!("{}", show::list_case(&small));
}

fn run_single(source: &Source, bench: &mut Bench, number: u64) -> Outcome {
    let maker = &source.maker;
    maker.compile(number).guarded(bench)?;
    maker.check(number).guarded(bench)?;
    maker.merge(number).guarded(bench)?;
    maker.judge(number).guarded(bench)?;
    maker.name(number).guarded(bench)
}

fn report_single(source: &Source, bench: &mut Bench, number: u64) {
    let maker = &source.maker;
    let jobs = Jobs::library();
    small_single(bench, &maker.compile(number), |case| lines::compile_line(case, &jobs));
    small_single(bench, &maker.check(number), |case| lines::check_line(case, &jobs));
    small_single(bench, &maker.merge(number), |case| lines::merge_line(case, &jobs));
    small_single(bench, &maker.judge(number), |case| lines::judge_line(case, &jobs));
    small_single(bench, &maker.name(number), |case| lines::name_line(case, &jobs));
}

/// Prints a single case made small, if it fails.
fn small_single<C: Single + Smaller + Debug>(bench: &mut Bench, case: &C, line: impl Fn(&C) -> String) {
    let Err(first) = case.guarded(bench) else {
        return;
    };
    println!("{first}");
    let small = shrink(case, TRIALS, |candidate| candidate.guarded(bench).is_err());
    println!("made small: {}", what(small.guarded(bench)));
    println!("{small:?}\n{}", line(&small));
}

fn run_shape(source: &Source, bench: &mut Bench, number: u64) -> Outcome {
    shape_case(source.seed, number).guarded(bench)
}

fn report_shape(source: &Source, bench: &mut Bench, number: u64) {
    let case = shape_case(source.seed, number);
    println!("{}", what(case.guarded(bench)));
    let small: ShapeCase = shrink(&case, TRIALS, |candidate| candidate.guarded(bench).is_err());
    let (text, little, data) = small.parts();
    println!("made small: {}", what(small.guarded(bench)));
    println!("text {}\nlittle {little}\ndata {}", show::quoted(&text), show::quoted(&data));
}

fn run_leaf(source: &Source, bench: &mut Bench, number: u64) -> Outcome {
    leaf_case(source.seed, number).guarded(bench)
}

fn report_leaf(source: &Source, bench: &mut Bench, number: u64) {
    let case = leaf_case(source.seed, number);
    println!("{}", what(case.guarded(bench)));
    let small = shrink(&case, TRIALS, |candidate| candidate.guarded(bench).is_err());
    let (text, data) = small.parts();
    println!("made small: {}", what(small.guarded(bench)));
    println!("text {}\ndata {}", show::quoted(&text), show::quoted(&data));
}

fn make(options: &Options) -> ExitCode {
    let maker = Maker::new(options.seed);
    let jobs = Jobs::library();
    let line = |number: u64| match options.kind.as_str() {
        "compile" => Some(lines::compile_line(&maker.compile(number), &jobs)),
        "check" => Some(lines::check_line(&maker.check(number), &jobs)),
        "merge" => Some(lines::merge_line(&maker.merge(number), &jobs)),
        "judge" => Some(lines::judge_line(&maker.judge(number), &jobs)),
        "name" => Some(lines::name_line(&maker.name(number), &jobs)),
        _ => None,
    };
    let mut out = BufWriter::new(io::stdout().lock());
    for number in options.from..options.from.saturating_add(options.cases) {
        let Some(line) = line(number) else {
            eprintln!("cases: kind {} is unknown", options.kind);
            return ExitCode::from(2);
        };
        if writeln!(out, "{line}").is_err() {
            return ExitCode::FAILURE;
        }
    }
    if out.flush().is_err() {
        return ExitCode::FAILURE;
    }
    ExitCode::SUCCESS
}
