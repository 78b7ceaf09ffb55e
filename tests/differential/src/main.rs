//! Holds the library for C against an independent model of the documents' rules, on random sequences of calls. See README.md.

mod alarm;
mod cases;
mod console;
mod counts;
mod generate;
mod memory;
mod model;
mod pair;
mod plain;
mod random;
mod shrink;
mod step;

use counts::Counts;
use generate::Generator;
use model::{Model, Rule};
use pair::Pair;
use std::path::PathBuf;
use std::process::ExitCode;
use std::time::{Duration, Instant};
use step::Step;

const USAGE: &str = "usage: differential [--sequences N] [--seed N] [--exact]
       differential --sequence SEED     repeat one sequence and show its steps
       differential --wrong-models      the driver has to find every wrong model
       differential --console PROGRAM CRATE   the console program, and its crate's stdin and stdout, against the model
       differential --soak [HOURS]      run for hours (8), from a seed of the clock unless --seed is given
--exact lends blocks of exactly the lent lengths, for valgrind.";

/// A difference, and the steps that lead to it.
struct Found {
    seed: u64,
    steps: Vec<Step>,
    what: String,
}

/// Runs the sequence of a seed to its end or to the first difference.
fn sequence(seed: u64, broken: Option<Rule>, exact: bool, counts: &mut Counts) -> Result<(), Found> {
    alarm::set(seed);
    counts.begin_sequence();
    let mut pair = Pair::new(Model::new(broken), exact);
    let mut generator = Generator::new(seed);
    let mut steps = Vec::new();
    while let Some(step) = generator.next(&pair) {
        let result = pair.step(&step, counts);
        steps.push(step);
        if let Err(what) = result {
            return Err(Found { seed, steps, what });
        }
    }
    Ok(())
}

/// Repeats a sequence and shows each step before it is done.
fn repeat(seed: u64, exact: bool) -> Result<(), Found> {
    alarm::set(seed);
    let mut counts = Counts::new();
    let mut pair = Pair::new(Model::new(None), exact);
    let mut generator = Generator::new(seed);
    let mut steps = Vec::new();
    while let Some(step) = generator.next(&pair) {
        println!("{:>4}  {step}", steps.len() + 1);
        let result = pair.step(&step, &mut counts);
        let ran = matches!(step, Step::Run { .. });
        steps.push(step);
        match result {
            Err(what) => return Err(Found { seed, steps, what }),
            Ok(Some(answered)) => println!("      answer {}, value {}", answered.answer, answered.value),
            Ok(None) => {}
        }
        if ran {
            for executed in &pair.model.executed {
                println!("      executed {}", executed.command);
            }
        }
    }
    Ok(())
}

fn report(found: &Found) {
    println!("sequence {}, step {}: {}", found.seed, found.steps.len(), found.what);
    println!("the steps:");
    show(&found.steps);
    let (fewer, what) = shrink::shortened(&found.steps);
    println!("fewer steps that differ too: {what}");
    show(&fewer);
    println!("repeat it with --sequence {}", found.seed);
    println!("failed: sequence {}, step {}: {}", found.seed, found.steps.len(), found.what);
}

fn show(steps: &[Step]) {
    for (place, step) in steps.iter().enumerate() {
        println!("{:>4}  {step}", place + 1);
    }
}

/// Sequences from a seed on; the counts are required where there are enough sequences.
fn gate(seed: u64, sequences: u64, exact: bool) -> bool {
    let began = Instant::now();
    if !cases::hold(exact) || !plain::hold() {
        return false;
    }
    let mut counts = Counts::new();
    for number in 0..sequences {
        if let Err(found) = sequence(seed + number, None, exact, &mut counts) {
            report(&found);
            return false;
        }
    }
    counts.print();
    let seconds = began.elapsed().as_secs_f64();
    let good = sequences < counts::SEQUENCES || required(&counts);
    if good {
        println!("passed: 1 run of {sequences} sequences: no difference, seeds {seed} to {}, {seconds:.1} s", seed + sequences.max(1) - 1);
    }
    good
}

fn required(counts: &Counts) -> bool {
    let short = counts.shortfalls();
    for line in &short {
        println!("failed: {line}");
    }
    short.is_empty()
}

/// Each wrong model has to be found within the sequences of a gate.
fn wrong_models(seed: u64, sequences: u64) -> bool {
    let began = Instant::now();
    let mut missed = 0;
    println!("wrong models, and the sequences that each needed:");
    for &rule in Rule::ALL {
        let mut counts = Counts::new();
        let found = (0..sequences).find_map(|number| sequence(seed + number, Some(rule), false, &mut counts).err());
        match found {
            Some(found) => println!("  {:>5}  {}", found.seed - seed + 1, rule.text()),
            None => {
                println!("failed: wrong model not found in {sequences} sequences: {}", rule.text());
                missed += 1;
            }
        }
    }
    let seconds = began.elapsed().as_secs_f64();
    println!("passed: {} wrong models of {} found, {seconds:.1} s", Rule::ALL.len() - missed, Rule::ALL.len());
    missed == 0
}

fn soak(seed: u64, hours: f64) -> bool {
    let (began, whole) = (Instant::now(), Duration::from_secs_f64(hours * 3600.0));
    let mut counts = Counts::new();
    let mut shown = Instant::now();
    println!("soak of {hours} h from seed {seed}");
    while began.elapsed() < whole {
        if let Err(found) = sequence(seed + counts.sequences, None, false, &mut counts) {
            report(&found);
            return false;
        }
        if shown.elapsed() >= Duration::from_secs(30) {
            shown = Instant::now();
            let seconds = began.elapsed().as_secs_f64();
            let left = whole.saturating_sub(began.elapsed()).as_secs();
            println!(
                "{} sequences, {} calls, {:.0} sequences/s, {}:{:02} h left, no difference",
                counts.sequences,
                counts.calls,
                counts.sequences as f64 / seconds,
                left / 3600,
                left % 3600 / 60
            );
        }
    }
    counts.print();
    println!("no difference, seeds {seed} to {}", seed + counts.sequences.max(1) - 1);
    counts.sequences < counts::SEQUENCES || required(&counts)
}

struct Options {
    seed: Option<u64>,
    sequences: u64,
    exact: bool,
    sequence: Option<u64>,
    wrong_models: bool,
    console: Option<(PathBuf, PathBuf)>,
    soak: Option<f64>,
}

fn options() -> Option<Options> {
    let mut options =
        Options { seed: None, sequences: counts::SEQUENCES, exact: false, sequence: None, wrong_models: false, console: None, soak: None };
    let mut arguments = std::env::args().skip(1).peekable();
    while let Some(argument) = arguments.next() {
        match argument.as_str() {
            "--seed" => options.seed = Some(arguments.next()?.parse().ok()?),
            "--sequences" => options.sequences = arguments.next()?.parse().ok()?,
            "--sequence" => options.sequence = Some(arguments.next()?.parse().ok()?),
            "--exact" => options.exact = true,
            "--wrong-models" => options.wrong_models = true,
            "--console" => options.console = Some((arguments.next()?.into(), arguments.next()?.into())),
            "--soak" => {
                let hours = arguments.next_if(|next| !next.starts_with("--"));
                options.soak = Some(hours.map_or(Some(8.0), |hours| hours.parse().ok())?);
            }
            _ => return None,
        }
    }
    Some(options)
}

fn main() -> ExitCode {
    let Some(options) = options() else {
        eprintln!("{USAGE}");
        return ExitCode::from(2);
    };
    alarm::install();
    let seed = options.seed.unwrap_or(1);
    let good = if let Some(seed) = options.sequence {
        match repeat(seed, options.exact) {
            Ok(()) => {
                println!("no difference");
                true
            }
            Err(found) => {
                report(&found);
                false
            }
        }
    } else if let Some((program, folder)) = options.console {
        console::hold(&program, &folder, seed).unwrap_or_else(|error| {
            println!("failed: the console: {error}");
            false
        })
    } else if options.wrong_models {
        wrong_models(seed, options.sequences)
    } else if let Some(hours) = options.soak {
        let clock = std::time::SystemTime::now().duration_since(std::time::UNIX_EPOCH).map_or(1, |time| time.as_secs());
        soak(options.seed.unwrap_or(clock << 20), hours)
    } else {
        gate(seed, options.sequences, options.exact)
    };
    if good {
        ExitCode::SUCCESS
    } else {
        ExitCode::FAILURE
    }
}
