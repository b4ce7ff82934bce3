// Compares the proved engine, through its C boundary, with an engine written apart from it, in plain Rust, after docs/ alone.
//
//     compare [cases | inputs | lives | traces | all] [--seed N] [--inputs N] [--lives N] [--goals N] [--operators N]
//             [--threads N] [--from N]
//     compare speed | stack | counts
//     compare once ENGINE FORM CALL less|whole

mod cases;
mod coverage;
mod difference;
mod expression;
mod generate;
mod host;
mod inputs;
mod judging;
mod lives;
mod proved;
mod random;
mod run;
mod small;
mod speed;
mod traces;

use std::process::ExitCode;
use std::sync::atomic::{AtomicBool, AtomicU64, Ordering};
use std::time::Instant;

use coverage::Coverage;
use difference::Difference;
use lives::Rooms;
use small::{Compared, Family};

// The stack of each thread: both engines walk forms by recursion.
const STACK: usize = 256 << 20;
// So many cases are taken at once.
const BATCH: u64 = 32;

#[derive(Clone)]
struct Settings {
    mode: String,
    seed: u64,
    inputs: u64,
    lives: u64,
    goals: u64,
    operators: u64,
    threads: u64,
    // The first case.
    from: u64,
}

fn settings() -> Result<Settings, String> {
    let mut settings =
        Settings { mode: "all".into(), seed: 20_261_126, inputs: 1_000_000, lives: 1_000_000, goals: 2_000, operators: 2, threads: 2, from: 0 };
    let mut arguments = std::env::args().skip(1);
    while let Some(word) = arguments.next() {
        let Some(name) = word.strip_prefix("--") else {
            settings.mode = word;
            continue;
        };
        let value = arguments.next().ok_or(format!("--{name} needs a number"))?;
        let number = value.parse().map_err(|_| format!("not a number: {value}"))?;
        match name {
            "seed" => settings.seed = number,
            "inputs" => settings.inputs = number,
            "lives" => settings.lives = number,
            "goals" => settings.goals = number,
            "operators" => settings.operators = number,
            "threads" => settings.threads = number.max(1),
            "from" => settings.from = number,
            _ => return Err(format!("unknown: --{name}")),
        }
    }
    Ok(settings)
}

// Runs the cases on all threads, up to the first difference.
fn over_cases<T: Default + Send>(
    settings: &Settings,
    count: u64,
    case: impl Fn(u64, &mut Rooms, &mut T) -> Result<(), Difference> + Sync,
    mut gathered: impl FnMut(T),
) -> Result<(), Difference> {
    let taken = AtomicU64::new(settings.from);
    let end = settings.from + count;
    let stopped = AtomicBool::new(false);
    let work = || {
        let (mut met, mut rooms) = (T::default(), Rooms::new());
        while !stopped.load(Ordering::Relaxed) {
            let first = taken.fetch_add(BATCH, Ordering::Relaxed);
            if first >= end {
                break;
            }
            for number in first..end.min(first + BATCH) {
                if let Err(difference) = case(number, &mut rooms, &mut met) {
                    stopped.store(true, Ordering::Relaxed);
                    return (met, Some(difference));
                }
            }
        }
        (met, None)
    };
    let results: Vec<(T, Option<Difference>)> = std::thread::scope(|scope| {
        let spawned: Vec<_> = (0..settings.threads)
            .map(|_| std::thread::Builder::new().stack_size(STACK).spawn_scoped(scope, work).expect("a thread can be begun"))
            .collect();
        spawned.into_iter().map(|thread| thread.join().expect("a thread ends by itself")).collect()
    });
    let mut found = None;
    for (met, difference) in results {
        gathered(met);
        found = found.or(difference);
    }
    found.map_or(Ok(()), Err)
}

fn covered(settings: &Settings, count: u64, case: impl Fn(u64, &mut Rooms, &mut Coverage) -> Result<(), Difference> + Sync) -> (Coverage, Result<(), Difference>) {
    let mut coverage = Coverage::default();
    let result = over_cases(settings, count, case, |met: Coverage| coverage.add(&met));
    (coverage, result)
}

fn run(settings: &Settings) -> Result<bool, Difference> {
    let all = settings.mode == "all";
    let mut complete = true;
    // Only a long run is held to reach everything.
    let mut miss = |count: u64, missing: Vec<String>| {
        if count >= 200_000 && !missing.is_empty() {
            println!("  never met: {}", missing.join(", "));
            complete = false;
        }
    };
    if all || settings.mode == "cases" {
        let result = apart(|| cases::run(&mut Rooms::new()));
        println!("cases: {} of {0}, no difference", result?);
    }
    if all || settings.mode == "inputs" {
        let begun = Instant::now();
        let (coverage, result) = covered(settings, settings.inputs, |case, _, met| inputs::input(settings.seed, case, met));
        println!("inputs: {} pairs of a file and a sheet, seed {}, {:.1} s", coverage.inputs, settings.seed, begun.elapsed().as_secs_f64());
        coverage.print_inputs();
        result?;
        miss(settings.inputs, coverage.missing_inputs());
    }
    if all || settings.mode == "lives" {
        let begun = Instant::now();
        let (coverage, result) = covered(settings, settings.lives, |case, rooms, met| lives::life(settings.seed, case, rooms, met));
        println!("lives: {}, seed {}, {:.1} s", coverage.lives, settings.seed, begun.elapsed().as_secs_f64());
        coverage.print_lives();
        result?;
        miss(settings.lives, coverage.missing_lives());
    }
    if all || settings.mode == "traces" {
        let begun = Instant::now();
        let family = Family::new(settings.operators as usize);
        let mut compared = Compared::default();
        let from = Settings { from: 0, ..settings.clone() };
        let result = over_cases(&from, family.len(), |case, rooms, met| family.one(case, rooms, met), |met: Compared| compared.add(&met));
        println!("traces: all goals of up to {} operators, {:.1} s", settings.operators, begun.elapsed().as_secs_f64());
        compared.print();
        result?;
        let begun = Instant::now();
        let mut compared = Compared::default();
        let result = over_cases(settings, settings.goals, |case, rooms, met| small::random(settings.seed, case, rooms, met), |met: Compared| compared.add(&met));
        println!("traces: {} random goals, seed {}, {:.1} s", settings.goals, settings.seed, begun.elapsed().as_secs_f64());
        compared.print();
        result?;
    }
    Ok(complete)
}

// Does the work on a thread with a large stack.
fn apart<T: Send>(work: impl FnOnce() -> T + Send) -> T {
    std::thread::scope(|scope| {
        let thread = std::thread::Builder::new().stack_size(STACK).spawn_scoped(scope, work).expect("a thread can be begun");
        thread.join().expect("a thread ends by itself")
    })
}

fn main() -> ExitCode {
    let words: Vec<String> = std::env::args().skip(1).collect();
    let measured = match words.first().map(String::as_str) {
        Some("speed") => Some(apart(|| Ok(speed::table()))),
        Some("stack") => Some(apart(|| Ok(speed::stacks()))),
        Some("counts") => Some(apart(|| Ok(speed::counts()))),
        Some("once") => Some(apart(|| speed::once(&words[1..]))),
        _ => None,
    };
    if let Some(result) = measured {
        return match result {
            Ok(()) => ExitCode::SUCCESS,
            Err::<(), String>(message) => {
                eprintln!("{message}");
                ExitCode::from(2)
            }
        };
    }
    let settings = match settings() {
        Ok(settings) => settings,
        Err(message) => {
            eprintln!("{message}");
            return ExitCode::from(2);
        }
    };
    match run(&settings) {
        Ok(true) => {
            println!("no difference");
            ExitCode::SUCCESS
        }
        Ok(false) => {
            println!("no difference, but not everything was reached");
            ExitCode::FAILURE
        }
        Err(difference) => {
            println!("{difference}");
            ExitCode::FAILURE
        }
    }
}
