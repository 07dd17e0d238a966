//! A plain player of circuits, which tests the programs `compile` and `compare` from outside. It
//! reads jobs and texts by itself, plays all amplitudes exactly, and shares nothing with the
//! programs under test but the documents that say what they do.

mod case;
mod cases_bad;
mod cases_compare;
mod cases_compile;
mod cases_facts;
mod cases_hostile;
mod cases_state;
mod circuit;
mod device;
mod drive;
mod expect;
mod job;
mod judge;
mod random;
mod reader;
mod rewrite;
mod ring;
mod write;

use case::{Case, Place};
use random::Random;
use std::process::ExitCode;
use std::time::Instant;

const USAGE: &str = "usage: player [--seed N] [--cases N] [--bin DIR] [--no-state] [--kinds KIND,..] [--replay FILE]";

/// Where failing cases are kept.
const KEPT: &str = "target/player";

/// What the command line asks for.
struct Options {
    seed: u64,
    /// How many random cases there are.
    cases: usize,
    programs: String,
    with_state: bool,
    /// The kinds of cases to run; all of them if none is named.
    kinds: Vec<String>,
    replay: Option<String>,
}

impl Options {
    fn read(mut arguments: impl Iterator<Item = String>) -> Option<Self> {
        let mut options = Self {
            seed: 1,
            cases: 4000,
            programs: "target/bin".to_owned(),
            with_state: true,
            kinds: Vec::new(),
            replay: None,
        };
        while let Some(argument) = arguments.next() {
            match argument.as_str() {
                "--seed" => options.seed = arguments.next()?.parse().ok()?,
                "--cases" => options.cases = arguments.next()?.parse().ok()?,
                "--bin" => options.programs = arguments.next()?,
                "--no-state" => options.with_state = false,
                "--kinds" => {
                    options.kinds = arguments.next()?.split(',').map(str::to_owned).collect();
                }
                "--replay" => options.replay = Some(arguments.next()?),
                _ => return None,
            }
        }
        Some(options)
    }

    /// The cases, by name. Each kind has its own random numbers, so that it does not depend on the
    /// others.
    fn all_cases(&self) -> Vec<(&'static str, Vec<Case>)> {
        let share = |parts: usize| self.cases * parts / 10;
        let numbers = |kind: u64| Random::new(self.seed.wrapping_mul(16).wrapping_add(kind));
        let states = if self.with_state { share(1) } else { 0 };
        vec![
            ("facts", cases_facts::cases()),
            ("compile", cases_compile::cases(&mut numbers(0), share(4))),
            ("compare", cases_compare::cases(&mut numbers(1), share(3))),
            ("state", cases_state::cases(&mut numbers(2), states)),
            (
                "bad input",
                cases_bad::cases(&mut numbers(3), share(2), self.with_state),
            ),
            (
                "hostile input",
                cases_hostile::cases(&mut numbers(4), self.with_state),
            ),
        ]
    }
}

/// Runs cases and counts how they end.
struct Runner {
    place: Place,
    passed: usize,
    failed: usize,
}

impl Runner {
    /// Runs a case; if it fails, tells how, and keeps it.
    fn run(&mut self, case: &Case) {
        let Err((wrong, outcome)) = case.check(&self.place) else {
            self.passed += 1;
            return;
        };
        self.failed += 1;
        let file = format!("{KEPT}/case-{}.job", self.passed + self.failed);
        println!("failed, kept in {file}: {case}\ngot: {outcome}\n{wrong}");
        if let Err(error) = std::fs::write(&file, case.kept()) {
            println!("player: {file}: {error}");
        }
    }

    fn run_all(&mut self, kinds: &[(&str, Vec<Case>)]) {
        for (name, cases) in kinds {
            let (begun, failed) = (Instant::now(), self.failed);
            for case in cases {
                self.run(case);
            }
            let failed = self.failed - failed;
            let seconds = begun.elapsed().as_secs_f32();
            println!(
                "{name}: {} cases, {failed} failed, {seconds:.1} s",
                cases.len()
            );
        }
    }
}

/// The cases that the options ask for.
fn chosen(options: &Options) -> Result<Vec<(&'static str, Vec<Case>)>, String> {
    let Some(file) = &options.replay else {
        let mut kinds = options.all_cases();
        if !options.kinds.is_empty() {
            kinds.retain(|(name, _)| options.kinds.iter().any(|kind| kind == name));
        }
        return Ok(kinds);
    };
    let kept = std::fs::read(file).map_err(|error| format!("{file}: {error}"))?;
    let case = Case::from_kept(&kept).ok_or_else(|| format!("{file}: no case"))?;
    Ok(vec![("replay", vec![case])])
}

fn main() -> ExitCode {
    let Some(options) = Options::read(std::env::args().skip(1)) else {
        eprintln!("{USAGE}");
        return ExitCode::FAILURE;
    };
    let ready = chosen(&options).and_then(|kinds| {
        std::fs::create_dir_all(KEPT).map_err(|error| format!("{KEPT}: {error}"))?;
        Ok(kinds)
    });
    let kinds = match ready {
        Ok(kinds) => kinds,
        Err(error) => {
            eprintln!("player: {error}");
            return ExitCode::FAILURE;
        }
    };
    let file = format!("{KEPT}/text-{}", std::process::id());
    let place = Place {
        programs: options.programs,
        file: file.clone(),
    };
    let mut runner = Runner {
        place,
        passed: 0,
        failed: 0,
    };
    runner.run_all(&kinds);
    // There is no such file if no case needed one.
    std::fs::remove_file(file).unwrap_or(());
    println!("player: {} passed, {} failed", runner.passed, runner.failed);
    if runner.failed == 0 {
        ExitCode::SUCCESS
    } else {
        ExitCode::FAILURE
    }
}
