//! Holds a program against the model, byte for byte.
//!
//! compare --program 'CMD ARGS..' [--seed S] [--count N] [--only INDEX] [--limit SECONDS]
//!
//! With --batch in place of --program one process answers all inputs.

mod batch;
mod coordinates;
mod inputs;
mod random;
mod run;
mod shapes;
mod spoiled;
mod stock;
mod text;

use batch::Batch;
use std::collections::BTreeMap;
use std::path::{Path, PathBuf};
use std::process::ExitCode;
use std::time::Duration;

const USAGE: &str =
    "usage: compare --program|--batch 'CMD ARGS..' [--seed S] [--count N] [--only INDEX] [--limit SECONDS]";

struct Options {
    program: Vec<String>,
    batch: bool,
    seed: u64,
    count: u64,
    only: Option<u64>,
    limit: Duration,
}

fn options() -> Option<Options> {
    let mut options = Options {
        program: vec![],
        batch: false,
        seed: 1,
        count: 300,
        only: None,
        limit: Duration::from_secs(60),
    };
    let mut arguments = std::env::args().skip(1);
    while let Some(name) = arguments.next() {
        let value = arguments.next()?;
        match name.as_str() {
            "--program" | "--batch" => {
                options.program = value.split_whitespace().map(String::from).collect();
                options.batch = name == "--batch";
            }
            "--seed" => options.seed = value.parse().ok()?,
            "--count" => options.count = value.parse().ok()?,
            "--only" => options.only = Some(value.parse().ok()?),
            "--limit" => options.limit = Duration::from_secs(value.parse().ok()?),
            _ => return None,
        }
    }
    (!options.program.is_empty()).then_some(options)
}

/// The program's output for one input, from a process of its own, which must end well.
fn output_of(options: &Options, file: &Path) -> Result<Vec<u8>, String> {
    let left = run::run(&options.program, file, options.limit)
        .map_err(|e| format!("{}: {e}", options.program[0]))?;
    match left.status {
        Some(0) if left.errors.is_empty() => Ok(left.output),
        Some(0) => {
            let errors = String::from_utf8_lossy(&left.errors).into_owned();
            Err(format!("standard error is not empty: {errors}"))
        }
        Some(status) => Err(format!("exit status {status}")),
        None => Err("ended by a signal, or no end in time".to_string()),
    }
}

/// Runs one input; the model's refusal number (0: accepted), or what differs.
fn compare(
    options: &Options,
    batch: &mut Option<Batch>,
    index: u64,
    file: &Path,
) -> Result<u32, String> {
    let input = inputs::input(options.seed, index);
    std::fs::write(file, &input).map_err(|e| format!("{}: {e}", file.display()))?;
    let expected = model::program(&input);
    let output = match batch {
        Some(batch) => batch.answer(&input).map_err(|e| e.to_string())?,
        None => output_of(options, file)?,
    };
    if output != expected.output {
        return Err(first_difference(&output, &expected.output));
    }
    Ok(expected.answer.map_or_else(|refusal| refusal.number, |_| 0))
}

fn first_difference(found: &[u8], expected: &[u8]) -> String {
    let lines = |bytes: &[u8]| -> Vec<String> {
        let text = String::from_utf8_lossy(bytes).into_owned();
        text.split_inclusive('\n').map(String::from).collect()
    };
    let (found, expected) = (lines(found), lines(expected));
    let same = found
        .iter()
        .zip(&expected)
        .take_while(|(a, b)| a == b)
        .count();
    let line = |of: &[String]| of.get(same).cloned().unwrap_or_default();
    let number = same + 1;
    format!(
        "line {number}: program {:?}, model {:?}",
        line(&found),
        line(&expected)
    )
}

/// Leaves the input of a difference in the current directory.
fn report(options: &Options, index: u64, file: &Path, difference: &str) {
    let kept = PathBuf::from(format!("compare-{}-{index}.txt", options.seed));
    println!(
        "difference: seed {} index {index}: {difference}",
        options.seed
    );
    match std::fs::copy(file, &kept) {
        Ok(_) => println!("input kept in {}", kept.display()),
        Err(error) => println!("input not kept: {error}"),
    }
}

fn summary(numbers: &BTreeMap<u32, u64>) -> String {
    let inputs: u64 = numbers.values().sum();
    let accepted = numbers.get(&0).copied().unwrap_or(0);
    let refused = numbers.iter().filter(|(number, _)| **number != 0);
    let refused: Vec<String> = refused
        .map(|(number, times)| format!("{number}: {times}"))
        .collect();
    let refused = refused.join(", ");
    format!("compared {inputs} inputs: {accepted} accepted, refusals by number {refused}: no difference")
}

fn main() -> ExitCode {
    let Some(options) = options() else {
        eprintln!("{USAGE}");
        return ExitCode::from(2);
    };
    let started = options.batch.then(|| Batch::start(&options.program));
    let Ok(batch) = started.transpose() else {
        eprintln!("{} does not start", options.program[0]);
        return ExitCode::from(2);
    };
    compare_all(&options, batch)
}

fn compare_all(options: &Options, mut batch: Option<Batch>) -> ExitCode {
    let indexes = match options.only {
        Some(index) => index..index + 1,
        None => 0..options.count,
    };
    let file = std::env::temp_dir().join(format!("compare-{}.txt", std::process::id()));
    let mut numbers = BTreeMap::new();
    for index in indexes {
        match compare(options, &mut batch, index, &file) {
            Ok(number) => *numbers.entry(number).or_insert(0) += 1,
            Err(difference) => {
                report(options, index, &file, &difference);
                let _ = std::fs::remove_file(&file);
                return ExitCode::FAILURE;
            }
        }
        if (index + 1) % 1000 == 0 {
            eprintln!("{} inputs", index + 1);
        }
    }
    let _ = std::fs::remove_file(&file);
    println!("{}", summary(&numbers));
    ExitCode::SUCCESS
}
