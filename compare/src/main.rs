//! Checks the program `lotplan` against a model written from the documents alone. See README.md.

mod cases;
mod costs;
mod feeds;
mod fixed;
#[cfg(feature = "library")]
mod foreign;
mod library;
mod lotwords;
mod make;
mod planner;
mod plans;
mod program;
mod rng;
mod runlib;
mod runner;
mod selftest;
mod tally;

use std::io::{Read, Write};
use std::path::Path;
use std::process::ExitCode;

use cases::{Kind, KINDS};
use library::Library;
use program::{answer, Mode};
use runlib::{LibraryKind, LIBRARY_KINDS};

const USAGE: &str = "usage:
  compare self-test
  compare run PROGRAM N SEED [KIND..]   (kinds: plain orders file replay wrong netted dated small; JOBS=2 for two threads)
  compare fixed PROGRAM                 (the fixed set, case by case)
  compare write FOLDER                  (the fixed set as FOLDER/stdin, the model's answers as FOLDER/stdout)
  compare tally N SEED [KIND..]         (what the model answers to these cases)
  compare answer [orders|file|replay CALLS] < INPUT";

fn main() -> ExitCode {
    let arguments: Vec<String> = std::env::args().skip(1).collect();
    let words: Vec<&str> = arguments.iter().map(String::as_str).collect();
    let result = match words.as_slice() {
        ["self-test"] => selftest::all().map(|()| println!("self-test: passed")),
        ["run", program, count, seed, kinds @ ..] => run(program, count, seed, kinds),
        ["fixed", program] => run_fixed(program),
        ["write", folder] => write_fixed(folder),
        ["tally", count, seed, kinds @ ..] => print_tally(count, seed, kinds),
        ["answer", mode @ ..] => return print_answer(mode),
        _ => Err(USAGE.to_string()),
    };
    match result {
        Ok(()) => ExitCode::SUCCESS,
        Err(text) => {
            eprintln!("{}", text.trim_end());
            ExitCode::FAILURE
        }
    }
}

fn number(word: &str) -> Result<u64, String> {
    word.parse().map_err(|_| format!("{word}: a number is due"))
}

/// A kind of cases, for the program or for the library.
#[derive(Clone, Copy)]
enum Any {
    Program(Kind),
    Library(LibraryKind),
}

impl Any {
    fn all() -> Vec<Any> {
        KINDS.into_iter().map(Any::Program).chain(LIBRARY_KINDS.into_iter().map(Any::Library)).collect()
    }

    fn name(self) -> &'static str {
        match self {
            Any::Program(kind) => kind.name(),
            Any::Library(kind) => kind.name(),
        }
    }
}

fn kinds_of(words: &[&str]) -> Result<Vec<Any>, String> {
    if words.is_empty() {
        return Ok(Any::all());
    }
    let named = |word: &&str| Any::all().into_iter().find(|kind| kind.name().split(' ').next() == Some(*word));
    words.iter().map(|word| named(word).ok_or(format!("{word}: no such kind"))).collect()
}

fn run(program: &str, count: &str, seed: &str, kinds: &[&str]) -> Result<(), String> {
    let (count, seed) = (number(count)?, number(seed)?);
    for kind in kinds_of(kinds)? {
        match kind {
            Any::Program(kind) => run_kind(program, kind, count, seed)?,
            Any::Library(kind) => run_library(kind, count, seed)?,
        }
    }
    Ok(())
}

fn run_kind(program: &str, kind: Kind, count: u64, seed: u64) -> Result<(), String> {
    let jobs = std::env::var("JOBS").ok().and_then(|jobs| jobs.parse().ok()).unwrap_or(1);
    let difference = runner::compare_kind(Path::new(program), kind, seed, count, jobs).map_err(|e| format!("{program}: {e}"))?;
    if let Some(difference) = difference {
        print!("{}", runner::show(&format!("{} of seed {seed}", kind.name()), &difference));
        return Err(format!("{}: a difference", kind.name()));
    }
    println!("{}: {count} cases, no difference", kind.name());
    Ok(())
}

/// The proved library, where it is linked.
#[cfg(feature = "library")]
fn proved() -> Option<&'static dyn Library> {
    Some(&foreign::Proved)
}

#[cfg(not(feature = "library"))]
fn proved() -> Option<&'static dyn Library> {
    None
}

fn run_library(kind: LibraryKind, count: u64, seed: u64) -> Result<(), String> {
    let Some(library) = proved() else {
        println!("{}: not compared, since the library is not linked", kind.name());
        return Ok(());
    };
    if let Err(difference) = runlib::compare(library, kind, seed, count) {
        print!("{difference}");
        return Err(format!("{}: a difference", kind.name()));
    }
    println!("{}: {} cases, no difference", kind.name(), kind.cases(count));
    Ok(())
}

fn run_fixed(program: &str) -> Result<(), String> {
    let cases = fixed::all();
    let count = cases.len();
    let difference = runner::compare_cases(Path::new(program), cases).map_err(|e| format!("{program}: {e}"))?;
    if let Some(difference) = difference {
        print!("{}", runner::show("fixed set", &difference));
        return Err("fixed set: a difference".to_string());
    }
    println!("fixed set: {count} cases, no difference");
    Ok(())
}

fn write_fixed(folder: &str) -> Result<(), String> {
    let cases = fixed::all();
    let (stdin, stdout) = fixed::framed(&cases);
    for (name, bytes) in [("stdin", &stdin), ("stdout", &stdout)] {
        let path = Path::new(folder).join(name);
        std::fs::write(&path, bytes).map_err(|e| format!("{}: {e}", path.display()))?;
    }
    println!("{} cases, {} bytes in, {} bytes out", cases.len(), stdin.len(), stdout.len());
    Ok(())
}

fn print_tally(count: &str, seed: &str, kinds: &[&str]) -> Result<(), String> {
    let (count, seed) = (number(count)?, number(seed)?);
    for kind in kinds_of(kinds)? {
        println!("{}:", kind.name());
        let tallied = match kind {
            Any::Program(kind) => tally::tally(kind, seed, count),
            Any::Library(kind) => runlib::tally(kind, seed, count),
        };
        for (sort, cases) in tallied {
            println!("  {sort}: in {cases}");
        }
    }
    Ok(())
}

/// Answers standard input as the program would, status and all.
fn print_answer(mode: &[&str]) -> ExitCode {
    let known = match mode {
        [] => Some(Mode::Plain),
        ["orders"] => Some(Mode::Orders),
        ["file"] => Some(Mode::File),
        ["replay", calls] if calls.chars().all(|c| c == 'r' || c == 't') => Some(Mode::Replay(calls.to_string())),
        _ => None,
    };
    let Some(mode) = known else {
        eprintln!("{USAGE}");
        return ExitCode::FAILURE;
    };
    let mut input = Vec::new();
    let read = std::io::stdin().read_to_end(&mut input);
    let printed = answer(&mode, &input);
    let written = std::io::stdout().write_all(&printed.stdout).and(std::io::stderr().write_all(&printed.stderr));
    match read.and(written) {
        Ok(()) => ExitCode::from(printed.status as u8),
        Err(_) => ExitCode::FAILURE,
    }
}
