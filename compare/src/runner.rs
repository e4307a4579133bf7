//! Runs the program on cases and holds what it prints against the model.

use std::io::Write;
use std::path::Path;
use std::process::{Child, Command, Stdio};
use std::sync::Mutex;

use crate::cases::{Case, Kind};
use crate::program::{answer, Mode, Printed};

/// Inputs above this size may fill the pipe, so they are written by a thread of their own.
const PIPE_TAKES: usize = 60_000;

pub struct Difference {
    pub index: u64,
    pub case: Case,
    pub expected: Printed,
    pub got: Printed,
}

fn feed(child: &mut Child, input: &[u8]) -> Option<std::thread::JoinHandle<()>> {
    let mut pipe = child.stdin.take().expect("standard input is piped");
    // A program that refuses a long input may leave the rest of it unread: then writing fails, rightly.
    if input.len() <= PIPE_TAKES {
        let _ = pipe.write_all(input);
        return None;
    }
    let input = input.to_vec();
    Some(std::thread::spawn(move || {
        let _ = pipe.write_all(&input);
    }))
}

pub fn run_program(program: &Path, case: &Case) -> std::io::Result<Printed> {
    let mut child = Command::new(program)
        .args(case.mode.arguments())
        .stdin(Stdio::piped())
        .stdout(Stdio::piped())
        .stderr(Stdio::piped())
        .spawn()?;
    let writer = feed(&mut child, &case.input);
    let output = child.wait_with_output()?;
    if let Some(writer) = writer {
        writer.join().expect("the writer ends");
    }
    // A program ended by a signal has no status of its own.
    Ok(Printed { stdout: output.stdout, stderr: output.stderr, status: output.status.code().unwrap_or(-1) })
}

fn agrees(mode: &Mode, expected: &Printed, got: &Printed) -> bool {
    match mode {
        // The words of the usage are not laid down.
        Mode::Wrong(_) => got.stdout.is_empty() && got.status == 1 && !got.stderr.is_empty() && !got.stderr.starts_with(b"refused"),
        _ => expected == got,
    }
}

/// Tells the first case that differs.
fn first_difference(program: &Path, cases: impl Iterator<Item = (u64, Case)>) -> std::io::Result<Option<Difference>> {
    for (index, case) in cases {
        let expected = answer(&case.mode, &case.input);
        let got = run_program(program, &case)?;
        if !agrees(&case.mode, &expected, &got) {
            return Ok(Some(Difference { index, case, expected, got }));
        }
    }
    Ok(None)
}

/// Compares given cases, one after the other.
pub fn compare_cases(program: &Path, cases: Vec<Case>) -> std::io::Result<Option<Difference>> {
    first_difference(program, (0..).zip(cases))
}

/// Compares `count` cases of a kind on `jobs` threads; tells the difference with the smallest index found.
pub fn compare_kind(program: &Path, kind: Kind, seed: u64, count: u64, jobs: u64) -> std::io::Result<Option<Difference>> {
    let found = Mutex::new(Vec::new());
    std::thread::scope(|scope| {
        for job in 0..jobs {
            let found = &found;
            let cases = (job..count).step_by(jobs as usize).map(move |index| (index, kind.case(seed, index)));
            scope.spawn(move || {
                let result = first_difference(program, cases);
                found.lock().expect("no thread panics here").push(result);
            });
        }
    });
    let mut first: Option<Difference> = None;
    for result in found.into_inner().expect("all threads ended") {
        let difference = result?;
        first = match (first, difference) {
            (Some(a), Some(b)) => Some(if a.index < b.index { a } else { b }),
            (a, b) => a.or(b),
        };
    }
    Ok(first)
}

/// Bytes so that they can be read: lines of text as they are, all else escaped.
fn shown(bytes: &[u8]) -> String {
    let escaped = bytes.split_inclusive(|&b| b == b'\n').map(|line| format!("    {}\n", line.escape_ascii()));
    escaped.collect()
}

fn shown_input(case: &Case) -> String {
    if case.mode != Mode::Orders {
        return shown(&case.input);
    }
    let behind = case.input.iter().position(|&b| b == b'\n').map_or(0, |at| at + 1);
    let (line, words) = case.input.split_at(behind);
    let hex: String = words.chunks(4).map(|w| format!("    {}\n", w.iter().map(|b| format!("{b:02X} ")).collect::<String>())).collect();
    shown(line) + &hex
}

fn shown_answer(name: &str, printed: &Printed) -> String {
    format!("{name}: status {}\n  standard output:\n{}  standard error:\n{}", printed.status, shown(&printed.stdout), shown(&printed.stderr))
}

pub fn show(set: &str, difference: &Difference) -> String {
    let Difference { index, case, expected, got } = difference;
    format!(
        "difference: {set}, case {index}, arguments {:?}\ninput, {} bytes:\n{}{}{}",
        case.mode.arguments(),
        case.input.len(),
        shown_input(case),
        shown_answer("expected", expected),
        shown_answer("got", got)
    )
}
