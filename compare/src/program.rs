//! The program as a model: from arguments and input bytes to what is printed.

use crate::costs::{Charges, Constant};
use crate::feeds::{number_at, Feed, Orders, Text};
use crate::lotwords;
use crate::planner::{plan_forecast, total, Kind, Lot, Planner, ReadRefusal};

pub const INPUT_MOST: usize = 65_536;

#[derive(Clone, Debug, PartialEq, Eq)]
pub enum Mode {
    Plain,
    Orders,
    File,
    Replay(String),
    /// Arguments that the program does not know.
    Wrong(Vec<String>),
}

impl Mode {
    pub fn arguments(&self) -> Vec<String> {
        match self {
            Mode::Plain => Vec::new(),
            Mode::Orders => vec!["orders".into()],
            Mode::File => vec!["file".into()],
            Mode::Replay(calls) => vec!["replay".into(), calls.clone()],
            Mode::Wrong(arguments) => arguments.clone(),
        }
    }
}

#[derive(Clone, Debug, PartialEq, Eq)]
pub struct Printed {
    pub stdout: Vec<u8>,
    pub stderr: Vec<u8>,
    pub status: i32,
}

#[derive(Clone, Copy, Debug, PartialEq, Eq)]
pub struct Refusal {
    pub number: u32,
    pub place: usize,
}

impl Refusal {
    pub fn at_0(number: u32) -> Self {
        Refusal { number, place: 0 }
    }

    fn line(&self) -> String {
        format!("refused {} at {}\n", self.number, self.place)
    }
}

impl From<ReadRefusal> for Refusal {
    fn from(refusal: ReadRefusal) -> Self {
        match refusal {
            ReadRefusal::LotWaits => Refusal::at_0(18),
            ReadRefusal::WindowFull => Refusal::at_0(19),
            ReadRefusal::LimitReached => Refusal::at_0(20),
            ReadRefusal::FeedEnded => Refusal::at_0(21),
            ReadRefusal::FeedFault(fault) => Refusal { number: fault.number, place: fault.place },
        }
    }
}

/// The costs of the input's first line, and the bytes behind it.
fn split(input: &[u8]) -> Result<(Constant, &[u8]), Refusal> {
    if input.len() > INPUT_MOST {
        return Err(Refusal::at_0(27));
    }
    let (charges, behind) = cost_line(input).ok_or(Refusal::at_0(26))?;
    let costs = Constant::new(charges).map_err(Refusal::at_0)?;
    Ok((costs, &input[behind..]))
}

fn cost_line(input: &[u8]) -> Option<(Charges, usize)> {
    let (setup, at) = number_at(input, 0, 10, b',')?;
    let (unit, at) = number_at(input, at, 10, b',')?;
    let (holding, at) = number_at(input, at, 10, b'\n')?;
    Some((Charges { setup, unit, holding }, at))
}

/// The costs of an input's first line, where it has lawful ones.
pub fn costs_of(input: &[u8]) -> Option<Constant> {
    split(input).ok().map(|(costs, _)| costs)
}

fn opened(input: &[u8], feed: fn(&[u8]) -> Box<dyn Feed>) -> Result<Planner, Refusal> {
    let (costs, behind) = split(input)?;
    Ok(Planner::open(feed(behind), Box::new(costs)))
}

pub fn text(bytes: &[u8]) -> Box<dyn Feed> {
    Box::new(Text::new(bytes))
}

pub fn orders(bytes: &[u8]) -> Box<dyn Feed> {
    Box::new(Orders::new(bytes))
}

pub fn lot_line(lot: &Lot) -> String {
    let kind = match lot.kind {
        Kind::Frozen => "frozen",
        Kind::Closing => "closing",
    };
    format!("{kind} {} {} {} {} {}\n", lot.from, lot.through, lot.amount, lot.cost, lot.evidence)
}

fn report(input: &[u8], feed: fn(&[u8]) -> Box<dyn Feed>) -> String {
    let (lots, stop) = match opened(input, feed) {
        Ok(planner) => plan_forecast(planner),
        Err(refusal) => return refusal.line(),
    };
    let lines: String = lots.iter().map(lot_line).collect();
    let end = match stop {
        ReadRefusal::FeedEnded => format!("total {}\n", total(&lots)),
        other => Refusal::from(other).line(),
    };
    lines + &end
}

fn lot_file(input: &[u8]) -> Result<Vec<u8>, Refusal> {
    match plan_forecast(opened(input, text)?) {
        (lots, ReadRefusal::FeedEnded) => Ok(lotwords::file(&lots)),
        (_, other) => Err(other.into()),
    }
}

/// One line for each call, then the closing lots and the total.
pub fn replay(mut planner: Planner, calls: &str) -> String {
    let mut lots = Vec::new();
    let mut lines = String::new();
    for call in calls.chars() {
        let line = match call {
            'r' => match planner.read() {
                Ok(true) => "read yes\n".to_string(),
                Ok(false) => "read no\n".to_string(),
                Err(refusal) => Refusal::from(refusal).line(),
            },
            _ => match planner.take() {
                Ok(lot) => {
                    lots.push(lot);
                    lot_line(&lot)
                }
                Err(_) => Refusal::at_0(23).line(),
            },
        };
        lines.push_str(&line);
    }
    let least = planner.least();
    let closing = planner.close().all();
    lines.extend(closing.iter().map(lot_line));
    lots.extend(closing);
    assert_eq!(total(&lots), least, "all lots together are a cheapest plan");
    lines + &format!("total {}\n", total(&lots))
}

/// What the program must print. Of wrong arguments only the status is laid down, and that something is said.
pub fn answer(mode: &Mode, input: &[u8]) -> Printed {
    let printed = |text: String| Printed { stdout: text.into_bytes(), stderr: Vec::new(), status: 0 };
    match mode {
        Mode::Plain => printed(report(input, text)),
        Mode::Orders => printed(report(input, orders)),
        Mode::Replay(calls) => printed(match opened(input, text) {
            Ok(planner) => replay(planner, calls),
            Err(refusal) => refusal.line(),
        }),
        Mode::File => match lot_file(input) {
            Ok(bytes) => Printed { stdout: bytes, stderr: Vec::new(), status: 0 },
            Err(refusal) => Printed { stdout: Vec::new(), stderr: refusal.line().into_bytes(), status: 1 },
        },
        Mode::Wrong(_) => Printed { stdout: Vec::new(), stderr: Vec::new(), status: 1 },
    }
}
