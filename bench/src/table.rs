//! The cases, their timing and the table.
use std::hint::black_box;
use std::time::Duration;

use crate::by_hand::{self, Method};
use crate::clock;
use crate::feeds::Refusal;
use crate::inputs::{cost_bytes, cost_lines, demand_bytes, netting_bytes, Format, Input, Random};
use crate::proved;

/// How soon lots are proved.
#[derive(Clone, Copy, PartialEq, Eq)]
enum Window {
    /// Demands differ so much that a lot is proved a few periods after its end.
    Short,
    /// Even demands leave open how they are split into lots, until a large one every so many periods settles it.
    Settled(u32),
}

/// What an input is made from.
#[derive(Clone, Copy)]
struct Case {
    window: Window,
    lines: u32,
    format: Format,
    depth: usize,
    periods: u32,
}

impl Case {
    fn name(&self) -> String {
        let window = match self.window {
            Window::Short => "short".to_string(),
            Window::Settled(every) => format!("{every}"),
        };
        let format = match self.format {
            Format::Text => "text",
            Format::Orders => "orders",
        };
        format!(
            "| {window} | {} | {format} | {} | {} |",
            self.lines, self.depth, self.periods
        )
    }

    fn input(&self) -> Input {
        let mut random = Random::new(7 + u64::from(self.lines) + self.depth as u64);
        let (demands, setup) = match self.window {
            Window::Short => (
                (0..self.periods)
                    .map(|_| 100 + random.below(900) as u32)
                    .collect(),
                2_000,
            ),
            Window::Settled(every) => (
                (1..=self.periods)
                    .map(|t| if t % every == 0 { 100_000 } else { 500 })
                    .collect::<Vec<_>>(),
                30_000,
            ),
        };
        let vary = self.window == Window::Short;
        Input {
            costs: cost_bytes(&cost_lines(
                self.lines,
                self.periods,
                setup,
                3,
                vary,
                &mut random,
            )),
            netting: netting_bytes(self.depth, self.periods, &mut random),
            demands: demand_bytes(self.format, &demands, &mut random),
            format: self.format,
        }
    }
}

fn cases() -> Vec<Case> {
    let mut cases = Vec::new();
    for periods in [500, 9_999] {
        for window in [Window::Short, Window::Settled(80), Window::Settled(240)] {
            for lines in [1, 64] {
                for format in [Format::Text, Format::Orders] {
                    cases.push(Case {
                        window,
                        lines,
                        format,
                        depth: 0,
                        periods,
                    });
                }
            }
        }
        for window in [Window::Short, Window::Settled(240)] {
            for depth in [1, 2, 3] {
                cases.push(Case {
                    window,
                    lines: 1,
                    format: Format::Text,
                    depth,
                    periods,
                });
            }
        }
    }
    cases
}

/// How time grows with the periods, with the window and with the cost lines.
fn growth() -> Vec<Case> {
    let base = Case {
        window: Window::Short,
        lines: 1,
        format: Format::Text,
        depth: 0,
        periods: 2_400,
    };
    let mut cases = Vec::new();
    for periods in [600, 1_200, 2_400, 4_800, 9_600] {
        cases.push(Case { periods, ..base });
        cases.push(Case {
            periods,
            window: Window::Settled(240),
            ..base
        });
    }
    for every in [15, 30, 60, 120, 240] {
        cases.push(Case {
            window: Window::Settled(every),
            ..base
        });
    }
    for lines in [1, 2, 4, 8, 16, 32, 64] {
        cases.push(Case {
            lines,
            format: Format::Orders,
            window: Window::Settled(60),
            ..base
        });
    }
    cases
}

fn by_library(input: &Input, out: &mut [u8]) -> Result<usize, Refusal> {
    match input.format {
        Format::Text => proved::plan_text(&input.costs, &input.netting, &input.demands, out),
        Format::Orders => proved::plan_orders(&input.costs, &input.netting, &input.demands, out),
    }
}

fn in_rust(method: Method, input: &Input, out: &mut [u8]) -> Result<by_hand::Planned, Refusal> {
    match input.format {
        Format::Text => {
            by_hand::plan_text(method, &input.costs, &input.netting, &input.demands, out)
        }
        Format::Orders => {
            by_hand::plan_orders(method, &input.costs, &input.netting, &input.demands, out)
        }
    }
}

/// How many calls take about two milliseconds.
fn calls_in_a_round(call: &mut impl FnMut()) -> u32 {
    let begin = clock::now();
    call();
    let once = (clock::now() - begin).max(Duration::from_nanos(100));
    (2_000_000 / once.as_nanos()).clamp(1, 1000) as u32
}

fn round(calls: u32, call: &mut impl FnMut()) -> Duration {
    let begin = clock::now();
    for _ in 0..calls {
        call();
    }
    (clock::now() - begin) / calls
}

fn median<T: PartialOrd + Copy>(mut values: Vec<T>) -> T {
    values.sort_by(|a, b| a.partial_cmp(b).unwrap());
    values[values.len() / 2]
}

/// The median processor time of a call of each, and the median of their ratio, measured in turns.
fn side_by_side(mut first: impl FnMut(), mut second: impl FnMut()) -> (Duration, Duration, f64) {
    let (calls_first, calls_second) = (calls_in_a_round(&mut first), calls_in_a_round(&mut second));
    let rounds: Vec<_> = (0..ROUNDS)
        .map(|_| {
            (
                round(calls_first, &mut first),
                round(calls_second, &mut second),
            )
        })
        .collect();
    (
        median(rounds.iter().map(|r| r.0).collect()),
        median(rounds.iter().map(|r| r.1).collect()),
        median(
            rounds
                .iter()
                .map(|r| r.0.as_secs_f64() / r.1.as_secs_f64())
                .collect(),
        ),
    )
}

const ROUNDS: usize = 21;
const ROOM: usize = 24 * 10_000 + 4;

/// Runs both planners on the input, and sees that they answer the same; the most periods beyond the base, or the refusal.
fn compare(input: &Input) -> Result<usize, Refusal> {
    let mut library = vec![0; ROOM];
    let mut rust = vec![0; ROOM];
    let told = by_library(input, &mut library);
    let planned = in_rust(Method::Rolling, input, &mut rust);
    assert_eq!(told, planned.as_ref().map(|p| p.written).map_err(|&r| r));
    assert!(library == rust, "the bytes differ");
    planned.map(|p| p.widest)
}

fn micros(time: Duration) -> String {
    format!("{:.1}", time.as_nanos() as f64 / 1000.0)
}

fn row(case: &Case) {
    let input = case.input();
    let widest = match compare(&input) {
        Ok(widest) => widest.to_string(),
        Err(refusal) => format!("refused {} at {}", refusal.number, refusal.place),
    };
    let (mut out, mut other) = (vec![0; ROOM], vec![0; ROOM]);
    let (library, rust, ratio) = side_by_side(
        || {
            let _ = black_box(by_library(black_box(&input), &mut out));
        },
        || {
            let _ = black_box(in_rust(Method::Rolling, black_box(&input), &mut other));
        },
    );
    let mut row = format!(
        "{} {widest} | {} | {} | {ratio:.2} |",
        case.name(),
        micros(library),
        micros(rust)
    );
    if case.periods <= 500 {
        let mut solved_anew = vec![0; ROOM];
        let _ = in_rust(Method::Textbook, &input, &mut solved_anew);
        assert!(solved_anew == other, "the textbook way differs");
        let mut textbook = || {
            let _ = black_box(in_rust(Method::Textbook, black_box(&input), &mut out));
        };
        let textbook = median((0..3).map(|_| round(1, &mut textbook)).collect());
        row += &format!(" {:.0} |", textbook.as_secs_f64() / library.as_secs_f64());
    } else {
        row += " |";
    }
    println!("{row}");
}

pub fn everything() {
    let head = "| settled every | cost lines | demands | layers | periods | widest | library µs | Rust µs | ratio | textbook / library |";
    println!("{head}\n|---|---|---|---|---|---|---|---|---|---|");
    cases().iter().for_each(row);
    println!("\nGrowth\n\n{head}\n|---|---|---|---|---|---|---|---|---|---|");
    growth().iter().for_each(row);
}

/// One planner on one case, many times over.
pub fn one(planner: &str, number: usize, calls: usize) {
    let case = cases()[number];
    let input = case.input();
    let mut out = vec![0; ROOM];
    for _ in 0..calls {
        match planner {
            "library" => {
                let _ = black_box(by_library(black_box(&input), &mut out));
            }
            "rust" => {
                let _ = black_box(in_rust(Method::Rolling, black_box(&input), &mut out));
            }
            _ => panic!("library or rust"),
        }
    }
    println!("{} {calls} calls", case.name());
}

/// Looks for parameters with wide windows.
pub fn search() {
    let mut random = Random::new(99);
    for _ in 0..4000 {
        let periods = 600;
        let low = 1 + random.below(1000) as u32;
        let most = 1 + random.below(3) * 500;
        let spread = 1 + random.below(most);
        let setup = 1 + random.below(1_000_000);
        let holding = 1 + random.below(10);
        let gross: Vec<u32> = (0..periods)
            .map(|_| low + random.below(spread) as u32)
            .collect();
        let input = Input {
            costs: cost_bytes(&cost_lines(1, periods, setup, holding, false, &mut random)),
            netting: Vec::new(),
            demands: demand_bytes(Format::Text, &gross, &mut random),
            format: Format::Text,
        };
        match compare(&input) {
            Ok(widest) if widest > 100 => {
                println!("widest {widest}: demand {low}+{spread}, setup {setup}, holding {holding}")
            }
            Ok(_) => {}
            Err(refusal) => println!(
                "refused {}: demand {low}+{spread}, setup {setup}, holding {holding}",
                refusal.number
            ),
        }
    }
}

/// Compares library and Rust on many inputs, right and damaged, and the textbook way on the right ones.
pub fn check() {
    let mut random = Random::new(5);
    let mut refused = 0;
    for turn in 0..20_000 {
        let periods = 1 + random.below(60) as u32;
        let lines = 1 + random.below(5) as u32;
        let format = if random.below(2) == 0 {
            Format::Text
        } else {
            Format::Orders
        };
        let most = 1 + random.below(300);
        let gross: Vec<u32> = (0..periods).map(|_| random.below(most) as u32).collect();
        let (setup, holding) = (1 + random.below(3000), random.below(5));
        let depth = random.below(4) as usize;
        let mut input = Input {
            costs: cost_bytes(&cost_lines(
                lines,
                periods.max(lines),
                setup,
                holding,
                true,
                &mut random,
            )),
            netting: netting_bytes(depth, periods.max(8), &mut random),
            demands: demand_bytes(format, &gross, &mut random),
            format,
        };
        if turn % 2 == 0 {
            let part = match random.below(8) {
                0 => &mut input.costs,
                1 => &mut input.netting,
                _ => &mut input.demands,
            };
            if !part.is_empty() {
                let place = random.below(part.len() as u64) as usize;
                match random.below(3) {
                    0 => part[place] = random.below(256) as u8,
                    1 => part.truncate(place),
                    _ => part[place] ^= 1,
                }
            }
        }
        if compare(&input).is_err() {
            refused += 1;
        } else if turn % 20 == 1 {
            let (mut a, mut b) = (vec![0; ROOM], vec![0; ROOM]);
            let _ = in_rust(Method::Rolling, &input, &mut a);
            let _ = in_rust(Method::Textbook, &input, &mut b);
            assert!(a == b, "the textbook way differs");
        }
    }
    println!("20000 inputs answered alike, {refused} of them refused");
}
