//! Cases of every kind for the program.

use crate::costs::{Charges, Constant};
use crate::make;
use crate::planner::Planner;
use crate::program::{self, Mode, INPUT_MOST};
use crate::rng::Rng;

#[derive(Clone, Debug)]
pub struct Case {
    pub mode: Mode,
    pub input: Vec<u8>,
}

#[derive(Clone, Copy, Debug, PartialEq, Eq)]
pub enum Kind {
    Plain,
    Orders,
    File,
    Replay,
    Wrong,
}

pub const KINDS: [Kind; 5] = [Kind::Plain, Kind::Orders, Kind::File, Kind::Replay, Kind::Wrong];

impl Kind {
    pub fn name(self) -> &'static str {
        match self {
            Kind::Plain => "plain",
            Kind::Orders => "orders",
            Kind::File => "file",
            Kind::Replay => "replay",
            Kind::Wrong => "wrong arguments",
        }
    }

    /// Case `index` of this kind under a seed.
    pub fn case(self, seed: u64, index: u64) -> Case {
        let rng = &mut Rng::of_case(seed, self as u64, index);
        match self {
            Kind::Plain => Case { mode: Mode::Plain, input: text_input(rng) },
            Kind::File => Case { mode: Mode::File, input: text_input(rng) },
            Kind::Orders => Case { mode: Mode::Orders, input: orders_input(rng) },
            Kind::Replay => replay_case(rng),
            Kind::Wrong => wrong_case(rng),
        }
    }
}

/// Charges with which about every fourth unit's period sets up: the window moves on quickly.
fn quick(rng: &mut Rng) -> Charges {
    Charges { setup: rng.between(1, 60), unit: rng.between(0, 9), holding: rng.between(1, 3) }
}

fn text_input(rng: &mut Rng) -> Vec<u8> {
    if rng.below(500) == 0 {
        return text_at_limit(rng);
    }
    let demands = make::forecast(rng);
    let charges = make::charges(rng, &demands);
    let mut input = make::first_line(rng, &charges);
    let body = if rng.chance(40) { make::spoil_text(rng, &demands) } else { make::text(&demands) };
    input.extend(body);
    if rng.below(200) == 0 {
        input.truncate(rng.index(input.len() + 1));
    }
    input
}

/// Input of about 65,536 bytes, cost line and all.
fn text_at_limit(rng: &mut Rng) -> Vec<u8> {
    let size = rng.pick(&[INPUT_MOST - 1, INPUT_MOST, INPUT_MOST, INPUT_MOST + 1, INPUT_MOST + 2, 2 * INPUT_MOST]);
    let mut input = make::cost_line(&quick(rng));
    let behind = size - input.len();
    if size > INPUT_MOST + 2 || rng.chance(30) {
        // Few periods, and zero bytes behind the end up to the size.
        input.extend(b"1,4\n2,0\nend\n");
        input.resize(size, 0);
    } else {
        input.extend(make::text_of_size(rng, behind));
    }
    input
}

fn orders_input(rng: &mut Rng) -> Vec<u8> {
    match rng.below(2000) {
        0 | 1 => return orders_at_limit(rng),
        2 | 3 => return orders_of_many_periods(rng),
        _ => {}
    }
    let demands = make::forecast(rng);
    let charges = make::charges(rng, &demands);
    let mut input = make::first_line(rng, &charges);
    let words = make::order_words(rng, &demands);
    let body = if rng.chance(40) { make::spoil_orders(rng, words) } else { make::word_bytes(&words) };
    input.extend(body);
    input
}

/// Periods up to the limit of 10,000 and over it.
fn orders_of_many_periods(rng: &mut Rng) -> Vec<u8> {
    let n = rng.pick(&[9_990, 9_999, 10_000, 10_000, 10_001, 10_100]);
    let mut input = make::cost_line(&quick(rng));
    let words = make::many_periods(rng, n);
    input.extend(make::word_bytes(&words));
    input
}

/// About 65,536 bytes of words, with the end word or with none.
fn orders_at_limit(rng: &mut Rng) -> Vec<u8> {
    let size = rng.pick(&[INPUT_MOST - 1, INPUT_MOST, INPUT_MOST, INPUT_MOST + 1, INPUT_MOST + 4]);
    let mut input = make::cost_line(&quick(rng));
    let mut words: Vec<u32> = Vec::new();
    let mut periods = 0;
    while 4 * (words.len() + 2) + input.len() <= size {
        periods += 1;
        words.push(2 << 30 | periods);
        let room = (size - input.len()) / 4 - words.len();
        let orders = rng.between(3, 12).min(room as u64 - 1);
        words.extend((0..orders).map(|_| rng.below(20) as u32));
    }
    words.push(3 << 30 | periods);
    input.extend(make::word_bytes(&words));
    if rng.chance(50) {
        input.resize(size, 0);
    }
    input
}

fn replay_case(rng: &mut Rng) -> Case {
    let input = text_input(rng);
    let calls = calls(rng, &input);
    Case { mode: Mode::Replay(calls), input }
}

/// Reads and takes: blind ones, and ones that follow what the planner says, with some that it must refuse.
fn calls(rng: &mut Rng, input: &[u8]) -> String {
    let lines = input.iter().filter(|&&b| b == b'\n').count();
    match rng.below(6) {
        0 => blind(rng, lines, 50),
        1 => blind(rng, lines, 80),
        2 => "r".repeat(rng.index(lines + 3)),
        3 => "rt".repeat(rng.index(lines + 3)),
        _ => following(rng, input, lines),
    }
}

fn blind(rng: &mut Rng, lines: usize, reads: u64) -> String {
    let most = (2 * lines as u64 + 4).min(3000);
    let length = rng.between(0, most);
    (0..length).map(|_| if rng.chance(reads) { 'r' } else { 't' }).collect()
}

fn following(rng: &mut Rng, input: &[u8], lines: usize) -> String {
    let Some(behind) = input.iter().position(|&b| b == b'\n') else { return "rtr".into() };
    let charges = Charges { setup: 10, unit: 0, holding: 1 };
    let costs = program::costs_of(input).unwrap_or_else(|| Constant::new(charges).expect("within bounds"));
    let mut planner = Planner::open(program::text(&input[behind + 1..]), Box::new(costs));
    let (stray, most) = (rng.pick(&[0, 2, 20]), rng.index(2 * lines + 4));
    let mut out = String::new();
    while out.len() < most {
        let wants_take = planner.waits() != rng.chance(stray);
        if wants_take {
            let _ = planner.take();
            out.push('t');
        } else {
            let _ = planner.read();
            out.push('r');
        }
    }
    out
}

fn wrong_case(rng: &mut Rng) -> Case {
    const WRONG: [&[&str]; 16] = [
        &["plan"], &["Orders"], &["FILE"], &["-h"], &["--help"], &["replays"], &["order"], &["text"],
        &["replay", "rx"], &["replay", "R"], &["replay", "r t"], &["replay", "rt\n"],
        &["replay"], &["replay", "r", "t"], &["orders", "file"], &["file", ""],
    ];
    let arguments = WRONG[rng.index(WRONG.len())].iter().map(|s| s.to_string()).collect();
    Case { mode: Mode::Wrong(arguments), input: text_input(rng) }
}
