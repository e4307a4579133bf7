//! Cases for the library, and the model's answers beside its own.

use std::collections::BTreeMap;

use crate::costs::Charges;
use crate::library::{self, Asked, Library, Model};
use crate::lotwords;
use crate::planner::Lot;
use crate::program::{lot_line, Refusal};
use crate::rng::Rng;

#[derive(Clone, Copy, Debug, PartialEq, Eq)]
pub enum LibraryKind {
    Netted,
    Dated,
    /// Every forecast of up to 6 periods with demands up to 3, with every small charge.
    Small,
}

pub const LIBRARY_KINDS: [LibraryKind; 3] = [LibraryKind::Netted, LibraryKind::Dated, LibraryKind::Small];

/// Forecasts of 0 to 6 periods with 4 demands to choose from, and the charges that each is planned with.
const SMALL_FORECASTS: u64 = 1 + 4 + 16 + 64 + 256 + 1024 + 4096;
const SMALL_CHARGES: u64 = 6 * 2 * 3;

impl LibraryKind {
    pub fn name(self) -> &'static str {
        match self {
            LibraryKind::Netted => "netted",
            LibraryKind::Dated => "dated",
            LibraryKind::Small => "small",
        }
    }

    /// How many cases are compared where `count` are asked for: of the small ones all there are.
    pub fn cases(self, count: u64) -> u64 {
        match self {
            LibraryKind::Small => SMALL_FORECASTS * SMALL_CHARGES,
            _ => count,
        }
    }

    fn case(self, seed: u64, index: u64) -> Asked {
        let rng = &mut Rng::of_case(seed, 20 + self as u64, index);
        match self {
            LibraryKind::Netted => library::netted(rng),
            LibraryKind::Dated => library::dated(rng),
            LibraryKind::Small => small(index),
        }
    }
}

/// The small case of a number: its charges, how many periods it has, and their demands as digits to the base 4.
fn small(index: u64) -> Asked {
    let (which, mut forecast) = (index % SMALL_CHARGES, index / SMALL_CHARGES);
    let charges = Charges { setup: 1 + which % 6, unit: which / 6 % 2, holding: which / 12 };
    let mut periods = 0;
    while forecast >= 4u64.pow(periods) {
        forecast -= 4u64.pow(periods);
        periods += 1;
    }
    let demands: Vec<u64> = (0..periods).map(|digit| forecast / 4u64.pow(digit) % 4).collect();
    library::plainly(&charges, &demands)
}

/// Compares cases of a kind; tells the first that differs.
pub fn compare(proved: &dyn Library, kind: LibraryKind, seed: u64, count: u64) -> Result<(), String> {
    for index in 0..kind.cases(count) {
        let asked = kind.case(seed, index);
        let (expected, got) = (Model.answer(&asked), proved.answer(&asked));
        if expected != got {
            let what = format!("difference: {} of seed {seed}, case {index}\n{}", kind.name(), shown_asked(&asked));
            return Err(format!("{what}expected:\n{}got:\n{}", shown(&expected), shown(&got)));
        }
    }
    Ok(())
}

fn shown_asked(asked: &Asked) -> String {
    let numbers = |bytes: &[u8]| bytes.chunks(4).map(hex_or_number).collect::<Vec<_>>().join(" ");
    format!(
        "costs:   {}\nnetting: {}\nroom:    {}\n{:?}, {} bytes:\n    {}\n",
        numbers(&asked.costs),
        numbers(&asked.netting),
        asked.room,
        asked.source,
        asked.demands.len(),
        asked.demands.escape_ascii()
    )
}

fn hex_or_number(four: &[u8]) -> String {
    match four.try_into() {
        Ok(four) => u32::from_be_bytes(four).to_string(),
        Err(_) => format!("{four:02X?}"),
    }
}

fn shown(answer: &Result<Vec<u8>, Refusal>) -> String {
    match answer {
        Err(refusal) => format!("    refused {} at {}\n", refusal.number, refusal.place),
        Ok(bytes) => match lotwords::read_file(bytes) {
            Some(lots) => lots.iter().map(|lot: &Lot| format!("    {}", lot_line(lot))).collect(),
            None => format!("    {bytes:02X?}\n"),
        },
    }
}

/// How often the model answers with each refusal, with frozen lots, and with none.
pub fn tally(kind: LibraryKind, seed: u64, count: u64) -> BTreeMap<String, u64> {
    let mut out = BTreeMap::new();
    for index in 0..kind.cases(count) {
        let sort = match Model.answer(&kind.case(seed, index)) {
            Err(refusal) => format!("refused {:>2}", refusal.number),
            Ok(bytes) => format!("a lot file, from {}", bytes[0] >> 6),
        };
        *out.entry(sort).or_insert(0) += 1;
    }
    out
}
