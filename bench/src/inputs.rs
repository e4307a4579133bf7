//! Inputs to measure on, made from a fixed seed.
use crate::costs::CostLine;

/// A small generator of pseudo-random numbers (xorshift), so that every run has the same inputs.
pub struct Random(u64);

impl Random {
    pub fn new(seed: u64) -> Self {
        Random(seed.wrapping_mul(0x9e37_79b9_7f4a_7c15) | 1)
    }

    pub fn below(&mut self, n: u64) -> u64 {
        self.0 ^= self.0 << 13;
        self.0 ^= self.0 >> 7;
        self.0 ^= self.0 << 17;
        (self.0 >> 11) % n
    }
}

#[derive(Clone, Copy, PartialEq, Eq)]
pub enum Format {
    Text,
    Orders,
}

/// The bytes of one case.
pub struct Input {
    pub costs: Vec<u8>,
    pub netting: Vec<u8>,
    pub demands: Vec<u8>,
    pub format: Format,
}

fn push(bytes: &mut Vec<u8>, number: u64) {
    bytes.extend_from_slice(&(number as u32).to_be_bytes());
}

pub fn cost_bytes(lines: &[CostLine]) -> Vec<u8> {
    let mut bytes = Vec::new();
    for line in lines {
        for number in [u64::from(line.date), line.setup, line.unit, line.holding] {
            push(&mut bytes, number);
        }
    }
    bytes
}

/// Layers with a small stock and eight receipts each, so that some demand is left for every period.
pub fn netting_bytes(depth: usize, periods: u32, random: &mut Random) -> Vec<u8> {
    let mut bytes = Vec::new();
    for _ in 0..depth {
        push(&mut bytes, random.below(50));
        push(&mut bytes, 8);
        for k in 0..8 {
            push(&mut bytes, u64::from(1 + k * periods / 8));
            push(&mut bytes, random.below(50));
        }
    }
    bytes
}

pub fn demand_bytes(format: Format, demands: &[u32], random: &mut Random) -> Vec<u8> {
    let mut bytes = Vec::new();
    for (period, &demand) in (1..).zip(demands) {
        match format {
            Format::Text => bytes.extend_from_slice(format!("{period},{demand}\n").as_bytes()),
            Format::Orders => {
                // Two orders and a cancellation that come to the demand.
                let first = random.below(u64::from(demand) + 1) as u32;
                let cancelled = random.below(10) as u32;
                for word in [
                    (2 << 30) + period,
                    first,
                    demand - first + cancelled,
                    (1 << 30) + cancelled,
                ] {
                    bytes.extend_from_slice(&word.to_be_bytes());
                }
            }
        }
    }
    match format {
        Format::Text => bytes.extend_from_slice(b"end\n"),
        Format::Orders => {
            bytes.extend_from_slice(&((3 << 30) + demands.len() as u32).to_be_bytes())
        }
    }
    bytes
}

/// Cost lines with dates spread over the periods, all with the same costs, or with setups and unit costs that vary a little.
pub fn cost_lines(
    count: u32,
    periods: u32,
    setup: u64,
    holding: u64,
    vary: bool,
    random: &mut Random,
) -> Vec<CostLine> {
    (0..count)
        .map(|k| CostLine {
            date: 1 + k * periods / count,
            setup: if !vary || count == 1 {
                setup
            } else {
                setup - setup / 20 + random.below(setup / 10 + 1)
            },
            unit: if !vary || count == 1 {
                0
            } else {
                random.below(holding + 1)
            },
            holding,
        })
        .collect()
}
