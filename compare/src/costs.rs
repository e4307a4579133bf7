//! Cost models: constant costs and dated costs, with the refusals of their making.

pub const SETUP_MOST: u64 = 1_000_000_000;
pub const UNIT_MOST: u64 = 100_000;
pub const HOLDING_MOST: u64 = 3_000;
pub const LINES_MOST: usize = 64;

/// How far prices of dated costs are added up beforehand: past every period that can be read.
const FAR: usize = 10_100;

pub trait CostModel {
    fn setup(&self, period: usize) -> u64;
    /// What a unit costs that is made in `making` and used in `using`.
    fn price(&self, making: usize, using: usize) -> u64;
}

/// The numbers of one cost line.
#[derive(Clone, Copy, Debug, PartialEq, Eq)]
pub struct Charges {
    pub setup: u64,
    pub unit: u64,
    pub holding: u64,
}

impl Charges {
    /// The first of 1, 2, 3 that these charges earn.
    pub fn check(&self) -> Result<(), u32> {
        if self.setup == 0 || self.setup > SETUP_MOST {
            Err(1)
        } else if self.unit > UNIT_MOST {
            Err(2)
        } else if self.holding > HOLDING_MOST {
            Err(3)
        } else {
            Ok(())
        }
    }
}

pub struct Constant(Charges);

impl Constant {
    pub fn new(charges: Charges) -> Result<Self, u32> {
        charges.check()?;
        Ok(Constant(charges))
    }
}

impl CostModel for Constant {
    fn setup(&self, _period: usize) -> u64 {
        self.0.setup
    }

    fn price(&self, making: usize, using: usize) -> u64 {
        self.0.unit + self.0.holding * (using - making) as u64
    }
}

/// Charges in force from a date on.
#[derive(Clone, Copy, Debug, PartialEq, Eq)]
pub struct DatedLine {
    pub date: u64,
    pub charges: Charges,
}

pub struct Dated {
    lines: Vec<DatedLine>,
    /// `waited[p]`: what a unit costs that waits in every period from 1 to p.
    waited: Vec<u64>,
}

/// The dates of dated lines: their number first (4), then that they rise from an allowed one (5).
pub fn check_dates(dates: &[u64], fewest: usize, most: usize, first_ok: fn(u64) -> bool) -> Result<(), u32> {
    if dates.len() < fewest || dates.len() > most {
        return Err(4);
    }
    let starts = dates.first().is_none_or(|&d| first_ok(d));
    let rises = dates.windows(2).all(|pair| pair[0] < pair[1]);
    if starts && rises {
        Ok(())
    } else {
        Err(5)
    }
}

impl Dated {
    pub fn new(lines: &[DatedLine]) -> Result<Self, u32> {
        let dates: Vec<u64> = lines.iter().map(|line| line.date).collect();
        check_dates(&dates, 1, LINES_MOST, |d| d == 1)?;
        for line in lines {
            line.charges.check()?;
        }
        let speculates = |pair: &[DatedLine]| pair[1].charges.unit > pair[0].charges.unit + pair[0].charges.holding;
        if lines.windows(2).any(speculates) {
            return Err(6);
        }
        let mut model = Dated { lines: lines.to_vec(), waited: vec![0] };
        for period in 1..=FAR {
            let so_far = model.waited[period - 1];
            model.waited.push(so_far + model.in_force(period).holding);
        }
        Ok(model)
    }

    /// The charges of the last line dated at or before the period.
    pub fn in_force(&self, period: usize) -> Charges {
        let behind = self.lines.partition_point(|line| line.date <= period as u64);
        self.lines[behind - 1].charges
    }

    /// The price by its definition, added up period by period; the self-test holds it against `price`.
    pub fn price_by_definition(&self, making: usize, using: usize) -> u64 {
        let waiting: u64 = (making..using).map(|p| self.in_force(p).holding).sum();
        self.in_force(making).unit + waiting
    }
}

impl CostModel for Dated {
    fn setup(&self, period: usize) -> u64 {
        self.in_force(period).setup
    }

    fn price(&self, making: usize, using: usize) -> u64 {
        self.in_force(making).unit + self.waited[using - 1] - self.waited[making - 1]
    }
}
