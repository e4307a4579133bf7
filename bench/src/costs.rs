//! Cost models by hand.

/// What a setup costs in a period, and what a unit made in `j` for use in `i` costs.
pub trait CostModel {
    fn setup(&self, j: u32) -> u64;
    fn price(&self, j: u32, i: u32) -> u64;
}

#[derive(Clone, Copy, Debug)]
pub struct CostLine {
    pub date: u32,
    pub setup: u64,
    pub unit: u64,
    pub holding: u64,
}

/// Costs that change from date to date, with what holding a unit costs before each date.
pub struct DatedCosts {
    lines: Vec<(CostLine, u64)>,
}

impl DatedCosts {
    pub fn new(lines: &[CostLine]) -> Result<Self, u32> {
        if !(1..=64).contains(&lines.len()) {
            return Err(4);
        }
        if lines[0].date != 1 || lines.windows(2).any(|w| w[1].date <= w[0].date) {
            return Err(5);
        }
        for line in lines {
            if line.setup < 1 || line.setup > 1_000_000_000 {
                return Err(1);
            }
            if line.unit > 100_000 {
                return Err(2);
            }
            if line.holding > 3_000 {
                return Err(3);
            }
        }
        if lines
            .windows(2)
            .any(|w| w[1].unit > w[0].unit + w[0].holding)
        {
            return Err(6);
        }
        let mut held = 0;
        let mut before = lines[0];
        let lines = lines
            .iter()
            .map(|&line| {
                held += before.holding * u64::from(line.date - before.date);
                before = line;
                (line, held)
            })
            .collect();
        Ok(DatedCosts { lines })
    }

    fn in_force(&self, p: u32) -> &(CostLine, u64) {
        let next = self.lines.partition_point(|(line, _)| line.date <= p);
        &self.lines[next - 1]
    }
}

impl CostModel for DatedCosts {
    fn setup(&self, j: u32) -> u64 {
        self.in_force(j).0.setup
    }

    fn price(&self, j: u32, i: u32) -> u64 {
        let (made, held) = self.in_force(j);
        let made_at = held + made.holding * u64::from(j - made.date);
        let (used, held) = self.in_force(i);
        let used_at = held + used.holding * u64::from(i - used.date);
        made.unit + used_at - made_at
    }
}
