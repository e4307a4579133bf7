//! Cheapest plans: by plain search over all setups, and by the full recursion.

use crate::costs::CostModel;

/// Up to this many periods the search tries every set of setups.
pub const SEARCHED: usize = 12;

/// The cheapest way found to serve some periods, as a set of setups: bit p - 1 stands for period p.
#[derive(Clone, Copy, Debug, PartialEq, Eq)]
pub struct Found {
    pub cost: u64,
    pub setups: u32,
}

impl Found {
    /// The last setup, 0 when there is none.
    pub fn last(&self) -> usize {
        (32 - self.setups.leading_zeros()) as usize
    }

    /// The lots as (from, through) pairs: each setup serves until the next one.
    pub fn lots(&self, horizon: usize) -> Vec<(usize, usize)> {
        let froms: Vec<usize> = (1..=horizon).filter(|p| self.setups >> (p - 1) & 1 == 1).collect();
        let ends = froms.iter().skip(1).map(|next| next - 1).chain([horizon]);
        froms.iter().copied().zip(ends).collect()
    }
}

/// Tries every set of setups, each period being served by the setup last before it.
/// Among the cheapest the one with the latest last setup stands, then the latest before that, and so on:
/// read as a number, that is the greatest set.
pub fn search(costs: &dyn CostModel, demands: &[u64]) -> Option<Found> {
    let mut best: Option<Found> = None;
    extend(costs, demands, 1, 0, Found { cost: 0, setups: 0 }, &mut best);
    best
}

fn extend(costs: &dyn CostModel, demands: &[u64], period: usize, last: usize, so_far: Found, best: &mut Option<Found>) {
    if period > demands.len() {
        let better = best.is_none_or(|b| so_far.cost < b.cost || (so_far.cost == b.cost && so_far.setups > b.setups));
        if better {
            *best = Some(so_far);
        }
        return;
    }
    let demand = demands[period - 1];
    if last > 0 || demand == 0 {
        let price = if last > 0 { costs.price(last, period) } else { 0 };
        let kept = Found { cost: so_far.cost + demand * price, ..so_far };
        extend(costs, demands, period + 1, last, kept, best);
    }
    let made = Found {
        cost: so_far.cost + costs.setup(period) + demand * costs.price(period, period),
        setups: so_far.setups | 1 << (period - 1),
    };
    extend(costs, demands, period + 1, period, made, best);
}

/// The least cost over all splittings of the demands, tried by the set of periods that may make:
/// each unit is then made in whichever of them is cheapest for it. Only for the self-test.
pub fn least_of_splittings(costs: &dyn CostModel, demands: &[u64]) -> u64 {
    let n = demands.len();
    let of_set = |set: u32| {
        let makers: Vec<usize> = (1..=n).filter(|p| set >> (p - 1) & 1 == 1).collect();
        let charges: u64 = makers.iter().map(|&j| costs.setup(j)).sum();
        let mut units = 0;
        for (i, &demand) in demands.iter().enumerate().filter(|(_, &d)| d > 0) {
            let cheapest = makers.iter().filter(|&&j| j <= i + 1).map(|&j| costs.price(j, i + 1)).min()?;
            units += demand * cheapest;
        }
        Some(charges + units)
    };
    (0..1u32 << n).filter_map(of_set).min().unwrap_or(0)
}

/// The recursion over all periods read, with every option of every period and no window.
#[derive(Default)]
pub struct Recursion {
    pub demands: Vec<u64>,
    /// `least[t]` is G(t), `last[t]` is l(t); both begin with period 0.
    pub least: Vec<u64>,
    pub last: Vec<usize>,
    /// `options[j - 1]`: the cost when j is the last setup for the periods read so far.
    options: Vec<u64>,
}

impl Recursion {
    pub fn new() -> Self {
        Recursion { least: vec![0], last: vec![0], ..Recursion::default() }
    }

    pub fn periods(&self) -> usize {
        self.demands.len()
    }

    pub fn push(&mut self, costs: &dyn CostModel, demand: u64) {
        let period = self.periods() + 1;
        self.demands.push(demand);
        self.options.push(self.least[period - 1] + costs.setup(period));
        if demand > 0 {
            for (j, option) in self.options.iter_mut().enumerate() {
                *option += demand * costs.price(j + 1, period);
            }
        }
        let nothing_asked = self.demands.iter().all(|&d| d == 0);
        let mut best = if nothing_asked { (0, 0) } else { (u64::MAX, 0) };
        for (j, &option) in self.options.iter().enumerate() {
            if option <= best.0 {
                best = (option, j + 1);
            }
        }
        self.least.push(best.0);
        self.last.push(best.1);
    }

    /// The plan of a horizon as (from, through) pairs, by its definition.
    pub fn plan(&self, horizon: usize) -> Vec<(usize, usize)> {
        let mut lots = Vec::new();
        let mut through = horizon;
        while self.last[through] > 0 {
            let from = self.last[through];
            lots.push((from, through));
            through = from - 1;
        }
        lots.reverse();
        lots
    }

    /// The first lot of a horizon's plan that is made after the base.
    pub fn next(&self, horizon: usize, base: usize) -> Option<(usize, usize)> {
        let mut first = None;
        let mut through = horizon;
        while self.last[through] > base {
            let from = self.last[through];
            first = Some((from, through));
            through = from - 1;
        }
        first
    }
}
