//! The textbook way: all demands are kept, and the whole recursion is solved anew in each period.
use crate::costs::CostModel;
use crate::feeds::{refused, Feed, Refusal};
use crate::lots::{Kind, Lot};

/// The least cost of each horizon and its last setup; horizon 0 first.
struct Solved {
    least: Vec<u64>,
    last: Vec<usize>,
}

/// For each horizon every setup is tried; ties go to the latest.
fn solve<M: CostModel>(model: &M, demands: &[u32]) -> Solved {
    let mut solved = Solved {
        least: vec![0],
        last: vec![0],
    };
    let mut options = Vec::with_capacity(demands.len());
    for (t, &demand) in (1..).zip(demands) {
        options.push(solved.least[t - 1] + model.setup(t as u32));
        let (mut least, mut last) = (solved.least[t - 1], solved.last[t - 1]);
        if demand > 0 {
            least = u64::MAX;
            // A price is told for a wait of at most 255 periods, and no lot of a window is longer.
            for j in t.saturating_sub(255).max(1)..=t {
                options[j - 1] += u64::from(demand) * model.price(j as u32, t as u32);
                if options[j - 1] <= least {
                    (least, last) = (options[j - 1], j);
                }
            }
        }
        solved.least.push(least);
        solved.last.push(last);
    }
    solved
}

impl Solved {
    /// The first lot after the base in the plan of a horizon.
    fn next(&self, base: usize, mut horizon: usize) -> Option<(usize, usize)> {
        let mut found = None;
        while horizon > base && self.last[horizon] > base {
            found = Some((self.last[horizon], horizon));
            horizon = self.last[horizon] - 1;
        }
        found
    }

    fn proved(&self, base: usize) -> Option<(usize, usize)> {
        let read = self.last.len() - 1;
        let next = self.next(base, read)?;
        (self.last[read] - 1..read)
            .all(|h| self.next(base, h) == Some(next))
            .then_some(next)
    }

    fn lot(&self, kind: Kind, demands: &[u32], from: usize, through: usize) -> Lot {
        Lot {
            kind,
            from: from as u32,
            through: through as u32,
            amount: demands[from - 1..through].iter().sum(),
            cost: self.least[through] - self.least[from - 1],
            evidence: demands.len() as u32,
        }
    }
}

pub fn plan<F: Feed, M: CostModel>(mut feed: F, model: M) -> Result<(Vec<Lot>, usize), Refusal> {
    let mut demands = Vec::new();
    let mut lots: Vec<Lot> = Vec::new();
    let mut base = 0;
    let mut widest = 0;
    loop {
        let solved = solve(&model, &demands);
        while let Some((from, through)) = solved.proved(base) {
            lots.push(solved.lot(Kind::Frozen, &demands, from, through));
            base = through;
        }
        widest = widest.max(demands.len() - base);
        if demands.len() - base == 256 {
            return refused(19, 0);
        }
        if demands.len() == 10_000 {
            return refused(20, 0);
        }
        let Some(demand) = feed.next()? else {
            while let Some((from, through)) = solved.next(base, demands.len()) {
                lots.push(solved.lot(Kind::Closing, &demands, from, through));
                base = through;
            }
            return Ok((lots, widest));
        };
        demands.push(demand);
    }
}
