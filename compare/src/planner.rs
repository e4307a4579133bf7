//! The rolling planner with its five calls: a plain model that keeps everything it read.

use crate::costs::CostModel;
use crate::feeds::{Fault, Feed, Told};
use crate::plans::{search, Recursion, SEARCHED};

pub const WINDOW: usize = 256;
pub const LIMIT: usize = 10_000;

#[derive(Clone, Copy, Debug, PartialEq, Eq)]
pub enum Kind {
    Frozen,
    Closing,
}

#[derive(Clone, Copy, Debug, PartialEq, Eq)]
pub struct Lot {
    pub kind: Kind,
    pub from: usize,
    pub through: usize,
    pub amount: u64,
    pub cost: u64,
    pub evidence: usize,
}

#[derive(Clone, Copy, Debug, PartialEq, Eq)]
pub enum ReadRefusal {
    LotWaits,
    WindowFull,
    LimitReached,
    FeedEnded,
    FeedFault(Fault),
}

#[derive(Clone, Copy, Debug, PartialEq, Eq)]
pub struct NoneProved;

#[derive(Clone, Copy, Debug, PartialEq, Eq)]
pub struct NoneLeft;

pub struct Planner {
    feed: Box<dyn Feed>,
    costs: Box<dyn CostModel>,
    read: Recursion,
    base: usize,
}

pub struct Closed(Planner);

impl Planner {
    pub fn open(feed: Box<dyn Feed>, costs: Box<dyn CostModel>) -> Self {
        Planner { feed, costs, read: Recursion::new(), base: 0 }
    }

    pub fn read(&mut self) -> Result<bool, ReadRefusal> {
        if self.proved().is_some() {
            return Err(ReadRefusal::LotWaits);
        }
        if self.read.periods() - self.base >= WINDOW {
            return Err(ReadRefusal::WindowFull);
        }
        if self.read.periods() >= LIMIT {
            return Err(ReadRefusal::LimitReached);
        }
        match self.feed.next() {
            Told::End => Err(ReadRefusal::FeedEnded),
            Told::Fault(fault) => Err(ReadRefusal::FeedFault(fault)),
            Told::Demand(demand) => {
                self.take_in(demand);
                Ok(self.proved().is_some())
            }
        }
    }

    pub fn take(&mut self) -> Result<Lot, NoneProved> {
        let (from, through) = self.proved().ok_or(NoneProved)?;
        self.base = through;
        Ok(self.lot(Kind::Frozen, from, through))
    }

    /// Whether a proved lot waits to be taken.
    pub fn waits(&self) -> bool {
        self.proved().is_some()
    }

    pub fn close(self) -> Closed {
        Closed(self)
    }

    /// One more period. While the search can do it, it must find what the recursion finds.
    fn take_in(&mut self, demand: u64) {
        self.read.push(self.costs.as_ref(), demand);
        let n = self.read.periods();
        if n <= SEARCHED {
            let found = search(self.costs.as_ref(), &self.read.demands).expect("some set of setups serves");
            assert_eq!(found.cost, self.read.least[n], "search and recursion differ in cost");
            assert_eq!(found.last(), self.read.last[n], "search and recursion differ in the last setup");
            assert_eq!(found.lots(n), self.read.plan(n), "search and recursion differ in the plan");
        }
    }

    /// The next lot on which all horizons of the regeneration set agree.
    fn proved(&self) -> Option<(usize, usize)> {
        let n = self.read.periods();
        let last = self.read.last[n];
        if last == 0 {
            return None;
        }
        let first = self.read.next(n, self.base)?;
        let agree = (last - 1..n).all(|horizon| self.read.next(horizon, self.base) == Some(first));
        agree.then_some(first)
    }

    fn lot(&self, kind: Kind, from: usize, through: usize) -> Lot {
        let demand = |i: usize| self.read.demands[i - 1];
        let units: u64 = (from..=through).map(|i| demand(i) * self.costs.price(from, i)).sum();
        Lot {
            kind,
            from,
            through,
            amount: (from..=through).map(demand).sum(),
            cost: self.costs.setup(from) + units,
            evidence: self.read.periods(),
        }
    }

    /// What a cheapest plan of the periods read costs.
    pub fn least(&self) -> u64 {
        self.read.least[self.read.periods()]
    }
}

impl Closed {
    pub fn rest(&mut self) -> Result<Lot, NoneLeft> {
        let horizon = self.0.read.periods();
        let (from, through) = self.0.read.next(horizon, self.0.base).ok_or(NoneLeft)?;
        self.0.base = through;
        Ok(self.0.lot(Kind::Closing, from, through))
    }

    pub fn all(mut self) -> Vec<Lot> {
        std::iter::from_fn(|| self.rest().ok()).collect()
    }
}

/// Takes every proved lot before each read, and closes at the feed's end; tells what stopped the reading.
pub fn plan_forecast(mut planner: Planner) -> (Vec<Lot>, ReadRefusal) {
    let mut lots = Vec::new();
    let stop = loop {
        while let Ok(lot) = planner.take() {
            lots.push(lot);
        }
        if let Err(refusal) = planner.read() {
            break refusal;
        }
    };
    if stop == ReadRefusal::FeedEnded {
        let least = planner.least();
        lots.extend(planner.close().all());
        assert_eq!(total(&lots), least, "all lots together are a cheapest plan");
    }
    (lots, stop)
}

pub fn total(lots: &[Lot]) -> u64 {
    lots.iter().map(|lot| lot.cost).sum()
}
