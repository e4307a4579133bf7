//! The rolling planner by hand: rows of the recursion in a window of 256 periods, and every lot frozen as soon as all horizons of the
//! regeneration set have it next.
use crate::costs::CostModel;
use crate::feeds::{refused, Feed, Refusal};
use crate::lots::{Kind, Lot};

const WINDOW: usize = 256;
const LONGEST: u32 = 10_000;

#[derive(Clone, Copy, PartialEq, Eq)]
struct Span {
    from: u32,
    through: u32,
}

#[derive(Clone, Copy)]
struct Row {
    demanded: u64,
    least: u64,
    last: u32,
    /// The first lot after the base in the plan of this horizon.
    next: Option<Span>,
}

pub struct Planner<F, M> {
    feed: F,
    model: M,
    base: u32,
    before: Row,
    rows: Vec<Row>,
    options: Vec<u64>,
    /// The most periods that ever lay beyond the base, for the benchmark's table.
    pub widest: usize,
}

impl<F: Feed, M: CostModel> Planner<F, M> {
    pub fn new(feed: F, model: M) -> Self {
        Planner {
            feed,
            model,
            base: 0,
            before: Row {
                demanded: 0,
                least: 0,
                last: 0,
                next: None,
            },
            rows: Vec::with_capacity(WINDOW),
            options: Vec::with_capacity(WINDOW),
            widest: 0,
        }
    }

    fn read_so_far(&self) -> u32 {
        self.base + self.rows.len() as u32
    }

    fn row(&self, horizon: u32) -> &Row {
        if horizon == self.base {
            &self.before
        } else {
            &self.rows[(horizon - self.base - 1) as usize]
        }
    }

    fn next_of(&self, horizon: u32, last: u32) -> Option<Span> {
        if last <= self.base {
            return None;
        }
        let own = Span {
            from: last,
            through: horizon,
        };
        self.row(last - 1).next.or(Some(own))
    }

    /// Reads one more period; none is left at the end of the feed.
    fn read(&mut self) -> Result<Option<()>, Refusal> {
        if self.rows.len() == WINDOW {
            return refused(19, 0);
        }
        if self.read_so_far() == LONGEST {
            return refused(20, 0);
        }
        let Some(demand) = self.feed.next()? else {
            return Ok(None);
        };
        self.push(u64::from(demand));
        Ok(Some(()))
    }

    fn push(&mut self, demand: u64) {
        let read = self.read_so_far();
        let period = read + 1;
        let newest = *self.row(read);
        let setup = newest.least + self.model.setup(period);
        let (mut least, mut last) = (newest.least, newest.last);
        let mut own = setup;
        if demand > 0 {
            own += demand * self.model.price(period, period);
            (least, last) = (own, period);
            let first = newest.last.max(self.base + 1);
            let place = (first - self.base - 1) as usize;
            // Back in time, so that only a strictly cheaper option takes the place of a later one.
            for (j, option) in (first..period).zip(&mut self.options[place..]).rev() {
                *option += demand * self.model.price(j, period);
                if *option < least {
                    (least, last) = (*option, j);
                }
            }
        }
        self.options.push(own);
        let next = self.next_of(period, last);
        self.rows.push(Row {
            demanded: newest.demanded + demand,
            least,
            last,
            next,
        });
        self.widest = self.widest.max(self.rows.len());
    }

    fn proved(&self) -> Option<Span> {
        let newest = self.row(self.read_so_far());
        let next = newest.next?;
        let first = newest.last - 1;
        if first <= self.base {
            return None;
        }
        let set = &self.rows[(first - self.base - 1) as usize..];
        set.iter().all(|row| row.next == Some(next)).then_some(next)
    }

    fn lot(&self, kind: Kind, span: Span) -> Lot {
        let before = self.row(span.from - 1);
        let end = self.row(span.through);
        Lot {
            kind,
            from: span.from,
            through: span.through,
            amount: (end.demanded - before.demanded) as u32,
            cost: end.least - before.least,
            evidence: self.read_so_far(),
        }
    }

    fn take(&mut self) -> Option<Lot> {
        let span = self.proved()?;
        let lot = self.lot(Kind::Frozen, span);
        let freed = (span.through - self.base) as usize;
        self.before = self.rows[freed - 1];
        self.before.next = None;
        self.base = span.through;
        self.rows.drain(..freed);
        self.options.drain(..freed);
        for place in 0..self.rows.len() {
            let horizon = self.base + place as u32 + 1;
            self.rows[place].next = self.next_of(horizon, self.rows[place].last);
        }
        Some(lot)
    }

    fn rest(&self, lots: &mut Vec<Lot>) {
        let done = lots.len();
        let mut horizon = self.read_so_far();
        while horizon > self.base && self.row(horizon).last > self.base {
            let from = self.row(horizon).last;
            lots.push(self.lot(
                Kind::Closing,
                Span {
                    from,
                    through: horizon,
                },
            ));
            horizon = from - 1;
        }
        lots[done..].reverse();
    }

    /// Plans the whole feed: each lot is frozen as soon as it is proved, and those left at the end are closing.
    pub fn plan(mut self) -> Result<(Vec<Lot>, usize), Refusal> {
        let mut lots = Vec::new();
        loop {
            while let Some(lot) = self.take() {
                lots.push(lot);
            }
            if self.read()?.is_none() {
                self.rest(&mut lots);
                return Ok((lots, self.widest));
            }
        }
    }
}
