//! The hand-written planners, from the same bytes to the same bytes as the library.
use crate::costs::{CostLine, DatedCosts};
use crate::feeds::{refused, Feed, Netting, OrderFeed, Refusal, TextFeed};
use crate::lots::{file, Lot};
use crate::rolling::Planner;
use crate::textbook;

/// How a feed is planned: rolling, or anew in each period.
#[derive(Clone, Copy)]
pub enum Method {
    Rolling,
    Textbook,
}

/// A lot file, and the most periods that lay beyond the base.
pub struct Planned {
    pub written: usize,
    pub widest: usize,
}

fn numbers(bytes: &[u8]) -> Result<Vec<u32>, Refusal> {
    if bytes.len() % 4 != 0 {
        return refused(26, 0);
    }
    Ok(bytes
        .chunks_exact(4)
        .map(|c| u32::from_be_bytes(c.try_into().unwrap()))
        .collect())
}

fn costs(bytes: &[u8]) -> Result<DatedCosts, Refusal> {
    let numbers = numbers(bytes)?;
    if numbers.len() % 4 != 0 {
        return refused(26, 0);
    }
    let lines: Vec<_> = numbers
        .chunks_exact(4)
        .map(|n| CostLine {
            date: n[0],
            setup: n[1].into(),
            unit: n[2].into(),
            holding: n[3].into(),
        })
        .collect();
    DatedCosts::new(&lines).or_else(|number| refused(number, 0))
}

/// A stock, its receipts, and the numbers behind them.
type Layer<'a> = (u64, Vec<(u32, u64)>, &'a [u32]);

fn layer(numbers: &[u32]) -> Result<Layer<'_>, Refusal> {
    let [stock, count, rest @ ..] = numbers else {
        return refused(26, 0);
    };
    let length = 2 * *count as usize;
    if rest.len() < length {
        return refused(26, 0);
    }
    let receipts = rest[..length]
        .chunks_exact(2)
        .map(|n| (n[0], n[1].into()))
        .collect();
    Ok(((*stock).into(), receipts, &rest[length..]))
}

fn finish<F: Feed>(
    feed: F,
    model: DatedCosts,
    method: Method,
) -> Result<(Vec<Lot>, usize), Refusal> {
    match method {
        Method::Rolling => Planner::new(feed, model).plan(),
        Method::Textbook => textbook::plan(feed, model),
    }
}

fn netted<F>(feed: F, stock: u64, receipts: Vec<(u32, u64)>) -> Result<Netting<F>, Refusal> {
    Netting::new(feed, stock, receipts).or_else(|number| refused(number, 0))
}

fn through<F: Feed>(
    feed: F,
    numbers: &[u32],
    model: DatedCosts,
    method: Method,
) -> Result<(Vec<Lot>, usize), Refusal> {
    if numbers.is_empty() {
        return finish(feed, model, method);
    }
    let (stock, receipts, numbers) = layer(numbers)?;
    let feed = netted(feed, stock, receipts)?;
    if numbers.is_empty() {
        return finish(feed, model, method);
    }
    let (stock, receipts, numbers) = layer(numbers)?;
    let feed = netted(feed, stock, receipts)?;
    if numbers.is_empty() {
        return finish(feed, model, method);
    }
    let (stock, receipts, numbers) = layer(numbers)?;
    let feed = netted(feed, stock, receipts)?;
    if !numbers.is_empty() {
        return refused(26, 0);
    }
    finish(feed, model, method)
}

fn plan<F: Feed>(
    method: Method,
    costs_in: &[u8],
    netting: &[u8],
    feed: F,
    out: &mut [u8],
) -> Result<Planned, Refusal> {
    let model = costs(costs_in)?;
    let (lots, widest) = through(feed, &numbers(netting)?, model, method)?;
    let bytes = file(&lots);
    let Some(front) = out.get_mut(..bytes.len()) else {
        return refused(25, 0);
    };
    front.copy_from_slice(&bytes);
    Ok(Planned {
        written: bytes.len(),
        widest,
    })
}

pub fn plan_text(
    method: Method,
    costs: &[u8],
    netting: &[u8],
    demands: &[u8],
    out: &mut [u8],
) -> Result<Planned, Refusal> {
    plan(method, costs, netting, TextFeed::new(demands), out)
}

pub fn plan_orders(
    method: Method,
    costs: &[u8],
    netting: &[u8],
    demands: &[u8],
    out: &mut [u8],
) -> Result<Planned, Refusal> {
    plan(method, costs, netting, OrderFeed::new(demands), out)
}
