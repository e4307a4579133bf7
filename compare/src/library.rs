//! Plans over netted feeds and with dated costs: these are reached through the static library, not through the program.

use crate::costs::{Charges, Dated, DatedLine};
use crate::feeds::{Feed, Netting, Receipt, Supply};
use crate::planner::{plan_forecast, Lot, Planner, ReadRefusal};
use crate::program::{orders, text, Refusal};
use crate::rng::Rng;
use crate::selftest::{some_dated, some_supply};
use crate::{lotwords, make};

/// More layers than these have another layout.
const LAYERS_MOST: usize = 3;

#[derive(Clone, Copy, Debug, PartialEq, Eq)]
pub enum Source {
    Text,
    Orders,
}

/// What the library is asked to plan.
/// Costs: for each line its date, setup charge, unit cost and holding cost.
/// Netting: for each layer, the lowest first, its stock, the number of its receipts, and of each the period and the amount.
/// All these are numbers of 32 bits, the most significant byte first.
#[derive(Clone, Debug, PartialEq, Eq)]
pub struct Asked {
    pub costs: Vec<u8>,
    pub netting: Vec<u8>,
    pub source: Source,
    pub demands: Vec<u8>,
    /// How many bytes there are for the lot file.
    pub room: usize,
}

/// Whatever answers with a lot file: the model, or the proved library called from outside.
pub trait Library {
    fn answer(&self, asked: &Asked) -> Result<Vec<u8>, Refusal>;
}

pub struct Model;

impl Library for Model {
    fn answer(&self, asked: &Asked) -> Result<Vec<u8>, Refusal> {
        let (lots, stop) = plan(asked).map_err(Refusal::at_0)?;
        if stop != ReadRefusal::FeedEnded {
            return Err(stop.into());
        }
        let file = lotwords::file(&lots);
        if file.len() > asked.room {
            return Err(Refusal::at_0(25));
        }
        Ok(file)
    }
}

impl Asked {
    /// The feed below all layers.
    pub fn gross(&self) -> Box<dyn Feed> {
        match self.source {
            Source::Text => text(&self.demands),
            Source::Orders => orders(&self.demands),
        }
    }
}

fn numbers(bytes: &[u8]) -> Result<Vec<u64>, u32> {
    let number = |four: &[u8]| four.try_into().map(|four| u64::from(u32::from_be_bytes(four)));
    bytes.chunks(4).map(number).collect::<Result<_, _>>().map_err(|_| 26)
}

fn dated_lines(bytes: &[u8]) -> Result<Vec<DatedLine>, u32> {
    let line = |four: &[u64]| match *four {
        [date, setup, unit, holding] => Ok(DatedLine { date, charges: Charges { setup, unit, holding } }),
        _ => Err(26),
    };
    numbers(bytes)?.chunks(4).map(line).collect()
}

/// The first layer of some numbers, and the numbers behind it.
fn first_layer(numbers: &[u64]) -> Result<(Supply, &[u64]), u32> {
    let [stock, count, rest @ ..] = numbers else { return Err(26) };
    let length = 2 * *count as usize;
    if rest.len() < length {
        return Err(26);
    }
    let receipts = rest[..length].chunks(2).map(|pair| Receipt { period: pair[0], amount: pair[1] }).collect();
    Ok((Supply { stock: *stock, receipts }, &rest[length..]))
}

/// All lots and what stopped the reading. The costs are made first, then the layers from below upwards.
pub fn plan(asked: &Asked) -> Result<(Vec<Lot>, ReadRefusal), u32> {
    let costs = Dated::new(&dated_lines(&asked.costs)?)?;
    let mut feed = asked.gross();
    for supply in made_layers(&asked.netting)? {
        feed = Box::new(Netting::new(feed, &supply)?);
    }
    Ok(plan_forecast(Planner::open(feed, Box::new(costs))))
}

/// The layers, each made before the next is looked at.
pub fn made_layers(netting: &[u8]) -> Result<Vec<Supply>, u32> {
    let numbers = numbers(netting)?;
    let mut rest: &[u64] = &numbers;
    let mut out = Vec::new();
    while !rest.is_empty() {
        if out.len() == LAYERS_MOST {
            return Err(26);
        }
        let (supply, behind) = first_layer(rest)?;
        supply.check()?;
        out.push(supply);
        rest = behind;
    }
    Ok(out)
}

fn push_number(out: &mut Vec<u8>, number: u64) {
    out.extend((number.min(u64::from(u32::MAX)) as u32).to_be_bytes());
}

fn cost_bytes(lines: &[DatedLine]) -> Vec<u8> {
    let mut out = Vec::new();
    for DatedLine { date, charges } in lines {
        for number in [*date, charges.setup, charges.unit, charges.holding] {
            push_number(&mut out, number);
        }
    }
    out
}

fn netting_bytes(layers: &[Supply]) -> Vec<u8> {
    let mut out = Vec::new();
    for Supply { stock, receipts } in layers {
        push_number(&mut out, *stock);
        push_number(&mut out, receipts.len() as u64);
        for Receipt { period, amount } in receipts {
            push_number(&mut out, *period);
            push_number(&mut out, *amount);
        }
    }
    out
}

/// Enough for a lot in each period.
fn room(periods: usize) -> usize {
    24 * periods + 4
}

/// A forecast in text with the same costs for all periods and no layer.
pub fn plainly(charges: &Charges, demands: &[u64]) -> Asked {
    let line = DatedLine { date: 1, charges: *charges };
    Asked { costs: cost_bytes(&[line]), netting: Vec::new(), source: Source::Text, demands: make::text(demands), room: room(demands.len()) }
}

/// Demands; once in a while as many as may be read, and more.
fn gross(rng: &mut Rng) -> Vec<u64> {
    if rng.below(4000) == 0 {
        let n = rng.pick(&[9_999, 10_000, 10_001, 10_020]);
        return (0..n).map(|_| rng.below(30)).collect();
    }
    make::forecast(rng)
}

/// A forecast with one to three netting layers, rarely four, and the same costs for all periods.
pub fn netted(rng: &mut Rng) -> Asked {
    let gross = gross(rng);
    let charges = make::charges(rng, &gross);
    let depth = rng.pick(&[1, 1, 1, 1, 1, 2, 2, 3, 3, 4]);
    asked(rng, &gross, &[DatedLine { date: 1, charges }], depth)
}

/// A forecast with dated costs, and now and then netted too.
pub fn dated(rng: &mut Rng) -> Asked {
    let gross = gross(rng);
    let lines = lines(rng, &gross);
    let depth = rng.pick(&[0, 0, 0, 1]);
    asked(rng, &gross, &lines, depth)
}

fn asked(rng: &mut Rng, gross: &[u64], lines: &[DatedLine], depth: usize) -> Asked {
    let layers: Vec<Supply> = (0..depth).map(|_| supply(rng, gross)).collect();
    let source = rng.pick(&[Source::Text, Source::Orders]);
    let demands = demand_bytes(rng, source, gross);
    let room = room(gross.len());
    let mut out = Asked { costs: cost_bytes(lines), netting: netting_bytes(&layers), source, demands, room };
    match rng.below(100) {
        0 | 1 => out.costs = make::spoil_bytes(rng, out.costs),
        2 | 3 => out.netting = make::spoil_bytes(rng, out.netting),
        4..=6 => tighten(rng, &mut out),
        _ => {}
    }
    out
}

/// Leaves just enough room for the lot file, or too little.
fn tighten(rng: &mut Rng, asked: &mut Asked) {
    if let Ok(file) = Model.answer(asked) {
        let little = rng.index(file.len());
        asked.room = rng.pick(&[file.len(), file.len() - 1, file.len() - 4, little, 0]);
    }
}

fn demand_bytes(rng: &mut Rng, source: Source, gross: &[u64]) -> Vec<u8> {
    let damaged = rng.chance(15);
    match source {
        Source::Text if damaged => make::spoil_text(rng, gross),
        Source::Text => make::text(gross),
        Source::Orders => {
            let words = make::order_words(rng, gross);
            if damaged { make::spoil_orders(rng, words) } else { make::word_bytes(&words) }
        }
    }
}

fn supply(rng: &mut Rng, gross: &[u64]) -> Supply {
    let mut out = match rng.chance(90) {
        true => some_supply(rng, gross),
        false => make::supply_at_bounds(rng),
    };
    if rng.chance(10) {
        make::spoil_supply(rng, &mut out);
    }
    out
}

fn lines(rng: &mut Rng, gross: &[u64]) -> Vec<DatedLine> {
    let mut out = match rng.below(10) {
        0..=4 => {
            let lines = rng.pick(&[1, 2, 3, 6, 20]);
            some_dated(rng, lines, (gross.len() as u64).max(2))
        }
        _ => make::dated_lines(rng, gross),
    };
    if rng.chance(15) {
        make::spoil_dated(rng, &mut out);
    }
    out
}
