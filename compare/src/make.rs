//! Makes inputs: sound ones, ones at the bounds, and damaged ones.

use crate::costs::{Charges, DatedLine};
use crate::feeds::{Receipt, Supply};
use crate::rng::Rng;

/// How many periods a case has: mostly few, so that the search over all setups covers it.
pub fn periods(rng: &mut Rng) -> usize {
    let (low, high) = match rng.below(1000) {
        0..=599 => (0, 12),
        600..=869 => (13, 40),
        870..=949 => (41, 250),
        950..=969 => (251, 260),
        970..=994 => (261, 900),
        _ => (900, 3000),
    };
    rng.between(low, high) as usize
}

/// Demands of a case for the program: as many as `periods` says, or just about enough to fill the window.
pub fn forecast(rng: &mut Rng) -> Vec<u64> {
    if rng.below(60) == 0 {
        return about_a_window(rng);
    }
    let n = periods(rng);
    demands(rng, n)
}

/// Some periods that ask for something, behind them about a window that asks for nothing, and perhaps a few more.
fn about_a_window(rng: &mut Rng) -> Vec<u64> {
    let busy = rng.pick(&[0, 0, 1, 5, 30]);
    let quiet = rng.between(252, 258) as usize;
    let more = rng.pick(&[0, 0, 1, 3]);
    let mut out: Vec<u64> = (0..busy).map(|_| rng.between(1, 40)).collect();
    out.resize(out.len() + quiet, 0);
    out.extend((0..more).map(|_| rng.between(1, 40)));
    out
}

pub fn demands(rng: &mut Rng, n: usize) -> Vec<u64> {
    let most = rng.pick(&[1, 2, 3, 9, 9, 50, 1000, 1_000_000]);
    let zeros = rng.pick(&[0, 0, 10, 30, 60, 95]);
    let steady = rng.chance(15);
    let value = rng.between(1, most);
    let mut out: Vec<u64> = (0..n)
        .map(|_| match rng.chance(zeros) {
            true => 0,
            false if steady => value,
            false => rng.between(0, most),
        })
        .collect();
    if rng.chance(20) {
        quiet_run(rng, &mut out);
    }
    if rng.chance(10) {
        let end = rng.index(n + 1);
        out[..end].fill(0);
    }
    if n > 256 && rng.chance(40) {
        fade(rng, &mut out);
    }
    if rng.chance(8) {
        bounds(rng, &mut out);
    }
    out
}

/// A run of periods without demand, up to longer than the window.
fn quiet_run(rng: &mut Rng, demands: &mut [u64]) {
    let start = rng.index(demands.len() + 1);
    let most = (demands.len() - start) as u64;
    let length = rng.pick(&[most, most.min(260), most.min(30)]);
    let end = start + rng.between(0, length) as usize;
    demands[start..end].fill(0);
}

/// For about a window little or nothing is asked, after periods that asked for more.
fn fade(rng: &mut Rng, demands: &mut [u64]) {
    let start = rng.index(demands.len());
    let end = (start + rng.between(240, 270) as usize).min(demands.len());
    let most = rng.pick(&[0, 0, 1]);
    demands[..start].iter_mut().for_each(|d| *d = (*d + 5).min(1_000_000));
    demands[start..end].iter_mut().for_each(|d| *d = (*d).min(most));
}

fn bounds(rng: &mut Rng, demands: &mut [u64]) {
    for demand in demands.iter_mut() {
        if rng.chance(30) {
            *demand = rng.pick(&[0, 1, 999_999, 1_000_000]);
        }
    }
}

/// Charges within their bounds. Ones of the demands' own size make many lots, and ties.
pub fn charges(rng: &mut Rng, demands: &[u64]) -> Charges {
    let asked: u64 = demands.iter().sum();
    let busy = demands.iter().filter(|&&d| d > 0).count().max(1) as u64;
    let usual = (asked / busy).max(1);
    let style = if demands.len() > 240 { rng.pick(&[2, 2, 2, 2, 2, 2, 3, 0, 4]) } else { rng.below(5) };
    let (setup, unit, holding) = match style {
        0 => (rng.between(1, 30), rng.between(0, 5), rng.between(0, 3)),
        1 => {
            let holding = rng.between(1, 4);
            (usual * holding * rng.between(1, 12), rng.between(0, 3), holding)
        }
        2 => {
            let holding = rng.between(1, 60);
            let span = rng.pick(&[1, 3, 10, 40, 200]);
            (rng.between(1, usual * holding * span + 1), rng.any_length(100_000), holding)
        }
        3 => (rng.any_length(1_000_000_000), rng.any_length(100_000), rng.any_length(3_000)),
        _ => (rng.pick(&[1, 2, 999_999_999, 1_000_000_000]), rng.pick(&[0, 1, 100_000]), rng.pick(&[0, 1, 2_999, 3_000])),
    };
    Charges { setup: setup.clamp(1, 1_000_000_000), unit, holding }
}

/// Puts one to three of the charges out of bounds.
pub fn spoil_charges(rng: &mut Rng, charges: &mut Charges) {
    let which = rng.between(1, 7);
    if which & 1 == 1 {
        charges.setup = rng.pick(&[0, 1_000_000_001, 9_999_999_999]);
    }
    if which & 2 == 2 {
        charges.unit = rng.pick(&[100_001, 4_294_967_295, 4_294_967_296, 9_999_999_999]);
    }
    if which & 4 == 4 {
        charges.holding = rng.pick(&[3_001, 4_294_967_297, 9_999_999_999]);
    }
}

pub fn cost_line(charges: &Charges) -> Vec<u8> {
    format!("{},{},{}\n", charges.setup, charges.unit, charges.holding).into_bytes()
}

/// A first line that is no cost line, or only just one.
pub fn spoil_cost_line(rng: &mut Rng, c: &Charges) -> Vec<u8> {
    let Charges { setup: k, unit: u, holding: h } = *c;
    let line = match rng.below(16) {
        0 => format!("0{k},{u},{h}\n"),
        1 => format!("{k},0{u},{h}\n"),
        2 => format!("{k},{u},0{h}\n"),
        3 => format!("{k},{u}\n"),
        4 => format!("{k},{u},{h},0\n"),
        5 => format!("{k},{u},{h}\r\n"),
        6 => format!("{k},{u},{h}"),
        7 => format!("{k}, {u},{h}\n"),
        8 => format!(",{u},{h}\n"),
        9 => format!("{k},,{h}\n"),
        10 => format!("{k},{u},\n"),
        11 => format!("10000000000,{u},{h}\n"),
        12 => format!("{k},12345678901,{h}\n"),
        13 => format!("\n{k},{u},{h}\n"),
        14 => format!("+{k},{u},-{h}\n"),
        _ => String::new(),
    };
    line.into_bytes()
}

/// Mostly a sound first line.
pub fn first_line(rng: &mut Rng, charges: &Charges) -> Vec<u8> {
    match rng.below(100) {
        0..=1 => spoil_cost_line(rng, charges),
        2..=3 => {
            let mut wrong = *charges;
            spoil_charges(rng, &mut wrong);
            cost_line(&wrong)
        }
        _ => cost_line(charges),
    }
}

pub fn text(demands: &[u64]) -> Vec<u8> {
    let mut out: Vec<u8> = demands.iter().enumerate().flat_map(|(i, d)| format!("{},{d}\n", i + 1).into_bytes()).collect();
    out.extend(b"end\n");
    out
}

/// Forecast text with one thing wrong in or between its lines, or in its bytes.
pub fn spoil_text(rng: &mut Rng, demands: &[u64]) -> Vec<u8> {
    let sound = text(demands);
    if rng.chance(25) {
        return spoil_bytes(rng, sound);
    }
    if demands.is_empty() || rng.chance(30) {
        return spoil_end(rng, sound);
    }
    let mut lines: Vec<Vec<u8>> = sound.split_inclusive(|&b| b == b'\n').map(<[u8]>::to_vec).collect();
    let at = rng.index(demands.len());
    match rng.below(3) {
        0 => spoil_order(rng, &mut lines, at),
        _ => lines[at] = spoil_line(rng, at as u64 + 1, demands[at]),
    }
    lines.concat()
}

fn spoil_end(rng: &mut Rng, mut bytes: Vec<u8>) -> Vec<u8> {
    let end = bytes.len() - 4;
    let tail: &[u8] = match rng.below(12) {
        0 => b"",
        1 => b"end",
        2 => b"end\n\n",
        3 => b"end\nend\n",
        4 => b"end\r\n",
        5 => b"End\n",
        6 => b"end \n",
        7 => b"en",
        8 => b"\nend\n",
        9 => b"end\n1,1\n",
        10 => b"end\n\0",
        _ => b"END\n",
    };
    bytes.truncate(end);
    bytes.extend(tail);
    bytes
}

fn spoil_order(rng: &mut Rng, lines: &mut Vec<Vec<u8>>, at: usize) {
    match rng.below(6) {
        0 => drop(lines.remove(at)),
        1 => lines.insert(at, lines[at].clone()),
        2 => lines.swap(at, at + 1),
        3 => lines.insert(at, b"\n".to_vec()),
        4 => lines.insert(at, b"end\n".to_vec()),
        _ => drop(lines[at].pop()),
    }
}

fn spoil_line(rng: &mut Rng, period: u64, demand: u64) -> Vec<u8> {
    let line = match rng.below(22) {
        0 => format!("{period},0{demand}\n"),
        1 => format!("0{period},{demand}\n"),
        2 => format!("{},{demand}\n", period + 1),
        3 => format!("{},{demand}\n", period - 1),
        4 => format!("{period},1000001\n"),
        5 => format!("{period},9999999\n"),
        6 => format!("{period},10000000\n"),
        7 => format!("{},9999999\n", period + 2),
        8 => format!("{period},\n"),
        9 => format!(",{demand}\n"),
        10 => format!("{period}\n"),
        11 => format!("{period},{demand}\r\n"),
        12 => format!("{period}, {demand}\n"),
        13 => format!(" {period},{demand}\n"),
        14 => format!("{period},+{demand}\n"),
        15 => format!("{period},-{demand}\n"),
        16 => format!("{period};{demand}\n"),
        17 => format!("{period},{demand},\n"),
        18 => format!("9999999,{demand}\n"),
        19 => format!("10000000,{demand}\n"),
        20 => format!("{period},00\n"),
        _ => format!("{period},{demand}x\n"),
    };
    line.into_bytes()
}

/// One byte changed, taken out or put in, or everything behind a place cut off.
pub fn spoil_bytes(rng: &mut Rng, mut bytes: Vec<u8>) -> Vec<u8> {
    let at = rng.index(bytes.len().max(1));
    if bytes.is_empty() {
        return bytes;
    }
    match rng.below(5) {
        0 => bytes[at] = rng.below(256) as u8,
        1 => bytes[at] = rng.pick(b"0123456789,\n\r end-+."),
        2 => drop(bytes.remove(at)),
        3 => bytes.insert(at, rng.pick(b"0123456789,\n\0\xff")),
        _ => bytes.truncate(at),
    }
    bytes
}

const ORDER: u32 = 0;
const CANCEL: u32 = 1;
const OPEN: u32 = 2;
const END: u32 = 3;

fn word(kind: u32, number: u64) -> u32 {
    kind << 30 | number as u32
}

/// Demands as order words, in one order each or in several with cancellations.
pub fn order_words(rng: &mut Rng, demands: &[u64]) -> Vec<u32> {
    let plain = rng.chance(30);
    let mut out = Vec::new();
    for (i, &demand) in demands.iter().enumerate() {
        out.push(word(OPEN, i as u64 + 1));
        if plain {
            out.extend((demand > 0).then_some(word(ORDER, demand)));
        } else {
            orders_of(rng, demand, &mut out);
        }
    }
    out.push(word(END, demands.len() as u64));
    out
}

/// Some orders and cancellations that leave the demand, the sum never passing 1,000,000.
fn orders_of(rng: &mut Rng, demand: u64, out: &mut Vec<u32>) {
    let mut sum = 0;
    for _ in 0..rng.below(4) {
        let other = match rng.below(4) {
            0 => 0,
            1 => rng.any_length(1_000_000),
            2 => rng.between(0, demand),
            _ => 1_000_000,
        };
        step(sum, other, out);
        sum = other;
    }
    step(sum, demand, out);
    if rng.chance(5) {
        out.push(rng.pick(&[word(ORDER, 0), word(CANCEL, 0)]));
    }
}

fn step(sum: u64, next: u64, out: &mut Vec<u32>) {
    match next.cmp(&sum) {
        std::cmp::Ordering::Greater => out.push(word(ORDER, next - sum)),
        std::cmp::Ordering::Less => out.push(word(CANCEL, sum - next)),
        std::cmp::Ordering::Equal => {}
    }
}

pub fn word_bytes(words: &[u32]) -> Vec<u8> {
    words.iter().flat_map(|w| w.to_be_bytes()).collect()
}

/// Order words with one thing wrong.
pub fn spoil_orders(rng: &mut Rng, mut words: Vec<u32>) -> Vec<u8> {
    if rng.chance(15) {
        return spoil_bytes(rng, word_bytes(&words));
    }
    if rng.chance(20) {
        return spoil_last_word(rng, words);
    }
    let at = rng.index(words.len());
    match rng.below(14) {
        0 => words[at] = rng.bits() as u32,
        1 => words[at] ^= 1 << 31,
        2 => words[at] ^= 1 << 30,
        3 => words[at] = words[at].wrapping_add(1),
        4 => words[at] = words[at].wrapping_sub(1),
        5 => drop(words.remove(at)),
        6 => words.insert(at, words[at]),
        7 => words.insert(at, word(ORDER, rng.pick(&[1, 1_000_000, 1_000_001, (1 << 30) - 1]))),
        8 => words.insert(at, word(CANCEL, rng.pick(&[1, 1_000_000, 1_000_001, (1 << 30) - 1]))),
        9 => words.insert(at, word(OPEN, rng.pick(&[0, 1, 2, (1 << 30) - 1]))),
        10 => words.insert(at, word(END, rng.between(0, 3))),
        11 => words.splice(at..at, [word(ORDER, 1_000_001), word(CANCEL, 1_000_001)]).for_each(drop),
        12 => words.swap(0, at),
        _ => words.splice(at..at, [word(ORDER, 600_000), word(ORDER, 400_001), word(CANCEL, 1)]).for_each(drop),
    }
    word_bytes(&words)
}

fn spoil_last_word(rng: &mut Rng, mut words: Vec<u32>) -> Vec<u8> {
    let end = words.pop().unwrap_or(0);
    let mut bytes = word_bytes(&words);
    match rng.below(7) {
        0 => {}
        1 => bytes.extend(&end.to_be_bytes()[..rng.between(1, 3) as usize]),
        2 => bytes.extend((end + 1).to_be_bytes()),
        3 => bytes.extend((end ^ 1 << 29).to_be_bytes()),
        4 => {
            bytes.extend(end.to_be_bytes());
            bytes.extend(&[0, 0, 0, 0, 9][..rng.between(1, 5) as usize]);
        }
        5 => {
            bytes.extend(end.to_be_bytes());
            bytes.extend(end.to_be_bytes());
        }
        _ => {
            bytes.extend((end + 1).to_be_bytes());
            bytes.push(0);
        }
    }
    bytes
}

/// Forecast text of exactly `size` bytes, with demands that keep the lots short; `size` is from 1,000 to 70,000.
pub fn text_of_size(rng: &mut Rng, size: usize) -> Vec<u8> {
    let mut out = Vec::new();
    for period in 1u64.. {
        let around = period.to_string().len() + 2;
        let left = size - 4 - out.len();
        // The last two lines are cut so that they fill what is left.
        let digits = match left {
            0 => break,
            _ if left <= around + 7 => left - around,
            _ if left <= 2 * (around + 7) + 1 => left / 2 - around,
            _ => rng.pick(&[1, 1, 1, 1, 2, 3]),
        };
        let low = if digits == 1 { 0 } else { 10u64.pow(digits as u32 - 1) };
        let demand = rng.between(low, (10u64.pow(digits as u32) - 1).min(1_000_000));
        out.extend(format!("{period},{demand}\n").bytes());
    }
    out.extend(b"end\n");
    out
}

/// Order words of `n` periods in which about every second one asks for something.
pub fn many_periods(rng: &mut Rng, n: usize) -> Vec<u32> {
    let mut out = Vec::new();
    for period in 1..=n as u64 {
        out.push(word(OPEN, period));
        if rng.chance(55) {
            out.push(word(ORDER, rng.between(1, 30)));
        }
    }
    out.push(word(END, n as u64));
    out
}

/// 32 receipts, some of them in neighbouring periods or far away, with amounts up to the bound.
pub fn supply_at_bounds(rng: &mut Rng) -> Supply {
    let mut period = 0;
    let receipts = (0..rng.pick(&[0, 1, 31, 32])).map(|_| {
        period += rng.pick(&[1, 1, 2, 9, 300]);
        Receipt { period, amount: rng.pick(&[0, 1, 5, 1_000_000, 1_000_000_000]) }
    });
    let receipts = receipts.collect();
    Supply { stock: rng.pick(&[0, 1, 999_999, 1_000_000_000]), receipts }
}

/// One to four things wrong with a supply, so that the order of the tests shows.
pub fn spoil_supply(rng: &mut Rng, supply: &mut Supply) {
    let which = rng.between(1, 15);
    if which & 1 == 1 {
        supply.stock = rng.pick(&[1_000_000_001, 4_294_967_295]);
    }
    if which & 2 == 2 {
        let last = supply.receipts.last().map_or(0, |r| r.period);
        supply.receipts.extend((1..=33).map(|i| Receipt { period: last + i, amount: 1 }));
    }
    let count = supply.receipts.len();
    if which & 4 == 4 && count > 0 {
        supply.receipts[rng.index(count)].period = rng.pick(&[0, 1, 2]);
    }
    if which & 8 == 8 && count > 0 {
        supply.receipts[rng.index(count)].amount = rng.pick(&[1_000_000_001, 4_294_967_295]);
    }
}

/// Dated lines whose charges have the size of the demands, so that lots end and windows move.
pub fn dated_lines(rng: &mut Rng, gross: &[u64]) -> Vec<DatedLine> {
    let far = (gross.len() as u64 / 3).max(2);
    let mut date = 1;
    let mut out: Vec<DatedLine> = Vec::new();
    for _ in 0..rng.pick(&[1, 2, 3, 5, 63, 64]) {
        let mut charges = charges(rng, gross);
        if let Some(before) = out.last() {
            date += rng.pick(&[1, 1, 2, far]);
            charges.unit = charges.unit.min(before.charges.unit + before.charges.holding);
        }
        out.push(DatedLine { date, charges });
    }
    out
}

/// One to four things wrong with dated lines.
pub fn spoil_dated(rng: &mut Rng, lines: &mut Vec<DatedLine>) {
    let which = rng.between(1, 15);
    if which & 1 == 1 {
        let at = rng.index(lines.len());
        spoil_charges(rng, &mut lines[at].charges);
    }
    if which & 2 == 2 {
        let at = rng.index(lines.len());
        lines[at].date = rng.pick(&[0, 1, 2, 4_294_967_295]);
    }
    if which & 4 == 4 {
        let at = rng.index(lines.len());
        lines[at].charges.unit = rng.pick(&[100_000, 50_000]);
    }
    if which & 8 == 8 {
        let last = lines[lines.len() - 1];
        let more = rng.pick(&[1, 60, 64]);
        lines.extend((1..=more).map(|i| DatedLine { date: last.date + i, ..last }));
    }
    if which == 15 {
        lines.clear();
    }
}
