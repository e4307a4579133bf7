//! Demand feeds: forecast text, order words, and netting over another feed.

use crate::costs::check_dates;

pub const DEMAND_MOST: u64 = 1_000_000;
pub const RECEIPTS_MOST: usize = 32;
pub const STOCK_MOST: u64 = 1_000_000_000;

#[derive(Clone, Copy, Debug, PartialEq, Eq)]
pub struct Fault {
    pub number: u32,
    pub place: usize,
    pub period: usize,
    pub layers: u32,
}

#[derive(Clone, Copy, Debug, PartialEq, Eq)]
pub enum Told {
    Demand(u64),
    End,
    Fault(Fault),
}

pub trait Feed {
    /// The next demand, or how the feed ends; an ending is told again and changes nothing.
    fn next(&mut self) -> Told;
}

/// A number of 1 to `digits` digits at `at` with `behind` after it: the number, and the place after that byte.
pub fn number_at(bytes: &[u8], at: usize, digits: usize, behind: u8) -> Option<(u64, usize)> {
    let rest = bytes.get(at..)?;
    let length = rest.iter().take_while(|b| b.is_ascii_digit()).count();
    if length == 0 || length > digits || (length > 1 && rest[0] == b'0') || rest.get(length) != Some(&behind) {
        return None;
    }
    let value = rest[..length].iter().fold(0u64, |n, &b| n * 10 + u64::from(b - b'0'));
    Some((value, at + length + 1))
}

pub struct Text {
    bytes: Vec<u8>,
    at: usize,
    told: usize,
}

impl Text {
    pub fn new(bytes: &[u8]) -> Self {
        Text { bytes: bytes.to_vec(), at: 0, told: 0 }
    }

    fn fault(&self, number: u32, place: usize) -> Told {
        Told::Fault(Fault { number, place, period: self.told + 1, layers: 0 })
    }
}

impl Feed for Text {
    fn next(&mut self) -> Told {
        let at = self.at;
        if at == self.bytes.len() {
            return self.fault(12, at);
        }
        if self.bytes[at..].starts_with(b"end\n") {
            return if at + 4 < self.bytes.len() { self.fault(13, at + 4) } else { Told::End };
        }
        let line = number_at(&self.bytes, at, 7, b',')
            .and_then(|(period, mid)| number_at(&self.bytes, mid, 7, b'\n').map(|(demand, end)| (period, demand, end)));
        match line {
            None => self.fault(9, at),
            Some((period, _, _)) if period != self.told as u64 + 1 => self.fault(10, at),
            Some((_, demand, _)) if demand > DEMAND_MOST => self.fault(11, at),
            Some((_, demand, end)) => {
                self.at = end;
                self.told += 1;
                Told::Demand(demand)
            }
        }
    }
}

pub struct Orders {
    bytes: Vec<u8>,
    at: usize,
    told: usize,
}

impl Orders {
    pub fn new(bytes: &[u8]) -> Self {
        Orders { bytes: bytes.to_vec(), at: 0, told: 0 }
    }

    fn fault(&self, number: u32, place: usize) -> Fault {
        Fault { number, place, period: self.told + 1, layers: 0 }
    }

    /// The kind and the number of the word due at a place.
    fn word(&self, at: usize) -> Result<(u32, u64), Fault> {
        match self.bytes.len() - at {
            0 => Err(self.fault(12, at)),
            1..=3 => Err(self.fault(14, at)),
            _ => {
                let four = [self.bytes[at], self.bytes[at + 1], self.bytes[at + 2], self.bytes[at + 3]];
                let word = u32::from_be_bytes(four);
                Ok((word >> 30, u64::from(word & 0x3FFF_FFFF)))
            }
        }
    }

    /// The demand of a period from the place behind its opening, and the place of the word that closes it.
    fn period(&self, mut at: usize) -> Result<(u64, usize), Fault> {
        let mut sum = 0;
        loop {
            match self.word(at)? {
                (0, units) if sum + units > DEMAND_MOST => return Err(self.fault(11, at)),
                (0, units) => sum += units,
                (1, units) if units > sum => return Err(self.fault(16, at)),
                (1, units) => sum -= units,
                _ => return Ok((sum, at)),
            }
            at += 4;
        }
    }

    fn try_next(&mut self) -> Result<Option<u64>, Fault> {
        let at = self.at;
        match self.word(at)? {
            (0 | 1, _) => Err(self.fault(15, at)),
            (2, number) if number != self.told as u64 + 1 => Err(self.fault(10, at)),
            (2, _) => {
                let (demand, closed) = self.period(at + 4)?;
                self.at = closed;
                self.told += 1;
                Ok(Some(demand))
            }
            (_, count) if count != self.told as u64 => Err(self.fault(17, at)),
            _ if at + 4 < self.bytes.len() => Err(self.fault(13, at + 4)),
            _ => Ok(None),
        }
    }
}

impl Feed for Orders {
    fn next(&mut self) -> Told {
        match self.try_next() {
            Ok(Some(demand)) => Told::Demand(demand),
            Ok(None) => Told::End,
            Err(fault) => Told::Fault(fault),
        }
    }
}

#[derive(Clone, Copy, Debug, PartialEq, Eq)]
pub struct Receipt {
    pub period: u64,
    pub amount: u64,
}

/// What a netting layer is made with.
#[derive(Clone, Debug, PartialEq, Eq)]
pub struct Supply {
    pub stock: u64,
    pub receipts: Vec<Receipt>,
}

impl Supply {
    /// The making's tests in their order: 8, 4, 5, 7.
    pub fn check(&self) -> Result<(), u32> {
        if self.stock > STOCK_MOST {
            return Err(8);
        }
        let dates: Vec<u64> = self.receipts.iter().map(|r| r.period).collect();
        check_dates(&dates, 0, RECEIPTS_MOST, |d| d >= 1)?;
        if self.receipts.iter().any(|r| r.amount > STOCK_MOST) {
            return Err(7);
        }
        Ok(())
    }

    fn received(&self, period: u64) -> u64 {
        self.receipts.iter().filter(|r| r.period == period).map(|r| r.amount).sum()
    }
}

pub struct Netting {
    below: Box<dyn Feed>,
    supply: Supply,
    left: u64,
    told: u64,
}

impl Netting {
    pub fn new(below: Box<dyn Feed>, supply: &Supply) -> Result<Self, u32> {
        supply.check()?;
        Ok(Netting { below, supply: supply.clone(), left: supply.stock, told: 0 })
    }
}

impl Feed for Netting {
    fn next(&mut self) -> Told {
        match self.below.next() {
            Told::Demand(gross) => {
                self.told += 1;
                let available = self.left + self.supply.received(self.told);
                self.left = available.saturating_sub(gross);
                Told::Demand(gross.saturating_sub(available))
            }
            Told::Fault(fault) => Told::Fault(Fault { layers: (fault.layers + 1).min(255), ..fault }),
            Told::End => Told::End,
        }
    }
}
