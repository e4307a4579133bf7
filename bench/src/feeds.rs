//! Demand feeds by hand.

#[derive(Clone, Copy, Debug, PartialEq, Eq)]
pub struct Refusal {
    pub number: u32,
    pub place: usize,
}

pub fn refused<T>(number: u32, place: usize) -> Result<T, Refusal> {
    Err(Refusal { number, place })
}

pub const LARGEST_DEMAND: u32 = 1_000_000;

pub trait Feed {
    fn next(&mut self) -> Result<Option<u32>, Refusal>;
}

pub struct TextFeed<'a> {
    text: &'a [u8],
    place: usize,
    handed: u32,
}

impl<'a> TextFeed<'a> {
    pub fn new(text: &'a [u8]) -> Self {
        TextFeed {
            text,
            place: 0,
            handed: 0,
        }
    }
}

/// A number of at most seven digits right in front of `stop`, and how many bytes both take.
fn field(text: &[u8], stop: u8) -> Option<(u32, usize)> {
    let mut value = 0;
    for (length, &byte) in text.iter().enumerate() {
        match byte {
            b'0'..=b'9' if length < 7 => value = value * 10 + u32::from(byte - b'0'),
            _ if byte == stop && (length == 1 || length > 1 && text[0] != b'0') => {
                return Some((value, length + 1));
            }
            _ => return None,
        }
    }
    None
}

fn line(text: &[u8]) -> Option<(u32, u32, usize)> {
    let (period, first) = field(text, b',')?;
    let (demand, second) = field(&text[first..], b'\n')?;
    Some((period, demand, first + second))
}

impl Feed for TextFeed<'_> {
    fn next(&mut self) -> Result<Option<u32>, Refusal> {
        let rest = &self.text[self.place..];
        match rest {
            [] => return refused(12, self.place),
            b"end\n" => return Ok(None),
            [b'e', b'n', b'd', b'\n', ..] => return refused(13, self.place + 4),
            _ => {}
        }
        let Some((period, demand, length)) = line(rest) else {
            return refused(9, self.place);
        };
        if period != self.handed + 1 {
            return refused(10, self.place);
        }
        if demand > LARGEST_DEMAND {
            return refused(11, self.place);
        }
        self.place += length;
        self.handed += 1;
        Ok(Some(demand))
    }
}

pub struct OrderFeed<'a> {
    words: &'a [u8],
    place: usize,
    handed: u32,
}

const SPAN: u32 = 1 << 30;

impl<'a> OrderFeed<'a> {
    pub fn new(words: &'a [u8]) -> Self {
        OrderFeed {
            words,
            place: 0,
            handed: 0,
        }
    }

    fn word(&self, place: usize) -> Result<(u32, u32), Refusal> {
        match self.words[place..] {
            [] => refused(12, place),
            [a, b, c, d, ..] => {
                let bits = u32::from_be_bytes([a, b, c, d]);
                Ok((bits / SPAN, bits % SPAN))
            }
            _ => refused(14, place),
        }
    }
}

impl Feed for OrderFeed<'_> {
    fn next(&mut self) -> Result<Option<u32>, Refusal> {
        match self.word(self.place)? {
            (0 | 1, _) => return refused(15, self.place),
            (2, number) if number != self.handed + 1 => return refused(10, self.place),
            (2, _) => {}
            (_, number) if number != self.handed => return refused(17, self.place),
            _ if self.words.len() > self.place + 4 => return refused(13, self.place + 4),
            _ => return Ok(None),
        }
        let mut place = self.place + 4;
        let mut demand = 0;
        loop {
            match self.word(place)? {
                (0, number) if number > LARGEST_DEMAND - demand => return refused(11, place),
                (0, number) => demand += number,
                (1, number) if number > demand => return refused(16, place),
                (1, number) => demand -= number,
                _ => break,
            }
            place += 4;
        }
        self.place = place;
        self.handed += 1;
        Ok(Some(demand))
    }
}

pub struct Netting<F> {
    feed: F,
    stock: u64,
    receipts: Vec<(u32, u64)>,
    due: usize,
    period: u32,
}

impl<F> Netting<F> {
    pub fn new(feed: F, stock: u64, receipts: Vec<(u32, u64)>) -> Result<Self, u32> {
        if stock > 1_000_000_000 {
            return Err(8);
        }
        if receipts.len() > 32 {
            return Err(4);
        }
        if receipts.first().is_some_and(|r| r.0 < 1)
            || receipts.windows(2).any(|w| w[1].0 <= w[0].0)
        {
            return Err(5);
        }
        if receipts.iter().any(|r| r.1 > 1_000_000_000) {
            return Err(7);
        }
        Ok(Netting {
            feed,
            stock,
            receipts,
            due: 0,
            period: 1,
        })
    }
}

impl<F: Feed> Feed for Netting<F> {
    fn next(&mut self) -> Result<Option<u32>, Refusal> {
        let Some(gross) = self.feed.next()? else {
            return Ok(None);
        };
        if let Some(&(period, amount)) = self.receipts.get(self.due) {
            if period == self.period {
                self.stock += amount;
                self.due += 1;
            }
        }
        self.period += 1;
        let used = self.stock.min(u64::from(gross));
        self.stock -= used;
        Ok(Some(gross - used as u32))
    }
}
