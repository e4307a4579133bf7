//! Lots written as words, and read back for the self-test.

use crate::planner::{Kind, Lot};

fn word(kind: u32, number: u64) -> [u8; 4] {
    assert!(number < 1 << 30, "a word's number has thirty bits");
    (kind << 30 | number as u32).to_be_bytes()
}

pub fn write_lot(lot: &Lot, out: &mut Vec<u8>) {
    let kind = match lot.kind {
        Kind::Frozen => 1,
        Kind::Closing => 2,
    };
    out.extend(word(kind, lot.from as u64));
    for number in [lot.through as u64, lot.amount, lot.evidence as u64, lot.cost >> 30, lot.cost & 0x3FFF_FFFF] {
        out.extend(word(0, number));
    }
}

/// A file of lots: their words, and the end word with their number.
pub fn file(lots: &[Lot]) -> Vec<u8> {
    let mut out = Vec::new();
    for lot in lots {
        write_lot(lot, &mut out);
    }
    out.extend(word(3, lots.len() as u64));
    out
}

/// The lots of a file, or nothing where the bytes are no file of lots.
pub fn read_file(bytes: &[u8]) -> Option<Vec<Lot>> {
    let words: Vec<u32> = bytes.chunks(4).map(|c| c.try_into().map(u32::from_be_bytes)).collect::<Result<_, _>>().ok()?;
    let (end, body) = words.split_last()?;
    let lots: Vec<Lot> = body.chunks(6).map(read_lot).collect::<Option<_>>()?;
    (*end == 3 << 30 | lots.len() as u32).then_some(lots)
}

fn read_lot(words: &[u32]) -> Option<Lot> {
    let [first, others @ ..] = words else { return None };
    let [through, amount, evidence, high, low] = others else { return None };
    if others.iter().any(|w| w >> 30 != 0) {
        return None;
    }
    let kind = match first >> 30 {
        1 => Kind::Frozen,
        2 => Kind::Closing,
        _ => return None,
    };
    Some(Lot {
        kind,
        from: (first & 0x3FFF_FFFF) as usize,
        through: *through as usize,
        amount: u64::from(*amount),
        cost: u64::from(*high) << 30 | u64::from(*low),
        evidence: *evidence as usize,
    })
}
