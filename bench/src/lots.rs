//! Lots and lot files by hand.

#[derive(Clone, Copy, Debug, PartialEq, Eq)]
pub enum Kind {
    Frozen,
    Closing,
}

#[derive(Clone, Copy, Debug, PartialEq, Eq)]
pub struct Lot {
    pub kind: Kind,
    pub from: u32,
    pub through: u32,
    pub amount: u32,
    pub cost: u64,
    pub evidence: u32,
}

/// The lot file: six words for each lot, and a word that counts them.
pub fn file(lots: &[Lot]) -> Vec<u8> {
    let mut out = Vec::with_capacity(24 * lots.len() + 4);
    for lot in lots {
        let kind = match lot.kind {
            Kind::Frozen => 1 << 30,
            Kind::Closing => 2 << 30,
        };
        let words = [
            kind + lot.from,
            lot.through,
            lot.amount,
            lot.evidence,
            (lot.cost >> 30) as u32,
            (lot.cost & ((1 << 30) - 1)) as u32,
        ];
        for word in words {
            out.extend_from_slice(&word.to_be_bytes());
        }
    }
    out.extend_from_slice(&((3 << 30) + lots.len() as u32).to_be_bytes());
    out
}
