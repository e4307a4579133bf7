//! Counts what the model answers, so that one sees whether the cases reach every answer there is.

use std::collections::BTreeMap;

use crate::cases::Kind;
use crate::program::answer;

/// The first word of a printed line, with the number where it is a refusal.
fn sort_of(line: &str) -> String {
    let words: Vec<&str> = line.split(' ').collect();
    match words.as_slice() {
        ["refused", number, ..] => format!("refused {number:>2}"),
        ["read", answer] => format!("read {answer}"),
        [first, ..] => first.to_string(),
        [] => String::new(),
    }
}

/// How many cases of a kind have at least one line of each sort in their answer.
pub fn tally(kind: Kind, seed: u64, count: u64) -> BTreeMap<String, u64> {
    let mut out = BTreeMap::new();
    for index in 0..count {
        let case = kind.case(seed, index);
        let printed = answer(&case.mode, &case.input);
        let mut sorts: Vec<String> = match kind {
            Kind::File if printed.status == 0 => vec![format!("a lot file, from {:?}", printed.stdout[0] >> 6)],
            _ => String::from_utf8_lossy(&[printed.stdout, printed.stderr].concat()).lines().map(sort_of).collect(),
        };
        if let [.., before, last] = sorts.as_slice() {
            // The program went on for a while before it was refused.
            if kind != Kind::Replay && before == "frozen" && last.starts_with("refused") {
                sorts.push(format!("{last} after frozen lots"));
            }
        }
        sorts.sort();
        sorts.dedup();
        for sort in sorts {
            *out.entry(sort).or_insert(0) += 1;
        }
    }
    out
}
