//! Measures the proved library against a hand-written rolling planner and against the textbook way, on the same bytes.
mod by_hand;
mod clock;
mod costs;
mod feeds;
mod inputs;
mod lots;
mod proved;
mod rolling;
mod table;
mod textbook;

fn main() {
    let mode = std::env::args().nth(1).unwrap_or_default();
    match mode.as_str() {
        "" => table::everything(),
        "search" => table::search(),
        "check" => table::check(),
        other => {
            // One case many times over by one planner, for a profiler.
            let number = |n| std::env::args().nth(n).and_then(|word| word.parse().ok());
            table::one(other, number(2).unwrap_or(0), number(3).unwrap_or(1000));
        }
    }
}
