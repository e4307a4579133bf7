//! The fixed set of cases, and the framing in which it is written to two files.

use crate::cases::{Case, Kind};
use crate::costs::Charges;
use crate::make;
use crate::program::{answer, Mode};
use crate::rng::Rng;

/// The made cases of each kind, and the seed that they are made from.
const MADE: usize = 110;
const SEED: u64 = 20_260;
/// Made cases are kept short, so that the whole set stays small.
const SHORT: usize = 900;

pub fn all() -> Vec<Case> {
    let mut out = Vec::new();
    out.extend(of_text());
    out.extend(of_windows());
    out.extend(of_orders());
    out.extend(of_calls());
    for kind in [Kind::Plain, Kind::Orders, Kind::File, Kind::Replay] {
        let made = (0..).map(|index| kind.case(SEED, index));
        out.extend(made.filter(|case| case.input.len() <= SHORT).take(MADE));
    }
    out.extend(of_sizes());
    out
}

fn case(mode: Mode, parts: &[&[u8]]) -> Case {
    Case { mode, input: parts.concat() }
}

/// The tables of the documents and the bounds of numbers, printed and as a file.
fn of_text() -> Vec<Case> {
    let inputs = [
        "", "\n", "end\n", "10,0,1\n", "10,0,1\nend\n", "10,0\nend\n", "10,0,1\n1,4\n2,3\nend\n", "10,0,1\n1,4\n2,x\nend\n",
        "10,0,1\n1,4\n2,10\nend\n", "10,0,1\n1,4\n2,10\n4,1\nend\n",
        "10,0,1\n1,4\n2,3\n3,8\n4,2\n5,9\nend\n", "10,0,1\n1,4\n2,3\n3,8\n4,2\n6,9\nend\n", "10,0,1\n1,4\nend\n\n",
        "10,0,1\n1,4\nend", "10,0,1\n1,04\n", "10,0,1\n1, 4\n", "10,0,1\n1,12345678\n", "10,0,1\n2,9999999\n",
        "10,0,1\n1,1000001\n", "10,0,1\n1,1000000\nend\n", "10,0,1\n1,0\n2,0\n3,1\n4,0\nend\n", "10,0,1\n0,0\nend\n",
        "0,0,0\nend\n", "0,100001,3001\nend\n", "1,100001,3001\nend\n", "1,100000,3001\nend\n", "1,100000,3000\nend\n",
        "1000000000,0,0\n1,1\nend\n", "1000000001,0,0\n1,1\nend\n", "9999999999,9999999999,9999999999\nend\n",
        "10000000000,0,0\nend\n", "010,0,1\nend\n", "10,0,1\r\nend\n", "1,0,0\n1,1\n2,1\n3,1\nend\n",
        "1000000000,100000,3000\n1,1000000\n2,1000000\n3,1000000\n4,1000000\nend\n",
        "4,0,2\n1,2\n2,2\n3,2\n4,2\n5,2\n6,2\nend\n", "8,1,2\n1,2\n2,2\n3,2\n4,2\n5,2\n6,2\n7,0\n8,0\n9,4\nend\n",
    ];
    let both = |input: &&str| [Mode::Plain, Mode::File].map(|mode| case(mode, &[input.as_bytes()]));
    inputs.iter().flat_map(both).collect()
}

/// Forecasts about as long as the window, with lots that free it and without.
fn of_windows() -> Vec<Case> {
    let busy = |n: usize| -> Vec<u64> { (0..n as u64).map(|i| 3 + i * 7 % 11).collect() };
    let mut out = Vec::new();
    for n in [255, 256, 257] {
        out.push(case(Mode::Plain, &[b"10,0,1\n", &make::text(&vec![0; n])]));
        out.push(case(Mode::Plain, &[b"1000000000,0,0\n", &make::text(&busy(n))]));
        out.push(case(Mode::Plain, &[b"10,0,1\n", &make::text(&busy(n))]));
    }
    // Some lots are frozen, then nothing is asked for nearly a window, for a window, and for longer.
    for quiet in [200, 253, 254, 255, 256, 300] {
        let mut demands = busy(10);
        demands.extend(vec![0; quiet]);
        demands.extend([5, 6, 7]);
        out.push(case(Mode::Plain, &[b"10,0,1\n", &make::text(&demands)]));
    }
    out.push(case(Mode::File, &[b"40,2,3\n", &make::text(&busy(700))]));
    out.push(case(Mode::Plain, &[b"40,2,3\n", &make::text(&busy(700))[..4_000]]));
    out.push(case(Mode::Replay("rt".repeat(300)), &[b"25,0,1\n", &make::text(&busy(280))]));
    out
}

fn of_orders() -> Vec<Case> {
    const OPEN: u32 = 2 << 30;
    const CANCEL: u32 = 1 << 30;
    const END: u32 = 3 << 30;
    let words: [&[u32]; 16] = [
        &[], &[END], &[END | 1], &[END, 0], &[0], &[CANCEL], &[1_000_001], &[OPEN], &[OPEN | 2], &[OPEN | 1],
        &[OPEN | 1, 7, CANCEL | 2, END | 1], &[OPEN | 1, 7, CANCEL | 2, END | 2], &[OPEN | 1, 7, CANCEL | 8, END | 1],
        &[OPEN | 1, 1_000_000, END | 1], &[OPEN | 1, 600_000, 400_001, CANCEL | 1, END | 1],
        &[OPEN | 1, OPEN | 2, CANCEL, 0, 9, CANCEL | 9, OPEN | 3, 4, OPEN | 5],
    ];
    let whole = words.iter().map(|words| case(Mode::Orders, &[b"10,0,1\n", &make::word_bytes(words)]));
    let sound = make::word_bytes(&[OPEN | 1, 7, CANCEL | 2, END | 1]);
    let cut = (1..16).map(|length| case(Mode::Orders, &[b"10,0,1\n", &sound[..length]]));
    let long = (1..5).map(|more| case(Mode::Orders, &[b"10,0,1\n", &sound, &[0xC0, 0, 0, 1][..more]]));
    whole.chain(cut).chain(long).collect()
}

fn of_calls() -> Vec<Case> {
    let five = b"10,0,1\n1,4\n2,3\n3,8\n4,2\n5,9\nend\n";
    let wrong = b"10,0,1\n1,4\n2,3\n3,8\n4,2\n5,1000001\nend\n";
    let calls = ["", "t", "r", "rrrrt", "rrrtrr", "rrrtrrtrrt", "trtrtrtrtrtrt", "rrrrrrrr", "rrrttrrttrr"];
    let mut out = Vec::new();
    for calls in calls {
        out.push(case(Mode::Replay(calls.into()), &[five]));
        out.push(case(Mode::Replay(calls.into()), &[wrong]));
    }
    out.push(case(Mode::Replay("r".into()), &[b"10,0,3001\nend\n"]));
    out.push(case(Mode::Replay("".into()), &[b"10,0;1\nend\n"]));
    out.push(case(Mode::Replay("r".repeat(258)), &[b"9,0,1\n", &make::text(&[0; 300])]));
    out
}

/// The greatest input, one byte more, and more periods than may be read.
fn of_sizes() -> Vec<Case> {
    let rng = &mut Rng::of_case(SEED, 50, 0);
    let costs = make::cost_line(&Charges { setup: 30, unit: 2, holding: 1 });
    let whole = make::text_of_size(rng, 65_536 - costs.len());
    let mut long = [&costs[..], b"1,4\nend\n"].concat();
    long.resize(65_537, b'\n');
    let many = make::word_bytes(&make::many_periods(rng, 10_001));
    vec![
        case(Mode::Plain, &[&costs, &whole]),
        case(Mode::Plain, &[&long]),
        case(Mode::Orders, &[&costs, &many]),
    ]
}

/// The line before a case's bytes: the mode, how many bytes follow, and for a replay the calls.
fn header(case: &Case) -> String {
    let length = case.input.len();
    match &case.mode {
        Mode::Plain => format!("plain {length}\n"),
        Mode::Orders => format!("orders {length}\n"),
        Mode::File => format!("file {length}\n"),
        Mode::Replay(calls) => format!("replay {length} {calls}\n"),
        Mode::Wrong(_) => unreachable!("arguments are not part of the fixed set"),
    }
}

/// A lot file as a line of hexadecimal digits; all else as it is printed.
fn framed_answer(case: &Case) -> Vec<u8> {
    let printed = answer(&case.mode, &case.input);
    match case.mode {
        Mode::File if printed.status == 0 => {
            let digits: String = printed.stdout.iter().map(|byte| format!("{byte:02x}")).collect();
            (digits + "\n").into_bytes()
        }
        _ => [printed.stdout, printed.stderr].concat(),
    }
}

/// All cases one behind the other, and all answers, each under its case's header.
pub fn framed(cases: &[Case]) -> (Vec<u8>, Vec<u8>) {
    let (mut stdin, mut stdout) = (Vec::new(), Vec::new());
    for case in cases {
        let header = header(case).into_bytes();
        stdin.extend(&header);
        stdin.extend(&case.input);
        stdout.extend(&header);
        stdout.extend(framed_answer(case));
    }
    (stdin, stdout)
}
