//! The model held against itself and against the examples of the documents.

use crate::costs::{Charges, Constant, CostModel, Dated, DatedLine};
use crate::feeds::{Feed, Netting, Orders, Receipt, Supply, Text, Told};
use crate::planner::{Kind, Lot, Planner};
use crate::plans::{least_of_splittings, search, Recursion};
use crate::program::{answer, Mode};
use crate::rng::Rng;
use crate::{library, lotwords, make};

type Checked = Result<(), String>;

pub fn all() -> Checked {
    examples_of_text()?;
    examples_of_words()?;
    examples_of_calls()?;
    examples_of_makings()?;
    for index in 0..2_000 {
        let rng = &mut Rng::of_case(7, 99, index);
        plans_agree(rng).map_err(|e| format!("plans, case {index}: {e}"))?;
        netting_is_greatest_excess(rng).map_err(|e| format!("netting, case {index}: {e}"))?;
        freezing_is_right(rng).map_err(|e| format!("freezing, case {index}: {e}"))?;
        files_read_back(rng).map_err(|e| format!("lot words, case {index}: {e}"))?;
        lots_hold_the_excess(rng).map_err(|e| format!("excess, case {index}: {e}"))?;
        makers_keep_their_word(rng).map_err(|e| format!("makers, case {index}: {e}"))?;
    }
    Ok(())
}

fn same<T: PartialEq + std::fmt::Debug>(what: &str, got: T, due: T) -> Checked {
    if got == due {
        Ok(())
    } else {
        Err(format!("{what}: {got:?}, due {due:?}"))
    }
}

fn prints(mode: Mode, input: &[u8], due: &str) -> Checked {
    let printed = answer(&mode, input);
    let all = [printed.stdout, printed.stderr].concat();
    same(&format!("{mode:?} of {}", input.escape_ascii()), String::from_utf8_lossy(&all).into_owned(), due.to_string())
}

fn examples_of_text() -> Checked {
    let five = b"10,0,1\n1,4\n2,3\n3,8\n4,2\n5,9\nend\n";
    let plain = |input: &[u8], due: &str| prints(Mode::Plain, input, due);
    plain(five, "frozen 1 2 7 13 3\nfrozen 3 4 10 12 5\nclosing 5 5 9 10 5\ntotal 35\n")?;
    plain(b"10,0,1\nend\n", "total 0\n")?;
    plain(b"10,0,1\n1,4\n2,3\nend\n", "closing 1 2 7 13 2\ntotal 13\n")?;
    plain(b"10,0,1\n1,4\n2,10\nend\n", "frozen 1 1 4 10 2\nclosing 2 2 10 10 2\ntotal 20\n")?;
    plain(b"10,0,1\n1,4\n2,10\n4,1\nend\n", "frozen 1 1 4 10 2\nrefused 10 at 9\n")?;
    plain(b"10,0,1\n1,4\n2,x\nend\n", "refused 9 at 4\n")?;
    plain(b"10,0\nend\n", "refused 26 at 0\n")?;
    plain(b"0,0,1\nend\n", "refused 1 at 0\n")?;
    plain(b"10,0,1\n1,4\n", "refused 12 at 4\n")?;
    plain(b"10,0,1\n1,4\nend\n\n", "refused 13 at 8\n")?;
    plain(b"10,0,1\n1,4\nend", "refused 9 at 4\n")?;
    for line in ["1,04\n", "1, 4\n", "1,12345678\n"] {
        plain(format!("10,0,1\n{line}").as_bytes(), "refused 9 at 0\n")?;
    }
    plain(b"10,0,1\n2,9999999\n", "refused 10 at 0\n")?;
    plain(b"10,0,1\n1,1000001\n", "refused 11 at 0\n")?;
    plain(b"10,0,1\n1,4\n2,3\n3,8\n3,2\n", "frozen 1 2 7 13 3\nrefused 10 at 12\n")?;
    let quiet = make::text(&[0; 256]);
    plain(&[b"10,0,1\n", &quiet[..]].concat(), "refused 19 at 0\n")
}

fn examples_of_words() -> Checked {
    let bytes = |words: &[u32]| [b"10,0,1\n".to_vec(), make::word_bytes(words)].concat();
    let orders = |words: &[u32], due: &str| prints(Mode::Orders, &bytes(words), due);
    orders(&[0x8000_0001, 7, 0x4000_0002, 0xC000_0001], "closing 1 1 5 10 1\ntotal 10\n")?;
    orders(&[0x8000_0001, 7, 0x4000_0002, 0xC000_0002], "refused 17 at 12\n")?;
    orders(&[7], "refused 15 at 0\n")?;
    orders(&[0x8000_0001, 1_000_001, 0x4000_0001, 0xC000_0001], "refused 11 at 4\n")?;
    orders(&[0x8000_0001, 7, 0x4000_0008, 0xC000_0001], "refused 16 at 8\n")?;
    let lot = Lot { kind: Kind::Frozen, from: 1, through: 2, amount: 7, cost: 13, evidence: 3 };
    let due = make::word_bytes(&[0x4000_0001, 2, 7, 3, 0, 13, 0xC000_0001]);
    same("a file of one lot", lotwords::file(&[lot]), due)?;
    let dear = Lot { kind: Kind::Closing, from: 5, cost: 3_000_000_000, through: 5, evidence: 5, ..lot };
    let due = make::word_bytes(&[0x8000_0005, 5, 7, 5, 2, 0x32D0_5E00, 0xC000_0001]);
    same("a dear lot", lotwords::file(&[dear]), due)
}

fn examples_of_calls() -> Checked {
    let five = b"10,0,1\n1,4\n2,3\n3,8\n4,2\n5,9\nend\n";
    let replay = |calls: &str, due: &str| prints(Mode::Replay(calls.into()), five, due);
    replay("rrrrt", "read no\nread no\nread yes\nrefused 18 at 0\nfrozen 1 2 7 13 3\nclosing 3 3 8 10 3\ntotal 23\n")?;
    replay("", "total 0\n")?;
    replay("tr", "refused 23 at 0\nread no\nclosing 1 1 4 10 1\ntotal 10\n")?;
    let mut planner = Planner::open(Box::new(Text::new(b"1,4\nend\n")), Box::new(constant(10, 0, 1)));
    same("first read", planner.read(), Ok(false))?;
    let mut closed = planner.close();
    same("first rest", closed.rest().map(|lot| (lot.from, lot.through, lot.evidence)).ok(), Some((1, 1, 1)))?;
    same("rest of nothing", closed.rest().is_err(), true)
}

fn constant(setup: u64, unit: u64, holding: u64) -> Constant {
    Constant::new(Charges { setup, unit, holding }).expect("within bounds")
}

fn dated(lines: &[(u64, u64, u64, u64)]) -> Result<Dated, u32> {
    let line = |&(date, setup, unit, holding): &(u64, u64, u64, u64)| DatedLine { date, charges: Charges { setup, unit, holding } };
    Dated::new(&lines.iter().map(line).collect::<Vec<_>>())
}

fn examples_of_makings() -> Checked {
    let number = |lines: &[(u64, u64, u64, u64)]| dated(lines).err().unwrap_or(0);
    same("no line", number(&[]), 4)?;
    same("64 lines", number(&(1..=64).map(|d| (d, 1, 0, 0)).collect::<Vec<_>>()), 0)?;
    same("65 lines", number(&(1..=65).map(|d| (d, 0, 0, 0)).collect::<Vec<_>>()), 4)?;
    same("from 2", number(&[(2, 0, 0, 0)]), 5)?;
    same("twice the same date", number(&[(1, 1, 0, 0), (1, 1, 0, 0)]), 5)?;
    same("line by line", number(&[(1, 1, 0, 3001), (2, 0, 0, 0)]), 3)?;
    same("speculation", number(&[(1, 1, 5, 2), (4, 1, 8, 2)]), 6)?;
    same("no speculation", number(&[(1, 1, 5, 2), (4, 1, 7, 2)]), 0)?;
    let supply = |stock, receipts: &[(u64, u64)]| {
        let receipts = receipts.iter().map(|&(period, amount)| Receipt { period, amount }).collect();
        Supply { stock, receipts }.check().err().unwrap_or(0)
    };
    same("stock before all else", supply(1_000_000_001, &[(0, 1_000_000_001); 40]), 8)?;
    same("too many receipts", supply(0, &[(0, 1_000_000_001); 33]), 4)?;
    same("dates of receipts", supply(0, &[(0, 1_000_000_001)]), 5)?;
    same("amount of a receipt", supply(0, &[(1, 0), (7, 1_000_000_001)]), 7)?;
    same("sound receipts", supply(1_000_000_000, &[(2, 0), (7, 1_000_000_000)]), 0)
}

/// Lines that pass the making, or nearly always do.
pub fn some_dated(rng: &mut Rng, lines: u64, far: u64) -> Vec<DatedLine> {
    let mut date = 0;
    let mut unit = rng.between(0, 30);
    let mut out: Vec<DatedLine> = Vec::new();
    for i in 0..lines {
        date = if i == 0 { 1 } else { date + rng.between(1, far) };
        if let Some(before) = out.last() {
            unit = rng.between(0, before.charges.unit + before.charges.holding).min(100_000);
        }
        out.push(DatedLine { date, charges: Charges { setup: rng.between(1, 40), unit, holding: rng.between(0, 4) } });
    }
    out
}

fn some_model(rng: &mut Rng) -> Box<dyn CostModel> {
    if rng.chance(50) {
        let lines = rng.between(1, 5);
        Box::new(Dated::new(&some_dated(rng, lines, 4)).expect("lines pass"))
    } else {
        Box::new(constant(rng.between(1, 40), rng.between(0, 5), rng.between(0, 4)))
    }
}

/// Search, recursion and all splittings find the same least cost; search and recursion the same plan.
fn plans_agree(rng: &mut Rng) -> Checked {
    let model = some_model(rng);
    let n = rng.index(11);
    let demands = make::demands(rng, n);
    let mut recursion = Recursion::new();
    for (i, &demand) in demands.iter().enumerate() {
        recursion.push(model.as_ref(), demand);
        if demand == 0 {
            same("an idle period's cost", recursion.least[i + 1], recursion.least[i])?;
            same("an idle period's last setup", recursion.last[i + 1], recursion.last[i])?;
        }
    }
    let found = search(model.as_ref(), &demands).ok_or("nothing found")?;
    same("least cost", recursion.least[n], found.cost)?;
    same("plan", recursion.plan(n), found.lots(n))?;
    if n <= 8 {
        same("least of all splittings", least_of_splittings(model.as_ref(), &demands), found.cost)?;
    }
    let lines = rng.between(1, 64);
    let model = Dated::new(&some_dated(rng, lines, 9)).map_err(|n| format!("refused {n}"))?;
    let making = rng.between(1, 300) as usize;
    let using = making + rng.index(256);
    same("dated price", model.price(making, using), model.price_by_definition(making, using))
}

/// The net demands of k periods add up to the greatest excess of gross demand over supply at any of them.
fn netting_is_greatest_excess(rng: &mut Rng) -> Checked {
    let n = rng.index(20);
    let gross = make::demands(rng, n);
    let supply = some_supply(rng, &gross);
    let mut feed = Netting::new(Box::new(Text::new(&make::text(&gross))), &supply).map_err(|n| format!("refused {n}"))?;
    let (mut asked, mut available, mut netted, mut greatest) = (0i64, supply.stock as i64, 0i64, 0i64);
    for (i, demand) in gross.iter().enumerate() {
        let Told::Demand(net) = feed.next() else { return Err("no demand".into()) };
        asked += *demand as i64;
        available += supply.receipts.iter().filter(|r| r.period == i as u64 + 1).map(|r| r.amount as i64).sum::<i64>();
        netted += net as i64;
        greatest = greatest.max(asked - available);
        same("net demand so far", netted, greatest)?;
    }
    same("ending", feed.next(), Told::End)
}

/// Stock and receipts of the size of the demands.
pub fn some_supply(rng: &mut Rng, gross: &[u64]) -> Supply {
    let asked: u64 = gross.iter().sum::<u64>().min(1_000_000_000);
    let most = asked / rng.pick(&[2, 6, 20, 60]);
    let far = (gross.len() as u64 / 4).max(3);
    let mut period = 0;
    let receipts = (0..rng.below(7)).map(|_| {
        period += rng.between(1, far);
        Receipt { period, amount: rng.between(0, most) }
    });
    let receipts = receipts.collect();
    Supply { stock: rng.between(0, most), receipts }
}

/// The first so many lots hold the greatest excess at any period up to their end.
fn lots_hold_the_excess(rng: &mut Rng) -> Checked {
    let asked = if rng.chance(50) { library::netted(rng) } else { library::dated(rng) };
    let (Ok((lots, _)), Ok(layers)) = (library::plan(&asked), library::made_layers(&asked.netting)) else { return Ok(()) };
    let mut gross = asked.gross();
    let (mut excess, mut greatest, mut period, mut amount) = (0i64, 0i64, 0, 0);
    // The layers together have all their stocks and receipts to give.
    excess -= layers.iter().map(|layer| layer.stock as i64).sum::<i64>();
    for lot in lots {
        while period < lot.through {
            period += 1;
            let Told::Demand(demand) = gross.next() else { return Err("a lot for a period without demand".into()) };
            let receipts = layers.iter().flat_map(|layer| &layer.receipts).filter(|r| r.period == period as u64);
            excess += demand as i64 - receipts.map(|r| r.amount as i64).sum::<i64>();
            greatest = greatest.max(excess);
        }
        amount += lot.amount as i64;
        same("amount so far", amount, greatest)?;
    }
    Ok(())
}

/// Costs seen from behind the base.
struct Behind<'a>(&'a dyn CostModel, usize);

impl CostModel for Behind<'_> {
    fn setup(&self, period: usize) -> u64 {
        self.0.setup(period + self.1)
    }

    fn price(&self, making: usize, using: usize) -> u64 {
        self.0.price(making + self.1, using + self.1)
    }
}

/// Whatever demands follow, frozen lots begin a plan as cheap as any.
fn freezing_is_right(rng: &mut Rng) -> Checked {
    let lines = rng.between(1, 4);
    let lines = some_dated(rng, lines, 4);
    let model = Dated::new(&lines).map_err(|n| format!("refused {n}"))?;
    let n = rng.index(9);
    let mut demands = make::demands(rng, n);
    let feed = Box::new(Text::new(&make::text(&demands)));
    let mut planner = Planner::open(feed, Box::new(Dated::new(&lines).map_err(|n| format!("refused {n}"))?));
    let mut frozen: Vec<Lot> = Vec::new();
    while planner.read().is_ok() {
        while let Ok(lot) = planner.take() {
            frozen.push(lot);
        }
    }
    let more = rng.index(5);
    demands.extend(make::demands(rng, more));
    let base = frozen.last().map_or(0, |lot| lot.through);
    let rest = search(&Behind(&model, base), &demands[base..]).ok_or("nothing found")?;
    let spent: u64 = frozen.iter().map(|lot| lot.cost).sum();
    same("cost with the frozen lots", Some(spent + rest.cost), search(&model, &demands).map(|found| found.cost))
}

fn files_read_back(rng: &mut Rng) -> Checked {
    let some_lot = |rng: &mut Rng| Lot {
        kind: rng.pick(&[Kind::Frozen, Kind::Closing]),
        from: rng.between(1, 10_000) as usize,
        through: rng.between(1, 10_000) as usize,
        amount: rng.between(1, 256_000_000),
        cost: rng.any_length((1 << 60) - 1),
        evidence: rng.between(1, 10_000) as usize,
    };
    let lots: Vec<Lot> = (0..rng.below(5)).map(|_| some_lot(rng)).collect();
    same("lots read back", lotwords::read_file(&lotwords::file(&lots)), Some(lots))
}

/// Inputs meant to be sound are, and say what was meant.
fn makers_keep_their_word(rng: &mut Rng) -> Checked {
    let n = rng.index(30);
    let demands = make::demands(rng, n);
    let words = make::order_words(rng, &demands);
    let mut feeds: [Box<dyn Feed>; 2] =
        [Box::new(Text::new(&make::text(&demands))), Box::new(Orders::new(&make::word_bytes(&words)))];
    for feed in feeds.iter_mut() {
        let read: Vec<Told> = (0..=n).map(|_| feed.next()).collect();
        let due: Vec<Told> = demands.iter().map(|&d| Told::Demand(d)).chain([Told::End]).collect();
        same("demands", read, due)?;
    }
    let size = rng.between(1_000, 3_000) as usize;
    let text = make::text_of_size(rng, size);
    same("size of a text", text.len(), size)?;
    let mut feed = Text::new(&text);
    let ending = std::iter::from_fn(|| Some(feed.next())).find(|told| !matches!(told, Told::Demand(_)));
    same("ending of a text", ending, Some(Told::End))
}
