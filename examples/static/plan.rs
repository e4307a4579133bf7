//! Plans the forecast of the README from Rust, once as it is and once over a stock, and prints a line for each lot.

#[repr(C)]
struct Answer {
    refusal: u32,
    place: u64,
    written: u64,
}

extern "C" {
    fn wirthedol_plan_text(
        costs: *const u8,
        costs_length: usize,
        netting: *const u8,
        netting_length: usize,
        demands: *const u8,
        demands_length: usize,
        out: *mut u8,
        out_length: usize,
    ) -> Answer;
}

/// Why there is no plan.
#[derive(Debug)]
enum PlanError {
    Refused { number: u32, place: u64 },
    NoMemory,
}

/// The lot file of a forecast text, behind a safe call.
fn plan_text(costs: &[u8], netting: &[u8], demands: &[u8]) -> Result<Vec<u8>, PlanError> {
    let lines = demands.iter().filter(|&&b| b == b'\n').count();
    let mut out = vec![0; 24 * lines + 4];
    // Each pointer comes with the length of its own slice, and only `out` is written.
    let answer = unsafe {
        wirthedol_plan_text(
            costs.as_ptr(),
            costs.len(),
            netting.as_ptr(),
            netting.len(),
            demands.as_ptr(),
            demands.len(),
            out.as_mut_ptr(),
            out.len(),
        )
    };
    match answer.refusal {
        0 => {
            out.truncate(answer.written as usize);
            Ok(out)
        }
        u32::MAX => Err(PlanError::NoMemory),
        number => Err(PlanError::Refused {
            number,
            place: answer.place,
        }),
    }
}

fn bytes(numbers: &[u32]) -> Vec<u8> {
    numbers.iter().flat_map(|n| n.to_be_bytes()).collect()
}

fn print_lots(file: &[u8]) {
    for lot in file.chunks_exact(24) {
        let word = |k: usize| {
            u64::from(u32::from_be_bytes(
                lot[4 * k..4 * k + 4].try_into().unwrap(),
            ))
        };
        let kind = if word(0) >> 30 == 1 {
            "frozen"
        } else {
            "closing"
        };
        let cost = (word(4) << 30) + word(5);
        println!(
            "{kind} {} {} {} {cost} {}",
            word(0) & 0x3fff_ffff,
            word(1),
            word(2),
            word(3)
        );
    }
}

fn main() -> Result<(), PlanError> {
    // One line from period 1 on: a setup costs 10, making a unit 0, keeping a unit for one period 1.
    let costs = bytes(&[1, 10, 0, 1]);
    let demands = b"1,4\n2,3\n3,8\n4,2\n5,9\nend\n";
    print_lots(&plan_text(&costs, &[], demands)?);
    println!("over a stock of 5, with 9 received in period 5:");
    let netting = bytes(&[5, 1, 5, 9]);
    print_lots(&plan_text(&costs, &netting, demands)?);
    match plan_text(&costs, &[], b"1,4\n2,x\nend\n") {
        Err(PlanError::Refused { number, place }) => println!("refused {number} at {place}"),
        other => println!("{other:?}"),
    }
    Ok(())
}
