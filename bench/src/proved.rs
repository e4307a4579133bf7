//! The proved library behind a safe call.
use crate::feeds::Refusal;

/// Out of memory is told under this number.
const NO_MEMORY: u32 = u32::MAX;

#[repr(C)]
struct Answer {
    refusal: u32,
    place: u64,
    written: u64,
}

type Plan = unsafe extern "C" fn(
    costs: *const u8,
    costs_len: usize,
    netting: *const u8,
    netting_len: usize,
    demands: *const u8,
    demands_len: usize,
    out: *mut u8,
    out_len: usize,
) -> Answer;

extern "C" {
    fn wirthedol_plan_text(
        costs: *const u8,
        costs_len: usize,
        netting: *const u8,
        netting_len: usize,
        demands: *const u8,
        demands_len: usize,
        out: *mut u8,
        out_len: usize,
    ) -> Answer;

    fn wirthedol_plan_orders(
        costs: *const u8,
        costs_len: usize,
        netting: *const u8,
        netting_len: usize,
        demands: *const u8,
        demands_len: usize,
        out: *mut u8,
        out_len: usize,
    ) -> Answer;
}

fn call(
    plan: Plan,
    costs: &[u8],
    netting: &[u8],
    demands: &[u8],
    out: &mut [u8],
) -> Result<usize, Refusal> {
    // Each pointer comes with the length of the slice that it is of, and only `out` is written.
    let answer = unsafe {
        plan(
            costs.as_ptr(),
            costs.len(),
            netting.as_ptr(),
            netting.len(),
            demands.as_ptr(),
            demands.len(),
            out.as_mut_ptr(),
            out.len(),
        )
    };
    match answer.refusal {
        0 => Ok(answer.written as usize),
        NO_MEMORY => panic!("the library had no memory"),
        number => Err(Refusal {
            number,
            place: answer.place as usize,
        }),
    }
}

pub fn plan_text(
    costs: &[u8],
    netting: &[u8],
    demands: &[u8],
    out: &mut [u8],
) -> Result<usize, Refusal> {
    call(wirthedol_plan_text, costs, netting, demands, out)
}

pub fn plan_orders(
    costs: &[u8],
    netting: &[u8],
    demands: &[u8],
    out: &mut [u8],
) -> Result<usize, Refusal> {
    call(wirthedol_plan_orders, costs, netting, demands, out)
}
