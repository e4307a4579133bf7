//! The proved static library behind the trait that the model has too.

use crate::library::{Asked, Library, Source};
use crate::program::Refusal;

/// What the room for the lot file is filled with beforehand, to see which bytes were written.
const UNTOUCHED: u8 = 0xA5;

/// Want of memory has no refusal's number.
const NO_MEMORY: u32 = u32::MAX;

#[repr(C)]
struct Answer {
    refusal: u32,
    place: u64,
    written: u64,
}

type Plan = unsafe extern "C" fn(*const u8, usize, *const u8, usize, *const u8, usize, *mut u8, usize) -> Answer;

extern "C" {
    fn wirthedol_plan_text(c: *const u8, cn: usize, s: *const u8, sn: usize, d: *const u8, dn: usize, o: *mut u8, on: usize) -> Answer;
    fn wirthedol_plan_orders(c: *const u8, cn: usize, s: *const u8, sn: usize, d: *const u8, dn: usize, o: *mut u8, on: usize) -> Answer;
}

pub struct Proved;

impl Library for Proved {
    fn answer(&self, asked: &Asked) -> Result<Vec<u8>, Refusal> {
        let plan: Plan = match asked.source {
            Source::Text => wirthedol_plan_text,
            Source::Orders => wirthedol_plan_orders,
        };
        let (costs, netting, demands) = (&asked.costs, &asked.netting, &asked.demands);
        let mut out = vec![UNTOUCHED; asked.room];
        // SAFETY: each pointer stands with the length of the bytes it points to, and only `out` is written.
        let answer = unsafe {
            plan(
                costs.as_ptr(), costs.len(), netting.as_ptr(), netting.len(),
                demands.as_ptr(), demands.len(), out.as_mut_ptr(), out.len(),
            )
        };
        match answer.refusal {
            0 => {
                let behind = out.split_off(answer.written as usize);
                assert!(untouched(&behind), "bytes behind the lot file were written");
                Ok(out)
            }
            NO_MEMORY => panic!("the library had no memory"),
            number => {
                assert!(untouched(&out) && answer.written == 0, "something was written at a refusal");
                Err(Refusal { number, place: answer.place as usize })
            }
        }
    }
}

fn untouched(bytes: &[u8]) -> bool {
    bytes.iter().all(|&byte| byte == UNTOUCHED)
}
