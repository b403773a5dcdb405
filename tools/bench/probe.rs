//! A module inside the crate, so that it reaches what is private there. For the benchmark alone.
use crate::erase_plan::ErasePlan;
use core::time::Duration;

/// Makes the plan from address 0 on, and sums what `fold` makes of its entries.
pub fn plan(insts: &[(usize, u8, Option<Duration>)], length: usize, fold: impl Fn(u8, usize, u32) -> u64) -> u64 {
    let plan = ErasePlan::new(insts, 0, length);
    plan.0.iter().fold(0u64, |sum, entry| sum.wrapping_add(fold(entry.0, entry.1, entry.2)))
}
