//! A module inside the crate, so that it reaches what is private there. For the comparison alone.
use crate::{Error, Flash, FlashAccess, Result};
use alloc::vec::Vec;
use core::time::Duration;

/// The access that the driver was given.
pub fn access<'f, A: FlashAccess>(flash: &'f mut Flash<'_, A>) -> &'f mut A {
    flash.access
}

pub fn clear_capacity<A: FlashAccess>(flash: &mut Flash<'_, A>) {
    flash.capacity = None;
}

pub fn check<A: FlashAccess>(flash: &Flash<'_, A>, address: u32, length: usize) -> Result<()>
where
    Error: From<A::Error>,
{
    flash.check_address_length(address, length)
}

/// The plan as the driver's own commands come by it: the range is checked first.
pub fn plan<A: FlashAccess>(
    flash: &Flash<'_, A>,
    address: u32,
    length: usize,
) -> Result<Vec<(u8, usize, u32, Option<Duration>)>>
where
    Error: From<A::Error>,
{
    flash.check_address_length(address, length)?;
    flash.make_erase_plan(address, length).map(|plan| plan.0)
}
