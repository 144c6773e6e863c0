//! The proved library's calls. With the feature `mock` the reference's flow
//! stands in for it.

use crate::task::{Answer, Task, NODES, NOWHERE};

/// What is lent to a call, piece by piece.
pub struct Lent<'a> {
    pub sets: &'a [u8],
    pub needs: &'a [u8],
    pub caps: &'a [u8],
    pub costs: &'a [u8],
    pub idle: u8,
    /// Asks for the placement within this weight; none asks for the least.
    pub limit: Option<u32>,
}

#[cfg(not(feature = "mock"))]
mod proved {
    extern "C" {
        pub fn placement_least(
            sets: *const u8,
            sets_len: usize,
            needs: *const u8,
            needs_len: usize,
            caps: *const u8,
            caps_len: usize,
            costs: *const u8,
            costs_len: usize,
            idle: u8,
            owners: *mut u8,
            owners_len: usize,
        ) -> u32;
        pub fn placement_within(
            sets: *const u8,
            sets_len: usize,
            needs: *const u8,
            needs_len: usize,
            caps: *const u8,
            caps_len: usize,
            costs: *const u8,
            costs_len: usize,
            idle: u8,
            k: u32,
            owners: *mut u8,
            owners_len: usize,
        ) -> u32;
    }
}

/// Makes the call.
#[cfg(not(feature = "mock"))]
pub fn call(lent: &Lent, owners: &mut [u8]) -> u32 {
    let (sets, needs) = (lent.sets, lent.needs);
    let (caps, costs) = (lent.caps, lent.costs);
    // SAFETY: each pointer comes with the length of what it points to.
    unsafe {
        match lent.limit {
            None => proved::placement_least(
                sets.as_ptr(),
                sets.len(),
                needs.as_ptr(),
                needs.len(),
                caps.as_ptr(),
                caps.len(),
                costs.as_ptr(),
                costs.len(),
                lent.idle,
                owners.as_mut_ptr(),
                owners.len(),
            ),
            Some(limit) => proved::placement_within(
                sets.as_ptr(),
                sets.len(),
                needs.as_ptr(),
                needs.len(),
                caps.as_ptr(),
                caps.len(),
                costs.as_ptr(),
                costs.len(),
                lent.idle,
                limit,
                owners.as_mut_ptr(),
                owners.len(),
            ),
        }
    }
}

#[cfg(feature = "mock")]
pub fn call(lent: &Lent, owners: &mut [u8]) -> u32 {
    let lengths = [lent.sets, lent.needs, lent.caps, lent.costs, owners].map(|piece| piece.len());
    if lengths != [32, 16, 16, 512, 32] {
        return crate::task::WRONG_LENGTH;
    }
    let task = Task {
        sets: lent.sets.try_into().expect("32 bytes"),
        needs: lent.needs.try_into().expect("16 bytes"),
        caps: lent.caps.try_into().expect("16 bytes"),
        costs: lent.costs.try_into().expect("512 bytes"),
        idle: lent.idle,
        limit: lent.limit,
    };
    let (weight, found) = task.by_flow();
    owners.copy_from_slice(&found);
    weight
}

/// What the library answers to a task. The owners hold no shard before.
pub fn answer(task: &Task) -> Answer {
    let mut owners = [NOWHERE + 9; NODES];
    let weight = call(&lent(task), &mut owners);
    (weight, owners)
}

pub fn lent(task: &Task) -> Lent<'_> {
    Lent {
        sets: &task.sets,
        needs: &task.needs,
        caps: &task.caps,
        costs: &task.costs,
        idle: task.idle,
        limit: task.limit,
    }
}
