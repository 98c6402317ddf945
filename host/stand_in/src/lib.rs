//! The C interface of `include/pcc.h` over the reference.
//!
//! It makes a `libhost_interface.a` that takes the place of the proved library, so that the
//! loader, the differential tests and the C example can be linked and tried without it. It proves
//! nothing.

#![warn(missing_docs)]

use std::slice::{from_raw_parts, from_raw_parts_mut};

/// `pcc_check` of `include/pcc.h`.
///
/// # Safety
///
/// As `include/pcc.h` has it: each pointer points to as many elements as its length says.
#[no_mangle]
pub unsafe extern "C" fn pcc_check(
    workspace: *mut u32,
    words: usize,
    policy: *const u8,
    policy_len: usize,
    package: *const u8,
    package_len: usize,
    answer: *mut [u64; 3],
) {
    // SAFETY: the caller's.
    let (workspace, policy, package, answer) = unsafe {
        (
            from_raw_parts_mut(workspace, words),
            from_raw_parts(policy, policy_len),
            from_raw_parts(package, package_len),
            &mut *answer,
        )
    };
    let verdict = reference::check(workspace, policy, package);
    *answer = [u64::from(verdict.number), verdict.place as u64, verdict.goals as u64];
}

/// `pcc_run` of `include/pcc.h`.
///
/// # Safety
///
/// As `include/pcc.h` has it.
#[no_mangle]
pub unsafe extern "C" fn pcc_run(
    policy: *const u8,
    policy_len: usize,
    package: *const u8,
    package_len: usize,
    registers: *mut u32,
    register_words: usize,
    memory: *mut u32,
    memory_words: usize,
    budget: u32,
    answer: *mut [u64; 3],
) {
    // SAFETY: the caller's.
    let (policy, package, registers, memory, answer) = unsafe {
        (
            from_raw_parts(policy, policy_len),
            from_raw_parts(package, package_len),
            from_raw_parts_mut(registers, register_words),
            from_raw_parts_mut(memory, memory_words),
            &mut *answer,
        )
    };
    let outcome = reference::run(policy, package, registers, memory, budget);
    *answer = [u64::from(outcome.number), outcome.place as u64, u64::from(outcome.steps)];
}

/// `pcc_find_proof` of `include/pcc.h`.
///
/// # Safety
///
/// As `include/pcc.h` has it.
#[no_mangle]
pub unsafe extern "C" fn pcc_find_proof(
    package: *const u8,
    package_len: usize,
    answer: *mut [u64; 3],
) -> usize {
    // SAFETY: the caller's.
    let (package, answer) = unsafe { (from_raw_parts(package, package_len), &mut *answer) };
    let finding = reference::find_proof(package);
    *answer = [u64::from(finding.number), finding.place as u64, finding.start as u64];
    finding.length
}
