//! Checks a package and runs it: `load POLICY PACKAGE START`, the files of a sample folder.
//!
//! The start file has the budget, sixteen registers and the memory, 4 bytes each.

use std::error::Error;

use loader::{Routine, Workspace, REGISTERS};

fn main() -> Result<(), Box<dyn Error>> {
    let paths: Vec<String> = std::env::args().skip(1).collect();
    let [policy, package, start] = paths.as_slice() else {
        return Err("usage: load POLICY PACKAGE START".into());
    };
    let (policy, package) = (std::fs::read(policy)?, std::fs::read(package)?);
    let start: Vec<u32> =
        std::fs::read(start)?.as_chunks().0.iter().map(|&word| u32::from_le_bytes(word)).collect();

    let mut workspace = Workspace::new();
    let routine = Routine::load(&mut workspace, &policy, &package)
        .map_err(|verdict| format!("refused: {verdict:?}"))?;
    println!("accepted: {} goals, {} bytes of proof", routine.goals(), routine.proof().len());

    let (&budget, state) = start.split_first().ok_or("no budget in the start file")?;
    let (registers, memory) = state.split_at_checked(REGISTERS).ok_or("too few registers")?;
    let mut registers: [u32; REGISTERS] = registers.try_into()?;
    let mut memory = memory.to_vec();
    let outcome = routine.run(&mut registers, &mut memory, budget);
    println!("run: {outcome:?}");
    println!("registers: {registers:?}");
    Ok(())
}
