//! A safe interface to the proved loader.
//!
//! [`check`], [`run`] and [`find_proof`] are the library's three calls. [`Routine`] puts them
//! together: it exists only for a package that the checker has accepted.
//!
//! ```no_run
//! use loader::{Routine, Workspace};
//!
//! let (policy, package) = (std::fs::read("policy.bin")?, std::fs::read("routine.bin")?);
//! let mut workspace = Workspace::new();
//! let routine = Routine::load(&mut workspace, &policy, &package).expect("accepted");
//! let (mut registers, mut memory) = ([0; 16], vec![0; 32]);
//! let outcome = routine.run(&mut registers, &mut memory, 1_000);
//! println!("{} after {} steps", outcome.number, outcome.steps);
//! # Ok::<(), std::io::Error>(())
//! ```

#![warn(missing_docs)]

/// Words of workspace that [`check`] asks for.
pub const WORKSPACE_WORDS: usize = 16_384;

/// The registers of the machine.
pub const REGISTERS: usize = 16;

/// The checker's answer.
#[derive(Clone, Copy, Debug, PartialEq, Eq)]
pub struct Verdict {
    /// 0 for accepted, else the number of the check that refuses.
    pub number: u32,
    /// Where: a byte, an index or a region, as the number has it.
    pub place: usize,
    /// The goals fully derived by then.
    pub goals: usize,
}

impl Verdict {
    /// Whether the package is accepted.
    pub fn is_accepted(&self) -> bool {
        self.number == 0
    }
}

/// The runner's answer.
#[derive(Clone, Copy, Debug, PartialEq, Eq)]
pub struct Outcome {
    /// 0 for returned, 20 budget spent, 21 access without the right, 22 past the last
    /// instruction, else the check that refuses.
    pub number: u32,
    /// The counter after a run, else the place of the refusal.
    pub place: usize,
    /// The steps run.
    pub steps: u32,
}

impl Outcome {
    /// Whether the routine has returned.
    pub fn has_returned(&self) -> bool {
        self.number == 0
    }
}

/// The finder's answer.
#[derive(Clone, Copy, Debug, PartialEq, Eq)]
pub struct Finding<'a> {
    /// 0, or 7 if the header or the length is wrong.
    pub number: u32,
    /// The place of the refusal, 0 if there is none.
    pub place: usize,
    /// Where the proof section starts in the package.
    pub start: usize,
    /// The proof section, empty after a refusal.
    pub proof: &'a [u8],
}

/// The library's calls, as `include/pcc.h` has them.
mod interface {
    unsafe extern "C" {
        pub fn pcc_check(
            workspace: *mut u32,
            words: usize,
            policy: *const u8,
            policy_len: usize,
            package: *const u8,
            package_len: usize,
            answer: *mut u64,
        );
        pub fn pcc_run(
            policy: *const u8,
            policy_len: usize,
            package: *const u8,
            package_len: usize,
            registers: *mut u32,
            register_words: usize,
            memory: *mut u32,
            memory_words: usize,
            budget: u32,
            answer: *mut u64,
        );
        pub fn pcc_find_proof(package: *const u8, package_len: usize, answer: *mut u64) -> usize;
    }
}

/// Judges `package` under `policy`.
///
/// A workspace of fewer than [`WORKSPACE_WORDS`] words is refused and left as it was; any other
/// is left all zero. The call takes up to 414 KB of stack, for a path of 512 branches; its thread
/// should have 512 KB.
pub fn check(workspace: &mut [u32], policy: &[u8], package: &[u8]) -> Verdict {
    let mut answer = [0; 3];
    // SAFETY: each pointer comes with the length of its slice, the answer has three words, and
    // what is written is borrowed for this call alone.
    unsafe {
        interface::pcc_check(
            workspace.as_mut_ptr(),
            workspace.len(),
            policy.as_ptr(),
            policy.len(),
            package.as_ptr(),
            package.len(),
            answer.as_mut_ptr(),
        );
    }
    let [number, place, goals] = answer;
    Verdict { number: small(number), place: size(place), goals: size(goals) }
}

/// Runs `package` for at most `budget` steps from the registers and the memory given, checked or
/// not; see [`Routine`] for one that is.
///
/// They hold the machine's state afterwards, and are left as they were if a check refuses. In
/// every run a memory word that the policy does not make writable keeps what it held.
pub fn run(
    policy: &[u8],
    package: &[u8],
    registers: &mut [u32],
    memory: &mut [u32],
    budget: u32,
) -> Outcome {
    let mut answer = [0; 3];
    // SAFETY: as in `check`; registers and memory are two borrows, so they do not overlap.
    unsafe {
        interface::pcc_run(
            policy.as_ptr(),
            policy.len(),
            package.as_ptr(),
            package.len(),
            registers.as_mut_ptr(),
            registers.len(),
            memory.as_mut_ptr(),
            memory.len(),
            budget,
            answer.as_mut_ptr(),
        );
    }
    let [number, place, steps] = answer;
    Outcome { number: small(number), place: size(place), steps: small(steps) }
}

/// Finds the proof section of a package that passes check 7.
pub fn find_proof(package: &[u8]) -> Finding<'_> {
    let mut answer = [0; 3];
    // SAFETY: as in `check`.
    let length =
        unsafe { interface::pcc_find_proof(package.as_ptr(), package.len(), answer.as_mut_ptr()) };
    let [number, place, start] = answer;
    let start = size(start);
    Finding {
        number: small(number),
        place: size(place),
        start,
        proof: &package[start..start + length],
    }
}

fn small(number: u64) -> u32 {
    number.try_into().expect("32 bits are promised")
}

fn size(number: u64) -> usize {
    number.try_into().expect("a place in memory")
}

/// A workspace of the size that [`check`] asks for.
#[derive(Clone, Debug)]
pub struct Workspace {
    words: Box<[u32]>,
}

impl Workspace {
    /// A workspace.
    pub fn new() -> Self {
        Workspace { words: vec![0; WORKSPACE_WORDS].into_boxed_slice() }
    }
}

impl Default for Workspace {
    fn default() -> Self {
        Workspace::new()
    }
}

/// A package that the checker has accepted under a policy.
///
/// On every start that meets the policy's precondition, such a routine stays within its rights,
/// returns within the policy's step limit, and leaves the postcondition true.
#[derive(Clone, Copy, Debug)]
pub struct Routine<'a> {
    policy: &'a [u8],
    package: &'a [u8],
    goals: usize,
}

impl<'a> Routine<'a> {
    /// Checks a package; hands back the verdict if it is refused.
    pub fn load(
        workspace: &mut Workspace,
        policy: &'a [u8],
        package: &'a [u8],
    ) -> Result<Self, Verdict> {
        let verdict = check(&mut workspace.words, policy, package);
        if verdict.is_accepted() {
            Ok(Routine { policy, package, goals: verdict.goals })
        } else {
            Err(verdict)
        }
    }

    /// The goals that were derived.
    pub fn goals(&self) -> usize {
        self.goals
    }

    /// The proof that was checked.
    pub fn proof(&self) -> &'a [u8] {
        find_proof(self.package).proof
    }

    /// Runs the routine for at most `budget` steps.
    pub fn run(
        &self,
        registers: &mut [u32; REGISTERS],
        memory: &mut [u32],
        budget: u32,
    ) -> Outcome {
        run(self.policy, self.package, registers, memory, budget)
    }
}
