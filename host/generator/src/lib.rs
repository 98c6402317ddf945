//! Seeded inputs for the loader: [`case::Cases`] gives them one after the other.
//!
//! Random routines come with annotations and a proof that a small search has found; so a good
//! share is accepted. The rest is damage of such packages, sizes at the limits, and packages that
//! are as costly to check as their size allows.

#![forbid(unsafe_code)]
#![warn(missing_docs)]

pub mod assemble;
pub mod case;
pub mod damage;
pub mod derivation;
pub mod goals;
pub mod hostile;
pub mod paths;
pub mod random;
pub mod regions;
pub mod routine;
pub mod search;
pub mod shapes;
pub mod term;
pub mod worst;
