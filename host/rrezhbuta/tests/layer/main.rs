//! The crate against the library: each method and answer, refusals, lengths, and the boundary itself.

mod boundary;
mod common;
mod lengths;
mod methods;
mod refusals;
mod status;
