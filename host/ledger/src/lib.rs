//! Demand 3's ledger as document 01 has it, and a history of calls on which it is held against the tables, call by
//! call.

/// The capacities and numbers, from the one file that names them.
pub use rrezhbuta_limits as limits;

pub mod acts;
pub mod call;
pub mod history;
pub mod ledger;
pub mod page;
mod reading;
pub mod side;
pub mod tally;
