//! How long the proved library takes for each kind of call against the second model. Both judge the whole store at
//! every call.

pub mod lowest;
pub mod timing;
pub mod work;
