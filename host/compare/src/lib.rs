//! The proved library and the second model on the same random calls. After every call the answers are compared and the
//! four tables, word for word and byte for byte. A list of calls on which they differ is made as short as it can be.

pub mod damage;
pub mod edit;
pub mod generate;
pub mod image;
pub mod layer;
pub mod random;
pub mod run;
pub mod shrink;
pub mod step;
pub mod summary;
