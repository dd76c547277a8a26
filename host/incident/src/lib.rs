//! The incident, replayed on the layer's tables: a mesh file whose header lies makes a loader flood a viewer with
//! queued signals. The others go on working, and the operator's KILL lands.

pub mod failure;
pub mod flood;
pub mod kill;
pub mod mesh;
pub mod page;
pub mod replay;
pub mod room;
