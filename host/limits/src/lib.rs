//! The capacities, offsets and numbers of the layer, from the one file that names them.

include!(concat!(env!("OUT_DIR"), "/limits.rs"));
