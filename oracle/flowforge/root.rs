//! FlowForge's published files with the harness around them.
//!
//! Two crates are made of this source. `published` compiles the files as they are, for packets of
//! 11,200 bits; `patched` compiles them with the patch of `tree.rs`, for any other sizes.

include!(concat!(env!("OUT_DIR"), "/root.rs"));

// The published files say `crate::` and mean their own lib.rs.
pub use flowforge::*;

mod effect;
mod look;
pub mod meter_script;
mod policy;
pub mod session;
pub mod sizes;
mod wiring;
