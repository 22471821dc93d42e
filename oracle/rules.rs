//! The rules a second time, and what is asked of them: all that the programs of this folder share.

pub mod call;
pub mod dock;
pub mod home;
pub mod homestates;
pub mod model;
pub mod random;
pub mod recording;
pub mod salvage;
pub mod sessions;
pub mod tile;
pub mod turns;
pub mod writer;
