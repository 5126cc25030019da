//! The stages of the command `report` with the same digits, by faster arithmetic of whole numbers.
//!
//! Each stage takes a block of samples at a time, so that its numbers stay in the nearest cache from one stage to the next.

pub mod adaptor;
pub mod changes;
pub mod flags;
pub mod halves;
pub mod phase;
pub mod ranks;
pub mod record;
pub mod sections;
pub mod smooth;
pub mod source;
pub mod voltage;

/// The samples of a block.
pub const BLOCK: usize = 512;
