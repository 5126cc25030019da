//! What several of the plain programs need.

pub mod cascade;
pub mod changes;
pub mod command;
pub mod configuration;
pub mod cutter;
pub mod data;
pub mod fast;
pub mod front;
pub mod job;
pub mod phase;
pub mod scale;
pub mod severity;
pub mod smooth;
pub mod text;
