//! A plain model of document 01, with document 02's changes so far, written from
//! their prose and not from the Rust: every term is a look back over the records
//! taken. Slow on purpose.

pub mod descriptors;
pub mod events;
pub mod form;
pub mod generations;
pub mod half;
pub mod ids;
pub mod judge;
pub mod meta;
pub mod owners;
pub mod readings;

/// A case of a check: kind and evidence.
pub type Case = Option<(u8, Vec<u64>)>;
