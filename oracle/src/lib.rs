//! The oracle library: the published Rust driven on records of document 01, a
//! plain model of document 01, the trace generator and what compares them.

pub mod beginnings;
pub mod cli;
pub mod cluster;
pub mod compare;
pub mod counts;
pub mod damage;
pub mod decode;
pub mod driver;
pub mod entries;
pub mod event_examples;
pub mod examples;
pub mod exhaustive;
pub mod generate;
pub mod judging;
pub mod keys;
pub mod limits;
pub mod lookups;
pub mod minimise;
pub mod misread;
pub mod model;
pub mod preview;
pub mod profiles;
pub mod random;
pub mod report;
pub mod slips;
pub mod stored;
pub mod tally;
pub mod text;
pub mod vectors;
pub mod verdict;
pub mod wire;
