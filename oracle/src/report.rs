//! The eight reports in printing order, as document 01 prints them.

use std::fmt;

/// The checks, in printing order.
pub const CHECKS: [&str; 8] =
    ["agreement", "overlap", "install", "twice", "half", "generations", "ids", "meta"];

/// How many kinds of fault each check has.
pub const KINDS: [u8; 8] = [3, 1, 1, 1, 2, 2, 3, 4];

/// One check's answer: kind 0 is a pass and leaves the rest 0.
#[derive(Clone, Copy, Debug, Default, PartialEq, Eq)]
pub struct Report {
    pub kind: u8,
    pub position: u64,
    pub evidence: [u64; 5],
}

/// All eight.
pub type Reports = [Report; 8];

impl Report {
    /// A fault at a position, its missing evidence 0.
    pub fn fault(kind: u8, position: u64, numbers: &[u64]) -> Report {
        let mut evidence = [0; 5];
        evidence[..numbers.len()].copy_from_slice(numbers);
        Report { kind, position, evidence }
    }
}

impl fmt::Display for Report {
    fn fmt(&self, f: &mut fmt::Formatter<'_>) -> fmt::Result {
        if self.kind == 0 {
            return f.write_str("pass");
        }
        let [a, b, c, d, e] = self.evidence;
        write!(f, "fault {} at {}: {a} {b} {c} {d} {e}", self.kind, self.position)
    }
}

/// The lines of the sheet for eight reports.
pub fn sheet(reports: &Reports) -> String {
    let lines = CHECKS.iter().zip(reports).map(|(name, report)| format!("{name} {report}\n"));
    lines.collect()
}
