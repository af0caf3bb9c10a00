//! A judge that takes bytes: the oracle, the model, or the Rattle judge behind a
//! host's wrapper. Whatever implements this can be compared and replayed.

use crate::driver::Oracle;
use crate::lookups::Lookups;
use crate::model::judge::Judge;
use crate::report::Reports;

pub trait Judging: Lookups {
    /// Pushes a record's bytes; the refusal, 0 for none.
    fn take(&mut self, bytes: &[u8]) -> u8;
    /// The eight reports in printing order.
    fn eight(&self) -> &Reports;
    /// What is wrong with it beside refusals, reports and look-ups, in words.
    fn amiss(&self) -> Option<&str> {
        None
    }
}

impl Judging for Oracle {
    fn take(&mut self, bytes: &[u8]) -> u8 {
        self.push_bytes(bytes).err().unwrap_or(0)
    }

    fn eight(&self) -> &Reports {
        self.reports()
    }
}

impl Judging for Judge {
    fn take(&mut self, bytes: &[u8]) -> u8 {
        self.push(bytes)
    }

    fn eight(&self) -> &Reports {
        self.reports()
    }
}
