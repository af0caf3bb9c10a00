//! driver: the published Rust on a trace from standard input. Prints document
//! 01's sheet, after each record with --each; see cli.rs for the look-ups.

use oracle::cli::{run, wishes};
use oracle::driver::Oracle;

fn main() {
    let wishes = wishes();
    run(&mut Oracle::with_room(wishes.tenant, wishes.capacity), &wishes);
}
