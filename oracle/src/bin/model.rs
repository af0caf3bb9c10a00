//! model: the plain model of document 01 on a trace from standard input, with
//! the options and the output of `driver`.

use oracle::cli::{run, wishes};
use oracle::model::judge::{Judge, MOST};

fn main() {
    let wishes = wishes();
    let room = usize::try_from(wishes.capacity).map_or(MOST, |room| room.min(MOST));
    let mut judge = Judge::roomy(wishes.tenant);
    judge.capacity = room;
    run(&mut judge, &wishes);
}
