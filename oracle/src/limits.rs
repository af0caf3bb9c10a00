//! Document 01's refusals 5 to 8, document 02's 11, and the order of all, asked of
//! the model. The Rust has no capacity and no buffers, so there is nothing to
//! compare them with.

use crate::damage::{continuing, good};
use crate::lookups::Lookups;
use crate::model::judge::Judge;

/// How many limits were asked.
struct Asked(usize);

impl Asked {
    fn same(&mut self, what: &str, found: u8, expected: u8) {
        assert_eq!(found, expected, "{what}");
        self.0 += 1;
    }
}

/// Asks every limit; stops at the first that is not as document 01 says.
pub fn check() -> usize {
    let mut asked = Asked(0);
    openings(&mut asked);
    full_judges(&mut asked);
    continued(&mut asked);
    lent_lengths(&mut asked);
    lists(&mut asked);
    asked.0
}

fn openings(asked: &mut Asked) {
    for c in [0, 1, 2, 95, 96, 97, 4095, 4096, 4097] {
        let fits = if (1..=4096).contains(&c) { 0 } else { 7 };
        asked.same("opening", Judge::open(368 * c, 32 * c, 5).0, fits);
        asked.same("a log too long", Judge::open(368 * c + 1, 32 * c, 5).0, 7);
        asked.same("a work area too long", Judge::open(368 * c, 32 * c + 1, 5).0, 7);
        asked.same("another work area", Judge::open(368 * c, 32 * (c + 1), 5).0, 7);
    }
}

/// A judge full of grants.
fn full(capacity: usize) -> Judge {
    let mut judge = Judge::open(368 * capacity, 32 * capacity, 0).1;
    let grant = good(11, true).encode();
    (0..capacity).for_each(|_| assert_eq!(judge.push(&grant), 0));
    judge
}

/// One record too many: the refusals of its form come first.
fn full_judges(asked: &mut Asked) {
    for capacity in [1, 2, 96] {
        let mut judge = full(capacity);
        let before = *judge.reports();
        let grant = good(11, true).encode();
        asked.same("one too many", judge.push(&grant), 6);
        asked.same("torn", judge.push(&grant[..367]), 1);
        for (place, value, refusal) in [(0, 13, 2), (1, 2, 3), (50, 1, 4)] {
            let mut damaged = grant;
            damaged[place] = value;
            asked.same("damaged", judge.push(&damaged), refusal);
        }
        let same = *judge.reports() == before && judge.count() == capacity;
        asked.same("a refusal changes nothing", u8::from(same), 1);
    }
}

/// A record that continues nothing: after 4, before 6, and by the last record taken
/// alone. One that continues is as any other.
fn continued(asked: &mut Asked) {
    let (first, next) = (good(12, true).encode(), continuing(true).encode());
    let mut judge = Judge::open(736, 64, 0).1;
    asked.same("no record taken", judge.push(&next), 11);
    asked.same("begins", judge.push(&first), 0);
    for (place, value, refusal) in [(1, 0, 4), (4, 0, 11), (16, 0, 11), (8, 0, 0)] {
        let mut other = next;
        other[place] = value;
        asked.same("another mark, node, index, range", judge.clone().push(&other), refusal);
    }
    let mut nodeless = next;
    nodeless[1] = 0;
    nodeless[4..8].fill(0);
    asked.same("no node", judge.push(&nodeless), 11);
    asked.same("continues", judge.push(&next), 0);
    asked.same("continues, full", judge.push(&next), 6);
    asked.same("nothing to continue, full", judge.push(&nodeless), 11);
    let mut damaged = nodeless;
    damaged[50] = 1;
    asked.same("damaged, nothing to continue, full", judge.push(&damaged), 4);
    let mut flagged = next;
    flagged[3] = 2;
    asked.same("another flag", judge.push(&flagged), 3);
    asked.same("two records", judge.count() as u8, 2);
}

/// Refusal 5 comes before all others.
fn lent_lengths(asked: &mut Asked) {
    let mut judge = full(2);
    for (log, work) in [(736, 63), (735, 64), (0, 0), (368, 32), (1104, 96)] {
        asked.same("lengths", judge.push_lent(log, work, &[]), 5);
    }
    asked.same("the right lengths", judge.push_lent(736, 64, &[]), 1);
    judge.capacity = 4097;
    asked.same("C above 4,096", judge.push_lent(368 * 4097, 32 * 4097, &[]), 5);
    judge.capacity = 1;
    asked.same("a count above C", judge.push_lent(368, 32, &[]), 5);
}

fn lists(asked: &mut Asked) {
    let mut judge = Judge::open(736, 64, 0).1;
    let mut grant = good(11, true);
    grant.numbers = [7, 1, 1, 10, 19];
    assert_eq!(judge.push(&grant.encode()), 0);
    let blocks = judge.blocks().concat();
    let mut list = [9; 4];
    asked.same("too short", judge.write_list(736, 64, &blocks, &mut list[..2]), 8);
    asked.same("lengths first", judge.write_list(736, 63, &blocks, &mut list[..2]), 5);
    asked.same("unchanged", u8::from(list == [9; 4]), 1);
    asked.same("long enough", judge.write_list(736, 64, &blocks, &mut list), 0);
    asked.same("the rest is left", u8::from(list == [10, 19, 7, 9]), 1);
    let none = judge.holders_of(20);
    asked.same("an empty answer fits", judge.write_list(736, 64, &none, &mut []), 0);
}
