//! `against orders`: the grants of a trace in other orders (document 02's change 6). Each order
//! goes through both sides as a trace does; its ids report is a pass where the trace's is, and then
//! every id has one holder at most, the same as in the trace.

use std::collections::BTreeSet;

use oracle::compare::{Asking, Comparer, numbered, taken};
use oracle::counts::{columns, line};
use oracle::driver::judge_whole;
use oracle::exhaustive::alphabets;
use oracle::generate::{Trace, names};
use oracle::lookups::{Lookups, ids};
use oracle::random::Random;
use oracle::report::{Report, Reports};
use oracle::wire::Record;

use crate::previews::{add, draws};
use crate::{both, disagree};

/// The place of ids among the reports.
const IDS: usize = 6;

/// An order of a trace's records, by their places in it. Some may be left out, or come twice.
struct Order {
    name: &'static str,
    places: Vec<usize>,
}

/// The orders that a trace is tried in.
type Orders = fn(&[Record], &mut Random) -> Vec<Order>;

/// The grants exchanged among their places; all records shuffled, so that some may continue
/// nothing and are refused; the grants alone, backwards; and every grant a second time somewhere.
/// Those that are the trace itself are left out.
fn drawn(records: &[Record], random: &mut Random) -> Vec<Order> {
    let all: Vec<usize> = (0..records.len()).collect();
    let is_grant = |place: &usize| records[*place].kind == 11;
    let grants: Vec<usize> = all.iter().copied().filter(is_grant).collect();
    let (mut exchanged, mut twice) = (all.clone(), all.clone());
    for (to, from) in grants.iter().zip(random.shuffled(&grants)) {
        exchanged[*to] = from;
    }
    for grant in &grants {
        twice.insert(random.below(twice.len() as u64 + 1) as usize, *grant);
    }
    let mut orders = vec![
        Order { name: "grants exchanged", places: exchanged },
        Order { name: "all shuffled", places: random.shuffled(&all) },
        Order { name: "grants alone, backwards", places: grants.into_iter().rev().collect() },
        Order { name: "every grant twice", places: twice },
    ];
    orders.retain(|order| order.places != all);
    orders
}

/// Every order but the trace's own, each once where records are the same.
fn every(records: &[Record], _: &mut Random) -> Vec<Order> {
    let mut places: Vec<Vec<usize>> = vec![Vec::new()];
    for place in 0..records.len() {
        let with = |order: &Vec<usize>, at: usize| [&order[..at], &[place], &order[at..]].concat();
        places = places.iter().flat_map(|o| (0..=place).map(move |at| with(o, at))).collect();
    }
    let numbers = |order: &[usize]| -> Vec<[u64; 5]> {
        order.iter().map(|place| records[*place].numbers).collect()
    };
    let own: Vec<usize> = (0..records.len()).collect();
    let mut seen = BTreeSet::from([numbers(&own)]);
    places.retain(|order| seen.insert(numbers(order)));
    places.into_iter().map(|places| Order { name: "another order", places }).collect()
}

/// What both sides say of a trace: the reports, and where ids passes each id with its holder.
struct Said {
    reports: Reports,
    holders: Vec<(u64, Option<u64>)>,
}

impl Said {
    fn ids(&self) -> &Report {
        &self.reports[IDS]
    }
}

/// Both sides over a trace: the same reports after each record, so one verdict of the two, and
/// where ids passes the same holder of each id, one at most.
fn judged(
    comparer: &mut Comparer,
    tenant: u64,
    records: &[Record],
    number: u64,
) -> Result<Said, String> {
    let (reports, judge, _) = both(comparer, tenant, records, Asking::AtTheEnd, number)?;
    let mut said = Said { reports, holders: Vec::new() };
    if said.ids().kind != 0 {
        return Ok(said);
    }
    let rust = judge_whole(&taken(records), tenant).ids;
    for id in ids(records) {
        let (theirs, ours) = (rust.holders_of(id), judge.holders_of(id));
        if theirs != ours || ours.len() > 1 {
            return Err(format!("ids passes, and {id} is held by {theirs:?}, {ours:?}"));
        }
        said.holders.push((id, ours.first().copied()));
    }
    Ok(said)
}

/// An order says what the trace does: a pass or a fault, and the same holders. Kind, position and
/// evidence may be others.
fn same(trace: &Said, order: Said) -> Result<Said, String> {
    let (first, other) = (trace.ids(), order.ids());
    if (first.kind == 0) != (other.kind == 0) {
        return Err(format!("ids {other}, in the trace {first}"));
    }
    let mut pairs = trace.holders.iter().zip(&order.holders);
    match pairs.find(|(first, other)| first != other) {
        Some((first, other)) => Err(format!("id and holder {other:?}, in the trace {first:?}")),
        None => Ok(order),
    }
}

/// A trace and its orders, which agree.
struct Tried {
    trace: Said,
    orders: Vec<Said>,
}

fn tried(
    comparer: &mut Comparer,
    tenant: u64,
    records: &[Record],
    number: u64,
    orders: Orders,
) -> Result<Tried, String> {
    let trace = judged(comparer, tenant, records, number)?;
    let mut all = Vec::new();
    for Order { name, places } in orders(records, &mut draws(number, records.len())) {
        let moved: Vec<Record> = places.iter().map(|place| records[*place].clone()).collect();
        let said = judged(comparer, tenant, &moved, number).and_then(|said| same(&trace, said));
        let from_1 = || places.iter().map(|place| place + 1).collect::<Vec<_>>();
        all.push(said.map_err(|words| format!("{name}, records {:?}: {words}", from_1()))?);
    }
    Ok(Tried { trace, orders: all })
}

const COLUMNS: [&str; 11] = [
    "profile",
    "traces",
    "orders",
    "grants",
    "both pass",
    "of two grants or more",
    "both fault",
    "another kind",
    "another position",
    "other evidence",
    "look-ups",
];

/// The numbers of a row. From the fourth to the last but one they count pairs of a trace and an
/// order of it.
type Row = [u64; COLUMNS.len() - 1];

impl Tried {
    /// The trace as a row of its own. A look-up is asked of both sides.
    fn row(&self, records: &[Record]) -> Row {
        let grants = records.iter().filter(|record| record.kind == 11).count() as u64;
        let (orders, first) = (self.orders.len() as u64, self.trace.ids());
        let passes = if first.kind == 0 { orders } else { 0 };
        let others = |differs: fn(&Report, &Report) -> bool| {
            self.orders.iter().filter(|order| differs(order.ids(), first)).count() as u64
        };
        [
            1,
            orders,
            grants,
            passes,
            if grants > 1 { passes } else { 0 },
            orders - passes,
            others(|a, b| a.kind != b.kind),
            others(|a, b| a.position != b.position),
            others(|a, b| a.evidence != b.evidence),
            2 * (1 + orders) * self.trace.holders.len() as u64,
        ]
    }
}

/// One trace in its orders, counted.
fn count(comparer: &mut Comparer, row: &mut Row, trace: &Trace, number: u64, orders: Orders) {
    let mut run = |records: &[Record]| tried(comparer, trace.tenant, records, number, orders);
    match run(&trace.records) {
        Ok(tried) => add(row, tried.row(&trace.records)),
        Err(words) => disagree(trace, number, &words, &mut |records| {
            run(records).map(|tried| tried.trace.reports)
        }),
    }
}

/// The name of the row of short lists.
const SHORT: &str = "all short";

/// All short lists of grants, in every order: of those that differ in order alone one is the trace.
fn short(comparer: &mut Comparer) -> Row {
    let alphabet = alphabets().into_iter().find(|alphabet| alphabet.name == "ids");
    let alphabet = alphabet.expect("an alphabet of grants");
    let (mut row, mut seen) = (Row::default(), BTreeSet::new());
    for number in 0..alphabet.size() {
        let records = alphabet.trace(number);
        let mut grants: Vec<[u64; 5]> = records.iter().map(|record| record.numbers).collect();
        grants.sort_unstable();
        if seen.insert(grants) {
            let trace = Trace { profile: SHORT, tenant: 0, records };
            count(comparer, &mut row, &trace, number, every);
        }
    }
    row
}

/// `against orders`: numbered traces of every profile, then all short lists of grants.
pub fn compare(each: u64, seed: u64) {
    let mut comparer = Comparer::default();
    let mut all = Row::default();
    println!("{}", columns(&COLUMNS));
    for profile in names() {
        let mut row = Row::default();
        for number in 0..each {
            count(&mut comparer, &mut row, &numbered(profile, seed, number), number, drawn);
        }
        println!("{}", line(profile, &row));
        add(&mut all, row);
    }
    let row = short(&mut comparer);
    println!("{}", line(SHORT, &row));
    add(&mut all, row);
    println!("{}", line("all", &all));
    println!("\n{}; seed {seed}", comparer.counted());
}
