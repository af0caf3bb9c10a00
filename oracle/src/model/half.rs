//! Document 01, `OneOwnerPerKey`: half. What a record registers and the debts
//! that arise at it are worked out once, by looking back; the rest asks them.

use std::collections::BTreeSet;

use super::Case;
use super::form::Entry;
use super::owners::held;
use super::readings::{Reading, Thing, takes};

/// "A split (parent, index) registers once, with right range and voters".
#[derive(Clone, Debug)]
pub struct Split {
    parent: u64,
    index: u64,
    right: u64,
    voters: Vec<u64>,
}

/// A debt that arose: the node owes the right range, by the split named.
#[derive(Clone, Copy, Debug)]
pub struct Debt {
    node: u64,
    right: u64,
    parent: u64,
    index: u64,
}

/// What each record taken so far registered, and the debts that arose at it in
/// order.
#[derive(Clone, Default)]
pub struct Columns {
    registered: Vec<Option<Split>>,
    debts: Vec<Vec<Debt>>,
}

/// "A node's number becomes a server's only through its latest RaftRecovered,
/// else unchanged."
fn server(past: &[Entry], node: u64) -> u64 {
    let forgets = |kind: u8| {
        kind == 6 && takes(Reading::CrashDropsServer)
            || kind == 10 && takes(Reading::RefusalDropsServer)
    };
    let forgotten = past.iter().rposition(|x| x.node == Some(node) && forgets(x.kind));
    let past = &past[forgotten.unwrap_or(0)..];
    let mut recovered = past.iter().filter(|x| x.kind == 4 && x.node == Some(node));
    let first = takes(Reading::FirstServerStays);
    let told = if first { recovered.next() } else { recovered.last() };
    told.map_or(node, |x| x.c)
}

/// Whether the server is among a split's voters.
fn is_voter(voters: &[u64], server: u64) -> bool {
    let looked_at = if takes(Reading::FifthIsNoVoter) { 4 } else { voters.len() };
    voters.iter().take(looked_at).any(|voter| *voter == server)
}

/// "RaftRefused drops debts, applied splits, the recorded indexes and what was
/// held at the latest RangesRestated; both it and a crash drop the pending split;
/// only a crash drops the restated mark."
fn drops(kind: u8, thing: Thing) -> bool {
    match kind {
        6 => matches!(thing, Thing::RestatedMark | Thing::Pending) != takes(Reading::Crash(thing)),
        10 => (thing != Thing::RestatedMark) != takes(Reading::Refusal(thing)),
        _ => false,
    }
}

/// Whether the node has the mark that RangesRestated sets.
fn restated(past: &[Entry], node: u64) -> bool {
    let tells = |kind: u8| kind == 5 || drops(kind, Thing::RestatedMark);
    let latest = past.iter().rev().find(|x| x.node == Some(node) && tells(x.kind));
    latest.map_or(takes(Reading::NeverRestatedCountsAsRestated), |x| x.kind == 5)
}

/// The node's pending (latest) RangeSplit as (parent, index, right), if no kind
/// 2 used it up and no crash or refusal dropped it.
fn pending(past: &[Entry], taken: &Columns, node: u64) -> Option<(u64, u64, u64)> {
    if takes(Reading::FirstPendingStays) {
        return first_pending(past, node);
    }
    let split = past.iter().rposition(|x| x.kind == 7 && x.node == Some(node))?;
    let (parent, index, right) = (past[split].a, past[split].b, past[split].c);
    let kept = takes(Reading::PendingUsedByRegisteringOnly);
    let uses_up = |place: usize| {
        let own = is_own_change(&past[place], parent, index);
        own && (!kept || taken.registered[place].is_some())
    };
    let ends = |place: usize| {
        past[place].node == Some(node)
            && (drops(past[place].kind, Thing::Pending) || uses_up(place))
    };
    (!(split + 1..past.len()).any(ends)).then_some((parent, index, right))
}

/// Whether the record is the split's own change of its parent.
fn is_own_change(x: &Entry, parent: u64, index: u64) -> bool {
    x.kind == 2 && x.a == parent && (x.b == index || takes(Reading::PendingOfAnyIndex))
}

/// For the reading in which a later RangeSplit does not replace a pending one.
fn first_pending(past: &[Entry], node: u64) -> Option<(u64, u64, u64)> {
    let mut first: Option<(u64, u64, u64)> = None;
    for x in past.iter().filter(|x| x.node == Some(node)) {
        let used = first.is_some_and(|(parent, index, _)| is_own_change(x, parent, index));
        if used || drops(x.kind, Thing::Pending) {
            first = None;
        } else if x.kind == 7 {
            first = first.or(Some((x.a, x.b, x.c)));
        }
    }
    first
}

/// What the last record would register, were it the first to.
fn names_split(past: &[Entry], taken: &Columns) -> Option<Split> {
    let (x, before) = past.split_last().expect("a record");
    let node = x.node?;
    let voters = x.voters.clone();
    let bootstrap = x.sub == 1 && takes(Reading::BootstrapRegisters);
    if x.kind == 1 && (x.sub == 2 || bootstrap) && x.flag == 1 {
        return Some(Split { parent: x.c, index: x.b, right: x.a, voters });
    }
    let (parent, index, right) = pending(before, taken, node)?;
    is_own_change(x, parent, index).then_some(Split { parent, index, right, voters })
}

/// "While not restated, kind 2 also records that applied index for the range";
/// RaftRefused drops it.
fn recorded(past: &[Entry], node: u64, range: u64) -> Option<u64> {
    for place in (0..past.len()).rev() {
        let x = &past[place];
        if x.node != Some(node) {
            continue;
        }
        if drops(x.kind, Thing::Recorded) {
            return None;
        }
        let always = takes(Reading::RecordsWhenRestated);
        if x.kind == 2 && x.a == range && (always || !restated(&past[..place], node)) {
            return Some(x.c);
        }
    }
    None
}

/// Whether the node traced the split as a RangeSplit since its latest
/// RaftRefused. Before a split registers no other record applies it.
fn traced(past: &[Entry], node: u64, parent: u64, index: u64) -> bool {
    let own = past.iter().rev().filter(|x| x.node == Some(node));
    let mut kept = own.take_while(|x| !drops(x.kind, Thing::Applied));
    let took = |x: &Entry| (x.kind, x.sub) == (3, 4) && takes(Reading::TookAppliesUnregistered);
    kept.any(|x| (x.kind == 7 || took(x)) && (x.a, x.b) == (parent, index))
}

/// The nodes that any record names, rising.
fn nodes(past: &[Entry]) -> BTreeSet<u64> {
    past.iter().filter_map(|x| x.node).collect()
}

impl Columns {
    fn splits(&self) -> impl Iterator<Item = &Split> {
        self.registered.iter().flatten()
    }

    fn find(&self, parent: u64, index: u64) -> Option<&Split> {
        self.splits().find(|s| (s.parent, s.index) == (parent, index))
    }

    /// Takes the last record of `past` in.
    pub fn take(&mut self, past: &[Entry]) {
        let named = names_split(past, self).filter(|s| self.find(s.parent, s.index).is_none());
        self.registered.push(named);
        let mut debts = self.debts_of_registering(past);
        debts.extend(self.debts_of_applying(past));
        self.debts.push(debts);
    }

    /// The debt, if the node's server is a voter of the split.
    fn debt(past: &[Entry], node: u64, split: &Split) -> Option<Debt> {
        let Split { parent, index, right, ref voters } = *split;
        let late = takes(Reading::ServerOfTheLatestRecord);
        let voter = late || is_voter(voters, server(past, node));
        voter.then_some(Debt { node, right, parent, index })
    }

    /// "or one it has applied registers", and "registering applies it for nodes
    /// whose recorded index of the parent reaches it".
    fn debts_of_registering(&self, past: &[Entry]) -> Vec<Debt> {
        let Some(Some(split)) = self.registered.last() else {
            return Vec::new();
        };
        let before = &past[..past.len() - 1];
        let applies = |node: &u64| {
            traced(before, *node, split.parent, split.index) || reaches(before, *node, split)
        };
        let nodes = nodes(past).into_iter().filter(applies);
        nodes.filter_map(|node| Self::debt(past, node, split)).collect()
    }

    /// "When a node applies a registered split": at RangeSplit, at Took, and
    /// while not restated at kind 2 every registered index up to applied, rising.
    fn debts_of_applying(&self, past: &[Entry]) -> Vec<Debt> {
        let (x, before) = past.split_last().expect("a record");
        let Some(node) = x.node else {
            return Vec::new();
        };
        let mut applied: Vec<&Split> = match (x.kind, x.sub) {
            (7, _) => self.find(x.a, x.b).into_iter().collect(),
            (3, sub) if takes_effect(sub) => self.find(x.a, x.b).into_iter().collect(),
            (2, _) if !restated(before, node) => {
                let below = takes(Reading::AppliesBelow);
                let up_to = |s: &&Split| s.index < x.c || s.index == x.c && !below;
                self.splits().filter(|s| s.parent == x.a).filter(up_to).collect()
            }
            _ => Vec::new(),
        };
        applied.sort_by_key(|split| split.index);
        if takes(Reading::AppliesFalling) {
            applied.reverse();
        }
        applied.into_iter().filter_map(|split| Self::debt(past, node, split)).collect()
    }

    /// The node's standing debt of the right range: "the latest debt replacing",
    /// "RangeRemoved cancels; RaftRefused drops debts".
    fn owes(&self, past: &[Entry], node: u64, right: u64) -> Option<Debt> {
        let standing = self.standing_debts(past, node, right);
        let late = takes(Reading::ServerOfTheLatestRecord);
        let voter = |d: &&Debt| {
            let split = self.find(d.parent, d.index).expect("a registered split");
            !late || is_voter(&split.voters, server(past, node))
        };
        let mut owed = standing.iter().filter(voter);
        if takes(Reading::GreatestIndexDebt) {
            return owed.max_by_key(|debt| debt.index).copied();
        }
        if takes(Reading::FirstDebtStands) {
            return owed.last().copied();
        }
        owed.next().copied()
    }

    /// The debts since the latest cancel, the latest first.
    fn standing_debts(&self, past: &[Entry], node: u64, right: u64) -> Vec<Debt> {
        let mut out = Vec::new();
        for place in (0..past.len()).rev() {
            let arisen = self.debts[place].iter().rev();
            out.extend(arisen.filter(|d| (d.node, d.right) == (node, right)));
            let x = &past[place];
            let removed = x.kind == 9 && x.a == right && !takes(Reading::RemovalKeepsDebt);
            let dropped = removed || drops(x.kind, Thing::Debts);
            if x.node == Some(node) && dropped {
                break;
            }
        }
        out
    }

    /// "an owed range isn't held (the lowest such, with its debt's parent and
    /// index)".
    fn owed_and_missing(&self, past: &[Entry], node: u64, kind: u8) -> Case {
        let rights: BTreeSet<u64> = self.splits().map(|split| split.right).collect();
        let x = past.last().expect("a record");
        let only = takes(Reading::TookJudgesItsOwnRight) && kind == 1;
        let own = |right: &u64| !only || self.find(x.a, x.b).is_some_and(|s| s.right == *right);
        let missing =
            rights.into_iter().filter(own).filter(|right| held(past, node, *right).is_none());
        let mut debts = missing.filter_map(|right| self.owes(past, node, right));
        let debt = if takes(Reading::HighestOwed) { debts.last() } else { debts.next() }?;
        Some((kind, vec![node, debt.parent, debt.index, debt.right]))
    }

    /// "at registering, a restated node whose recorded index reaches it owes it
    /// and lacked it at its latest RangesRestated, the lowest such node".
    fn missing_at_registering(&self, past: &[Entry]) -> Case {
        let split = self.registered.last()?.as_ref()?;
        let before = &past[..past.len() - 1];
        let this = takes(Reading::OwesByThisSplit);
        let meant = |d: Debt| !this || (d.parent, d.index) == (split.parent, split.index);
        let at_fault = |node: &u64| {
            (restated(past, *node) || takes(Reading::JudgesUnrestated))
                && reaches(before, *node, split)
                && (self.owes(past, *node, split.right).is_some_and(meant)
                    || takes(Reading::DebtNotAsked))
                && lacked(past, *node, split.right)
        };
        let at_fault = nodes(past).into_iter().filter(at_fault);
        let node = if takes(Reading::HighestNode) { at_fault.max() } else { at_fault.min() }?;
        Some((2, vec![node, split.parent, split.index, split.right]))
    }

    /// half at the last record.
    pub fn case(&self, past: &[Entry]) -> Case {
        let x = past.last().expect("a record");
        let node = x.node?;
        match (x.kind, x.sub) {
            (3, sub) if takes_effect(sub) && self.find(x.a, x.b).is_some() => {
                self.owed_and_missing(past, node, 1)
            }
            (5, _) => self.owed_and_missing(past, node, 2),
            (1 | 2, _) => self.missing_at_registering(past),
            _ => None,
        }
    }
}

/// Whether a RaftApply with that sub-code is a Took.
fn takes_effect(sub: u8) -> bool {
    sub == 4 || takes(Reading::AnyEffectTakes)
}

/// Whether the node's recorded index of the parent reaches the split.
fn reaches(past: &[Entry], node: u64, split: &Split) -> bool {
    let above = takes(Reading::ReachesAbove);
    let reached = |applied: u64| applied > split.index || applied == split.index && !above;
    recorded(past, node, split.parent).is_some_and(reached)
}

/// Whether the node lacked the range at its latest RangesRestated: "after a drop
/// it lacks all".
fn lacked(past: &[Entry], node: u64, range: u64) -> bool {
    if takes(Reading::LackedNow) {
        return held(past, node, range).is_none();
    }
    let tells = |kind: u8| kind == 5 || drops(kind, Thing::HeldAtRestating);
    let telling = |x: &Entry| x.node == Some(node) && tells(x.kind);
    let Some(place) = past.iter().rposition(telling) else {
        return true;
    };
    past[place].kind != 5 || held(&past[..place], node, range).is_none()
}
