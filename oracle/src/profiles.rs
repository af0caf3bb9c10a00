//! The profiles of random traces: which kinds, how many nodes, ranges and
//! indexes, and how often a record agrees with what a sound cluster would say.

/// Weights of the kinds 1 to 12 and the sizes of the pools.
#[derive(Clone, Debug)]
pub struct Profile {
    pub name: &'static str,
    /// How often each kind is drawn.
    pub kinds: [u64; 12],
    pub nodes: u64,
    pub ranges: u64,
    pub indexes: u64,
    pub generations: u64,
    /// In a hundred: records without a node.
    pub unmarked: u64,
    /// In a hundred: values that are the range's own at that index.
    pub sound: u64,
    /// In a hundred: keys of the tenant.
    pub tenant: u64,
    /// In a hundred: a record that repeats an earlier one, nearly or exactly.
    pub repeats: u64,
    /// So many records put values first, at index 0 and up.
    pub roots: u64,
    /// Effects of kind 3: weights of sub-codes 1 to 7.
    pub effects: [u64; 7],
    /// In a hundred: MetaApplied events of several records, and among their records
    /// those before which something stands that continues nothing or parts them.
    pub events: u64,
    pub torn: u64,
}

const EVEN: [u64; 7] = [4, 1, 1, 4, 1, 1, 1];
const WRITES: [u64; 7] = [12, 1, 1, 1, 1, 1, 1];
const TAKES: [u64; 7] = [1, 1, 1, 12, 1, 1, 1];

const BASE: Profile = Profile {
    name: "mixed",
    kinds: [6, 6, 5, 2, 2, 1, 3, 2, 1, 1, 2, 3],
    nodes: 3,
    ranges: 3,
    indexes: 6,
    generations: 3,
    unmarked: 8,
    sound: 70,
    tenant: 10,
    repeats: 15,
    roots: 0,
    effects: EVEN,
    events: 0,
    torn: 0,
};

/// The random profiles. `cluster`, `noisy`, `splits`, `extremes` and two with
/// events are built otherwise: see generate.rs.
pub const PROFILES: [Profile; 13] = [
    BASE,
    Profile { name: "wild", sound: 0, repeats: 0, unmarked: 15, tenant: 25, ..BASE },
    Profile {
        name: "agreement",
        kinds: [8, 14, 5, 4, 1, 1, 0, 0, 0, 0, 0, 0],
        ranges: 2,
        sound: 80,
        ..BASE
    },
    Profile {
        name: "statements",
        kinds: [6, 14, 3, 8, 2, 1, 0, 0, 0, 0, 0, 0],
        nodes: 2,
        ranges: 1,
        indexes: 9,
        generations: 4,
        sound: 93,
        unmarked: 3,
        ..BASE
    },
    Profile { name: "owners", kinds: [8, 8, 0, 1, 1, 2, 0, 3, 4, 2, 0, 0], sound: 85, ..BASE },
    Profile {
        name: "install",
        kinds: [5, 4, 0, 0, 0, 1, 0, 12, 1, 1, 0, 0],
        sound: 90,
        tenant: 50,
        unmarked: 4,
        ..BASE
    },
    Profile {
        name: "half",
        kinds: [6, 12, 6, 2, 7, 2, 10, 0, 2, 1, 0, 0],
        nodes: 3,
        ranges: 2,
        indexes: 3,
        unmarked: 2,
        effects: TAKES,
        ..BASE
    },
    Profile {
        name: "half-restated",
        kinds: [5, 14, 2, 2, 12, 2, 8, 0, 1, 1, 0, 0],
        nodes: 2,
        ranges: 2,
        indexes: 2,
        unmarked: 0,
        effects: TAKES,
        ..BASE
    },
    Profile {
        name: "generations",
        kinds: [1, 2, 16, 1, 0, 0, 0, 0, 0, 0, 0, 0],
        indexes: 9,
        sound: 85,
        roots: 3,
        effects: WRITES,
        ..BASE
    },
    Profile { name: "ids", kinds: [0, 0, 0, 0, 0, 0, 0, 0, 0, 0, 1, 0], sound: 88, ..BASE },
    Profile {
        name: "meta",
        kinds: [2, 1, 1, 0, 0, 0, 0, 0, 0, 0, 0, 20],
        ranges: 2,
        sound: 98,
        roots: 4,
        ..BASE
    },
    Profile {
        name: "events",
        kinds: [2, 1, 1, 0, 0, 0, 0, 0, 0, 0, 1, 14],
        ranges: 2,
        sound: 98,
        roots: 4,
        unmarked: 12,
        events: 70,
        torn: 6,
        ..BASE
    },
    Profile {
        name: "mixed-events",
        kinds: [6, 6, 5, 2, 2, 1, 3, 2, 1, 1, 2, 8],
        events: 60,
        torn: 12,
        ..BASE
    },
];
