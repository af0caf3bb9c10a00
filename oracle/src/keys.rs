//! The pool of keys that traces draw from: prefixes of each other, the empty
//! key, the longest, and starts that name a group of the tenant, or nearly do.

use crate::random::Random;
use crate::wire::Span;

/// A key that names a group: tenant, then group, both big-endian.
pub fn group_key(tenant: u64, group: u64) -> Vec<u8> {
    [tenant.to_be_bytes(), group.to_be_bytes()].concat()
}

fn plain_keys() -> Vec<Vec<u8>> {
    let words: [&[u8]; 12] =
        [b"", b"\0", b"a", b"b", b"b\0", b"ba", b"c", b"d", b"e", b"f", b"\"\\", b"\xff"];
    let mut keys: Vec<Vec<u8>> = words.iter().map(|word| word.to_vec()).collect();
    keys.push(vec![b'm'; 31]);
    keys
}

fn tenant_keys(tenant: u64) -> Vec<Vec<u8>> {
    let mut keys: Vec<Vec<u8>> = (1..=4).map(|group| group_key(tenant, group)).collect();
    keys.push([group_key(tenant, 2), vec![0]].concat());
    keys.push([group_key(tenant, 3), vec![7; 15]].concat());
    keys.push(group_key(tenant, 1)[..15].to_vec());
    keys.push(tenant.to_be_bytes().to_vec());
    keys.push(group_key(tenant.wrapping_add(1), 1));
    keys
}

/// The keys of one trace.
#[derive(Clone, Debug)]
pub struct Keys {
    plain: Vec<Vec<u8>>,
    tenant: Vec<Vec<u8>>,
}

impl Keys {
    pub fn new(tenant: u64) -> Keys {
        Keys { plain: plain_keys(), tenant: tenant_keys(tenant) }
    }

    /// A key, one of the tenant's in so many of a hundred cases.
    pub fn key(&self, random: &mut Random, of_tenant: u64) -> Vec<u8> {
        let pool = if random.percent(of_tenant) { &self.tenant } else { &self.plain };
        random.pick(pool).clone()
    }

    /// A span: mostly in order, sometimes empty, sometimes reversed.
    pub fn span(&self, random: &mut Random, of_tenant: u64) -> Span {
        let (a, b) = (self.key(random, of_tenant), self.key(random, of_tenant));
        match random.weighted(&[80, 10, 10]) {
            0 if b < a => (b, a),
            1 => (a.clone(), a),
            _ => (a, b),
        }
    }

    /// The span that a range has where nothing is out of order: ranges 1, 2, ..
    /// lie side by side, and a higher generation ends earlier.
    pub fn own_span(range: u64, generation: u64) -> Span {
        let start = b'b' + (range % 6) as u8 * 2;
        let end = if generation % 2 == 0 { start + 2 } else { start + 1 };
        (vec![start], vec![end])
    }
}
