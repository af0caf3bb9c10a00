//! Kind and evidence out of the Rust's verdict words. Every number that document
//! 01 asks for stands in the message; a message that does not read to its known
//! shape is an error, never a guess.

/// A fault's kind and its evidence, in document 01's order.
pub type Case = (u8, Vec<u64>);

/// What is left of a message to be read.
struct Words<'a>(&'a str);

impl Words<'_> {
    /// Passes the literal words.
    fn say(&mut self, literal: &str) -> Option<()> {
        self.0 = self.0.strip_prefix(literal)?;
        Some(())
    }

    /// Whether the literal words come next; passes them if so.
    fn says(&mut self, literal: &str) -> bool {
        self.say(literal).is_some()
    }

    fn number(&mut self) -> Option<u64> {
        let digits = self.0.find(|c: char| !c.is_ascii_digit()).unwrap_or(self.0.len());
        let (number, rest) = self.0.split_at(digits);
        self.0 = rest;
        number.parse().ok()
    }

    /// Passes the words and reads the number after them.
    fn after(&mut self, literal: &str) -> Option<u64> {
        self.say(literal)?;
        self.number()
    }

    /// Passes a key: `b"` to the closing quote, which is never escaped.
    fn key(&mut self) -> Option<()> {
        self.say("b\"")?;
        let mut escaped = false;
        for (i, c) in self.0.char_indices() {
            match c {
                _ if escaped => escaped = false,
                '\\' => escaped = true,
                '"' => {
                    self.0 = &self.0[i + 1..];
                    return Some(());
                }
                _ => {}
            }
        }
        None
    }

    /// Passes `[start, end)`.
    fn span(&mut self) -> Option<()> {
        self.say("[")?;
        self.key()?;
        self.say(", ")?;
        self.key()?;
        self.say(")")
    }

    /// Passes a node as `Debug` writes it: `Some(3)` or `None`.
    fn node(&mut self) -> Option<()> {
        if self.says("None") {
            return Some(());
        }
        self.after("Some(")?;
        self.say(")")
    }

    /// Passes up to and with the first of `mark`.
    fn skip_past(&mut self, mark: &str) -> Option<()> {
        let at = self.0.find(mark)?;
        self.0 = &self.0[at + mark.len()..];
        Some(())
    }

    /// Passes a `Held` as `Debug` writes it.
    fn held(&mut self) -> Option<()> {
        self.say("Held { start: ")?;
        self.key()?;
        self.say(", end: ")?;
        self.key()?;
        self.after(", generation: ")?;
        self.say(", voters: [")?;
        self.skip_past("], state: ")?;
        self.skip_past(" }")
    }
}

/// `Descriptors`: range and index, and for kind 2 the index that took it.
pub fn agreement(message: &str) -> Option<Case> {
    let mut w = Words(message);
    w.say("descriptor agreement: node ")?;
    w.node()?;
    let range = w.after("'s replica of range ")?;
    w.say(" was ")?;
    let put = w.says("created") || w.says("changed");
    if !put && !w.says("restated") && !w.says("installed") {
        return None;
    }
    let index = w.after(" at index ")?;
    w.say(" with ")?;
    w.held()?;
    if w.says(", where the range's descriptor there is ") {
        return Some((if put { 1 } else { 3 }, vec![range, index]));
    }
    let taken = w.after(", a generation the range took only at index ")?;
    Some((2, vec![range, index, taken]))
}

/// `OneOwnerPerKey`'s overlap clause: node, range, the other range.
pub fn overlap(message: &str) -> Option<Case> {
    let mut w = Words(message);
    let node = w.after("one owner per key: node ")?;
    let range = w.after("'s replica of range ")?;
    w.say(" over ")?;
    w.span()?;
    let other = w.after(" overlaps its replica of range ")?;
    Some((1, vec![node, range, other]))
}

/// The install clause: node and the range whose keys went.
pub fn install(message: &str) -> Option<Case> {
    let mut w = Words(message);
    w.say("one owner per key: an install of ")?;
    if !w.says("no range") {
        w.after("range ")?;
    }
    let node = w.after(" on node ")?;
    w.say(" replaced ")?;
    w.span()?;
    let range = w.after(", which overlaps its replica of range ")?;
    Some((1, vec![node, range]))
}

/// The created-twice clause: node, range, floor.
pub fn twice(message: &str) -> Option<Case> {
    let mut w = Words(message);
    let node = w.after("one owner per key: node ")?;
    w.say(" traced a `RangeCreated { cause: ")?;
    w.skip_past(" }`")?;
    let range = w.after(" of range ")?;
    let floor = w.after(" at floor index ")?;
    w.say(" while it holds range ")?;
    Some((1, vec![node, range, floor]))
}

/// The right half's clause: node, parent, index, right; kind 1 at an apply.
pub fn half(message: &str) -> Option<Case> {
    let mut w = Words(message);
    let node = w.after("one owner per key: node ")?;
    let parent = w.after(" is a voter of range ")?;
    let index = w.after("'s configuration at its split at index ")?;
    w.after(", its replica of range ")?;
    w.say(" has applied it, and ")?;
    let kind = if w.says("at its apply of ") {
        w.number()?;
        1
    } else {
        w.say("at its restatement")?;
        2
    };
    let right = w.after(" it holds no replica of the right half ")?;
    Some((kind, vec![node, parent, index, right]))
}

/// `GenerationsRise`: range and index, then generation and the last write's.
pub fn generations(message: &str) -> Option<Case> {
    let mut w = Words(message);
    w.say("owners' generations: ")?;
    if w.says("index ") {
        let index = w.number()?;
        let range = w.after(" of range ")?;
        w.say(" wrote ")?;
        w.key()?;
        w.say(" with no descriptor in force before it")?;
        return Some((1, vec![range, index]));
    }
    let range = w.after("range ")?;
    w.say(" wrote ")?;
    w.key()?;
    let index = w.after(" at index ")?;
    let generation = w.after(" at generation ")?;
    let by = w.after(", after range ")?;
    let last = w.after(" wrote it at generation ")?;
    Some((2, vec![range, index, generation, last, by]))
}

/// `IdsUnique`: the index, and for kind 3 the older block's first id.
pub fn ids(message: &str) -> Option<Case> {
    let mut w = Words(message);
    w.say("range ids: ")?;
    if w.says("the block ") {
        w.number()?;
        w.after("..=")?;
        w.after(" granted to node ")?;
        let index = w.after(" at index ")?;
        let older = w.after(" of range 0 shares ids with the block ")?;
        return Some((3, vec![index, older]));
    }
    let index = w.after("index ")?;
    w.after(" of range 0 granted node ")?;
    let kind = if w.says(" an empty block ") { 2 } else { 1 };
    if kind == 1 {
        w.after("'s run ")?;
    }
    Some((kind, vec![index]))
}

/// `MetaNeverGoesBack`: see document 01 for the order of each kind.
pub fn meta(message: &str) -> Option<Case> {
    let mut w = Words(message);
    w.say("meta never goes back: node ")?;
    w.node()?;
    let index = w.after("'s meta apply of ")?;
    w.say(" names ")?;
    if w.says("range ") {
        let range = w.number()?;
        let generation = w.after(" at generation ")?;
        let kind = if w.says(", which check 7 had not traced") { 1 } else { 2 };
        if kind == 2 {
            w.say(" as ")?;
        }
        return Some((kind, vec![range, generation, index]));
    }
    w.span()?;
    let range = w.after(" for range ")?;
    let generation = w.after(" at generation ")?;
    w.say(", where meta")?;
    let standing = if w.says(" named ") { None } else { Some(w.after("'s apply of ")?) };
    if standing.is_some() {
        w.say(" named ")?;
    }
    w.span()?;
    let old = w.after(" at generation ")?;
    let mut evidence = vec![index, range, generation, old];
    evidence.extend(standing);
    Some((if standing.is_some() { 4 } else { 3 }, evidence))
}
