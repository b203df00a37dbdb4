// The records of a replay list, as every list has them (oracle/README.md, "The replay lists").

use std::collections::BTreeMap;

// The kind of a record that those after it are about.
pub const FILE: u8 = 1;

// A list of records, and how many of each kind there are.
#[derive(Default)]
pub struct List {
    bytes: Vec<u8>,
    counts: BTreeMap<&'static str, usize>,
}

impl List {
    pub fn put(&mut self, kind: u8, a: u64, b: u64, c: u64, part: &[u8]) {
        let two = |n: u64| {
            assert!(n < 65_536);
            (n as u16).to_le_bytes()
        };
        self.bytes.push(kind);
        self.bytes.extend(&two(a));
        self.bytes.extend(&b.to_le_bytes());
        self.bytes.extend(&two(c));
        self.bytes.extend(&two(part.len() as u64));
        self.bytes.extend(part);
        self.count("records");
    }

    pub fn count(&mut self, what: &'static str) {
        *self.counts.entry(what).or_insert(0) += 1;
    }

    pub fn finish(self) -> (Vec<u8>, Vec<(&'static str, usize)>) {
        (self.bytes, self.counts.into_iter().collect())
    }
}
