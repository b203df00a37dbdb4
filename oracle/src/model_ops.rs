// A plain model of an operation over several files (docs/FORMAT.md, "Several files as one"), on the lists of the keys and values that the files were
// built from: no card, no round. The totals at the end are those of the model's plain readings.

use std::collections::BTreeMap;

use crate::answers::Bound;
use crate::model::Model;
use crate::model_file::MAX_PATH;
use crate::model_reading::{self, meets, passes, Told};

#[derive(Clone, Copy, Debug, Eq, PartialEq)]
pub enum Op {
    Union,
    Intersection,
    Difference,
    SymmetricDifference,
}

pub const OPS: [Op; 4] = [Op::Union, Op::Intersection, Op::Difference, Op::SymmetricDifference];

// The most files of an operation.
pub const MOST_FILES: usize = 8;

// The refusal of an operation over no file or over more than eight.
pub const CARDS: u64 = 14;

// A file with the pairs that it was built from, its table of keys, and the bounds that it is read between.
#[derive(Clone)]
pub struct Source {
    pub file: Vec<u8>,
    pub pairs: Vec<(Vec<u8>, u64)>,
    pub counts: Vec<u64>,
    pub lower: Bound,
    pub upper: Bound,
}

// A key with the value and the number of each file that holds it.
pub type Item = (Vec<u8>, Vec<(u64, usize)>);

// What an operation hands out up to its end: each key with the value and the number of each file that holds it, in this order; and what each
// reading has followed then.
#[derive(Clone, Debug, Default, Eq, PartialEq)]
pub struct Merged {
    pub items: Vec<Item>,
    pub totals: Vec<u64>,
}

// What stands in place of items.
#[derive(Clone, Copy, Debug, Eq, PartialEq)]
pub enum Stopped {
    // there is no room for another item
    NoRoom,
    // the files do not follow one another
    #[cfg_attr(not(library), allow(dead_code))]
    Layout,
    // a start is refused, or the begin or a call
    Start(u64),
    Refused(u64),
}

// One who answers whole operations, with room for so many calls.
pub trait OpsAnswers {
    fn merged(&self, op: Op, count: usize, sources: &[Source], calls: usize) -> Result<Merged, Stopped>;

    // The items page by page of so many, all files between the bounds of the first, each page from behind the last key of the one before.
    fn paged(&self, op: Op, sources: &[Source], most: usize) -> Result<Vec<Item>, u64>;
}

impl Source {
    // The pairs between the bounds.
    pub fn between(&self) -> impl Iterator<Item = &(Vec<u8>, u64)> {
        self.pairs.iter().filter(move |(key, _)| {
            meets(self.lower.kind, &self.lower.bytes, key) && !passes(self.upper.kind, &self.upper.bytes, key)
        })
    }

    // What a plain reading has followed when it stops at its first key after this one, or at its end; with no key to pass, at its first one.
    fn total(&self, past: Option<Option<&[u8]>>) -> Result<u64, u64> {
        let mut reading = model_reading::start(&self.file, &self.lower, &self.upper, &self.counts)?;
        loop {
            let (told, after) = model_reading::next(&self.file, &reading, MAX_PATH);
            reading = after;
            match (told, past) {
                (Told::Refused(why), _) => return Err(why),
                (Told::End, _) | (Told::Key(..), Some(None)) => return Ok(reading.total),
                (Told::Key(key, _), Some(Some(last))) if key[..] > *last => return Ok(reading.total),
                (Told::Key(..), _) => {}
            }
        }
    }
}

pub fn takes(op: Op, n: usize, pairs: &[(u64, usize)]) -> bool {
    match op {
        Op::Union => true,
        Op::Intersection => pairs.len() == n,
        Op::Difference => pairs.len() == 1 && pairs[0].1 == 0,
        Op::SymmetricDifference => pairs.len() % 2 == 1,
    }
}

pub fn merged(op: Op, sources: &[Source]) -> Result<Merged, u64> {
    let mut all: BTreeMap<&[u8], Vec<(u64, usize)>> = BTreeMap::new();
    for (i, source) in sources.iter().enumerate() {
        for (key, value) in source.between() {
            all.entry(key).or_default().push((*value, i));
        }
    }
    let mut items = Vec::new();
    for (key, mut pairs) in all {
        pairs.sort();
        if takes(op, sources.len(), &pairs) {
            items.push((key.to_vec(), pairs));
        }
    }
    // in a difference the others stop at their first key after the first file's last, or at once where it has none
    let last = sources[0].between().last().map(|(key, _)| &key[..]);
    let mut totals = Vec::new();
    for (i, source) in sources.iter().enumerate() {
        totals.push(source.total(if op == Op::Difference && i > 0 { Some(last) } else { None })?);
    }
    Ok(Merged { items, totals })
}

impl OpsAnswers for Model {
    fn merged(&self, op: Op, count: usize, sources: &[Source], calls: usize) -> Result<Merged, Stopped> {
        for source in sources {
            if let Err(why) = model_reading::start(&source.file, &source.lower, &source.upper, &source.counts) {
                return Err(Stopped::Start(why));
            }
        }
        if count == 0 || count > MOST_FILES {
            return Err(Stopped::Refused(CARDS));
        }
        let merged = merged(op, &sources[..count]).map_err(Stopped::Refused)?;
        // the end is a call too
        if calls <= merged.items.len() {
            return Err(Stopped::NoRoom);
        }
        Ok(merged)
    }

    fn paged(&self, op: Op, sources: &[Source], _most: usize) -> Result<Vec<Item>, u64> {
        merged(op, &between_the_first(sources)).map(|merged| merged.items)
    }
}

// The same files, each between the bounds of the first.
pub fn between_the_first(sources: &[Source]) -> Vec<Source> {
    let mut shared = sources.to_vec();
    for source in &mut shared {
        source.lower = sources[0].lower.clone();
        source.upper = sources[0].upper.clone();
    }
    shared
}
