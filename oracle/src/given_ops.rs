// The given Rust's operations over several files, asked in our words: `OpBuilder` over streams between two bounds with the automaton that counts the
// transitions that are followed.

use crate::given::caught;
use crate::given_file::Opened;
use crate::model_ops::{Merged, Op, Source};
use crate::raw::{IndexedValue, OpBuilder};
use crate::stream::Streamer;

// All that an operation hands out, each item's pairs as they come.
fn all<S>(mut operation: S) -> Vec<(Vec<u8>, Vec<(u64, usize)>)>
where
    S: for<'a> Streamer<'a, Item = (&'a [u8], &'a [IndexedValue])>,
{
    let mut items = Vec::new();
    while let Some((key, pairs)) = operation.next() {
        items.push((key.to_vec(), pairs.iter().map(|pair| (pair.value, pair.index)).collect()));
    }
    items
}

// The items, and what each stream has followed at the end; nothing where the Rust panics. What the starts follow is not counted.
pub fn merged(op: Op, opened: &[Opened], sources: &[Source]) -> Option<Merged> {
    let mut builder = OpBuilder::new();
    let mut followed = Vec::new();
    for (rust, source) in opened.iter().zip(sources) {
        let (stream, count) = rust.range(&source.lower, &source.upper)?.apart();
        builder.push(stream);
        followed.push(count);
    }
    let items = caught(|| match op {
        Op::Union => all(builder.union()),
        Op::Intersection => all(builder.intersection()),
        Op::Difference => all(builder.difference()),
        Op::SymmetricDifference => all(builder.symmetric_difference()),
    })?;
    Some(Merged { items, totals: followed.iter().map(|count| count.get()).collect() })
}
