// Time of several files as one, ours beside the Rust's `OpBuilder` (docs/PERFORMANCE.md): a union of 1, 2 and 8 files of part numbers, each key in about
// half of the files. Ours by calls of `next_item` with the cards by value (crate `oracle_ops`), and by pages of `fst_items_rows`.

use std::time::Instant;

use crate::answers::{Bound, Kind};
use crate::bench::sets;
use crate::builder::Builder;
use crate::given_file::{self, Opened};
use crate::model_ops::{Op, OpsAnswers, Source};
use crate::ours::Library;
use crate::ours_ops;
use crate::prng::Prng;
use crate::raw::OpBuilder;
use crate::stream::Streamer;

const KEYS: usize = 20_000;
const ROUNDS: usize = 5;
const PAGES: [usize; 2] = [32, 256];
// The items and the pairs of a union, page by page.
fn pages(sources: &[Source], most: usize) -> (usize, usize) {
    let mut pairs = 0;
    let items =
        ours_ops::pages(Op::Union, sources, most, |_, values| pairs += values.len()).expect("it is not refused");
    (items, pairs)
}

fn by_value(sources: &[Source]) -> (usize, usize) {
    let merged = Library.merged(Op::Union, sources.len(), sources, KEYS + 1).expect("it is not refused");
    (merged.items.len(), merged.items.iter().map(|item| item.1.len()).sum())
}

fn rust(opened: &[Opened]) -> (usize, usize) {
    let mut builder = OpBuilder::new();
    for file in opened {
        builder.push(file.fst.stream());
    }
    let mut union = builder.union();
    let (mut items, mut pairs) = (0, 0);
    while let Some((_, values)) = union.next() {
        items += 1;
        pairs += values.len();
    }
    (items, pairs)
}

// Nanoseconds an item, the least of some rounds.
fn least(want: (usize, usize), mut run: impl FnMut() -> (usize, usize)) -> f64 {
    let mut least = f64::INFINITY;
    for _ in 0..ROUNDS {
        let start = Instant::now();
        assert_eq!(run(), want);
        least = least.min(start.elapsed().as_secs_f64());
    }
    least * 1e9 / want.0 as f64
}

pub fn bench() {
    let set = &sets()[1];
    let unbounded = || Bound { kind: Kind::Unbounded, bytes: Vec::new() };
    println!("nanoseconds an item of a union of {}: {} keys, each in about half of the files", set.name, KEYS);
    println!("    {:<12}{:>10}{:>12}{:>14}{:>14}", "files", "Rust", "by value", "pages of 32", "pages of 256");
    for &n in &[1, 2, 8] {
        let mut prng = Prng::new(11);
        let mut builders: Vec<Builder> = (0..n).map(|_| Builder::new(3, 0)).collect();
        for (i, key) in set.keys[..KEYS].iter().enumerate() {
            let sure = prng.below(n);
            for (file, builder) in builders.iter_mut().enumerate() {
                if file == sure || prng.below(2) == 0 {
                    builder.insert(key, 3 * i as u64);
                }
            }
        }
        let files: Vec<Vec<u8>> = builders.into_iter().map(|builder| builder.finish(0)).collect();
        let opened: Vec<Opened> =
            files.iter().map(|file| given_file::open(file).expect("a built file opens")).collect();
        // a table that says of every node that as many keys as a number can say are to come
        let sources: Vec<Source> = files
            .iter()
            .map(|file| Source {
                file: file.clone(),
                pairs: Vec::new(),
                counts: vec![u64::max_value(); file.len()],
                lower: unbounded(),
                upper: unbounded(),
            })
            .collect();
        let want = rust(&opened);
        let theirs = least(want, || rust(&opened));
        let value = least(want, || by_value(&sources));
        let page: Vec<f64> = PAGES.iter().map(|&most| least(want, || pages(&sources, most))).collect();
        println!(
            "    {:<12}{:>10.0}{:>12.0}{:>14.0}{:>14.0}    {:.1} {:.1} {:.1} of the Rust's",
            n,
            theirs,
            value,
            page[0],
            page[1],
            value / theirs,
            page[0] / theirs,
            page[1] / theirs
        );
    }
}
