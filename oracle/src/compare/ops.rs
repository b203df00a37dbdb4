// Several files as one (document 02, N5): whole operations over one to eight files that share keys and values, with and without bounds, by the Rust's
// `OpBuilder`, by the model on lists and by ours: the items, each with its pairs by value and then by file, and the totals after the end.

use std::collections::BTreeMap;

use super::ranges::describe_bound;
use super::{describe_file, same, Checked, Run};
use crate::answers::{Bound, Kind, BOUND_BYTES, SPACE};
use crate::generate_file::{built_from, keys, Keys, KEYS};
use crate::generate_reading::bounds;
use crate::given_file;
use crate::given_ops;
use crate::model::Model;
use crate::model_file;
use crate::model_ops::{self, Merged, Op, OpsAnswers, Source, Stopped, CARDS, MOST_FILES, OPS};
use crate::prng::Prng;

// Sets of files; each is asked for the four operations.
const SETS: usize = 16_000;

const OP_NAMES: [&str; 4] =
    ["operations: union", "operations: intersection", "operations: difference", "operations: symmetric difference"];
const COUNT_NAMES: [&str; MOST_FILES] = [
    "operations over 1 file",
    "operations over 2 files",
    "operations over 3 files",
    "operations over 4 files",
    "operations over 5 files",
    "operations over 6 files",
    "operations over 7 files",
    "operations over 8 files",
];
const VERSION_NAMES: [&str; 3] = ["files of version 1", "files of version 2", "files of version 3"];

fn unbounded() -> Bound {
    Bound { kind: Kind::Unbounded, bytes: Vec::new() }
}

// A bound that the exported function has room for.
fn fitting(mut bound: Bound) -> Bound {
    let room = if bound.kind == Kind::Unbounded { 0 } else { BOUND_BYTES };
    bound.bytes.truncate(room);
    bound
}

// Keys with values that several files draw from.
pub fn pool(prng: &mut Prng) -> BTreeMap<Vec<u8>, u64> {
    let kind =
        if prng.one_in(10) { prng.pick(&KEYS) } else { prng.pick(&[Keys::Letters, Keys::Digits, Keys::FewBytes]) };
    let n = prng.pick(&[1, 3, 6, 10, 20]);
    let high = prng.pick(&[1, 3, 1_000, u64::max_value()]);
    keys(prng, kind, n).into_iter().map(|key| (key, prng.next() % high)).collect()
}

// A file of some of these keys, most of them with the value that they have there.
pub fn source(prng: &mut Prng, pool: &BTreeMap<Vec<u8>, u64>, version: u64) -> Source {
    let kept = prng.pick(&[0, 2, 3, 3, 4, 4]);
    let mut pairs = Vec::new();
    for (key, &value) in pool {
        if prng.below(4) < kept {
            let own = if prng.one_in(3) { prng.next() % 4 } else { value };
            pairs.push((key.clone(), own));
        }
    }
    let (names, values): (Vec<_>, Vec<_>) = pairs.iter().cloned().unzip();
    let file = built_from(prng, version, names, &values).file;
    Source { file, pairs, counts: Vec::new(), lower: unbounded(), upper: unbounded() }
}

fn describe(op: Op, sources: &[Source]) -> String {
    let each = |s: &Source| {
        format!("lower {}, upper {}, {}", describe_bound(&s.lower), describe_bound(&s.upper), describe_file(&s.file))
    };
    format!("{:?} of {}", op, sources.iter().map(each).collect::<Vec<_>>().join("; "))
}

// Each item's pairs by value and then by file: the Rust has equal values in no order of files.
fn sorted(mut merged: Merged) -> Merged {
    for (_, pairs) in &mut merged.items {
        pairs.sort();
    }
    merged
}

impl<'a> Run<'a> {
    // Files that are admitted, with their tables and bounds.
    fn sources(&mut self) -> Vec<Source> {
        let pool = pool(&mut self.prng);
        let strings: Vec<Vec<u8>> = pool.keys().cloned().collect();
        let (n, bounded) = (self.prng.between(1, MOST_FILES), self.prng.one_in(2));
        let mut sources: Vec<Source> = Vec::new();
        while sources.len() < n {
            let version = self.prng.between(1, 3);
            let mut one = match sources.last() {
                // the same file again
                Some(last) if self.prng.one_in(12) => last.clone(),
                _ => source(&mut self.prng, &pool, version as u64),
            };
            // a blank card
            if self.prng.one_in(60) {
                one.file.clear();
                one.pairs.clear();
            } else if one.file.len() < given_file::LEAST && !self.prng.one_in(20) {
                // few that the Rust does not open
                continue;
            }
            let counts = match model_file::admitted(&one.file) {
                Ok(found) => found.counts(one.file.len()).expect("few keys"),
                Err(_) if one.file.is_empty() => Vec::new(),
                Err(_) => continue,
            };
            one.counts = counts;
            if bounded && !self.prng.one_in(3) && !strings.is_empty() {
                let ((lower, _), (upper, _)) = bounds(&mut self.prng, &strings);
                one.lower = fitting(lower);
                one.upper = if self.prng.one_in(2) { fitting(upper) } else { unbounded() };
            }
            if let Some(&version) = one.file.first() {
                self.count(VERSION_NAMES[usize::from(version) - 1]);
            } else {
                self.count("files of no bytes");
            }
            sources.push(one);
        }
        self.count(if bounded { "sets of files with bounds" } else { "sets of files without bounds" });
        sources
    }

    // One operation, by each.
    fn operation(&mut self, op: Op, sources: &[Source], ours: &dyn OpsAnswers) -> Checked {
        let input = || describe(op, sources);
        let wanted = model_ops::merged(op, sources);
        same("an operation on admitted files is not refused", input, ("wanted", true), ("model", wanted.is_ok()))?;
        let wanted = wanted.unwrap_or_default();
        let long = sources.iter().all(|source| source.file.len() >= given_file::LEAST);
        if long {
            let opened: Vec<_> = sources.iter().filter_map(|source| given_file::open(&source.file)).collect();
            same("the Rust opens admitted files", input, ("wanted", sources.len()), ("the Rust", opened.len()))?;
            let said = given_ops::merged(op, &opened, sources).map(sorted);
            same("items and totals", input, ("the Rust", said.as_ref()), ("model", Some(&wanted)))?;
            self.count("operations by the Rust");
            self.count_more("totals by the Rust", sources.len());
        }
        let calls = wanted.items.len() + 1;
        let found = ours.merged(op, sources.len(), sources, calls);
        same("items and totals", input, ("model", Ok(&wanted)), ("ours", found.as_ref().map_err(|&why| why)))?;
        self.count(OP_NAMES[op as usize]);
        self.count(COUNT_NAMES[sources.len() - 1]);
        self.count_more("items", wanted.items.len());
        let equal = |pairs: &[(u64, usize)]| pairs.windows(2).any(|two| two[0].0 == two[1].0);
        for (key, pairs) in &wanted.items {
            if key.is_empty() {
                self.count("items: the empty key");
            }
            if pairs.len() > 1 {
                self.count("items of several files");
            }
            if equal(pairs) {
                self.count("items with equal values");
            }
        }
        Ok(())
    }

    // The same page by page, all files between the bounds of the first.
    fn by_pages(&mut self, op: Op, sources: &[Source], ours: &dyn OpsAnswers) -> Checked {
        let shared = model_ops::between_the_first(sources);
        let most = self.prng.pick(&[1, 2, 3, 7, 100]);
        let input = || format!("pages of {}, {}", most, describe(op, &shared));
        let wanted = model_ops::merged(op, &shared);
        same("a page of admitted files is not refused", input, ("wanted", true), ("model", wanted.is_ok()))?;
        let wanted = wanted.unwrap_or_default();
        if shared.iter().all(|source| source.file.len() >= given_file::LEAST) {
            let opened: Vec<_> = shared.iter().filter_map(|source| given_file::open(&source.file)).collect();
            let said = given_ops::merged(op, &opened, &shared).map(|merged| sorted(merged).items);
            same("items by pages", input, ("the Rust", said.as_ref()), ("model", Some(&wanted.items)))?;
            self.count("operations by pages, by the Rust");
        }
        let found = ours.paged(op, &shared, most);
        same("items by pages", input, ("model", Ok(&wanted.items)), ("ours", found.as_ref().map_err(|&why| why)))?;
        self.count("operations by pages");
        if wanted.items.len() > most {
            self.count("operations of several pages");
        }
        Ok(())
    }

    // What is refused, and what has no room.
    fn not_whole(&mut self, op: Op, sources: &[Source], ours: &dyn OpsAnswers) -> Checked {
        let items = match model_ops::merged(op, sources) {
            Ok(merged) => merged.items.len(),
            Err(_) => return Ok(()),
        };
        let (mut count, mut calls, mut asked) = (sources.len(), items + 1, sources.to_vec());
        let (name, wanted) = match self.prng.below(4) {
            0 => {
                calls = self.prng.below(items + 1);
                ("no room for the next call", Stopped::NoRoom)
            }
            1 => {
                count = 0;
                ("no file: CARDS", Stopped::Refused(CARDS))
            }
            2 => {
                count = self.prng.pick(&[9, 10, usize::max_value()]);
                ("more than eight files: CARDS", Stopped::Refused(CARDS))
            }
            _ => {
                let last = &mut asked[sources.len() - 1];
                if last.counts.pop().is_none() {
                    return Ok(());
                }
                ("a table one entry short: SPACE", Stopped::Start(SPACE))
            }
        };
        let input = || format!("{}, {}", name, describe(op, &asked));
        same(name, input, ("wanted", Err(wanted)), ("model", Model.merged(op, count, &asked, calls)))?;
        same(name, input, ("wanted", Err(wanted)), ("ours", ours.merged(op, count, &asked, calls)))?;
        self.count(name);
        Ok(())
    }

    pub fn operations(&mut self) -> Checked {
        let ours: &dyn OpsAnswers = match self.ours_ops {
            Some(ours) => ours,
            None => &Model,
        };
        for _ in 0..SETS / self.one_in {
            let sources = self.sources();
            for &op in &OPS {
                self.operation(op, &sources, ours)?;
                self.by_pages(op, &sources, ours)?;
            }
            if self.prng.one_in(4) {
                let op = self.prng.pick(&OPS);
                self.not_whole(op, &sources, ours)?;
            }
        }
        self.require(&["operations by the Rust", "operations by pages, by the Rust"], 50_000)?;
        self.require(&["operations of several pages"], 5_000)?;
        self.require(&OP_NAMES, 12_500)?;
        self.require(&COUNT_NAMES, 5_000)?;
        self.require(&VERSION_NAMES, 5_000)?;
        self.require(&["sets of files with bounds", "sets of files without bounds", "items with equal values"], 5_000)?;
        self.require(
            &[
                "files of no bytes",
                "items: the empty key",
                "no room for the next call",
                "no file: CARDS",
                "more than eight files: CARDS",
                "a table one entry short: SPACE",
            ],
            200,
        )
    }
}
