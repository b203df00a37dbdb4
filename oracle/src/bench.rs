// Times of lookups, readings and admission, ours beside the Rust's, on three sets that are made here (docs/PERFORMANCE.md). Ours opens
// the file and judges each node in every call; the Rust opens it once and judges nothing. Beside admission the Rust walks the nodes.
// The table of keys is filled beside admission alone, and readings with the number of keys to come stand beside readings without it.

use std::hint::black_box;
use std::time::Instant;

use crate::answers::{Answers, At, Bound, FileAnswers, Kind, ReadingAnswers, HELD, NOT_HELD, NO_KEY, SOUND};
use crate::bench_pattern;
use crate::builder::Builder;
use crate::generate_file;
use crate::given_file::{self, Opened};
use crate::model_file::MAX_PATH;
use crate::model_range::{RangeAnswers, RANGE_MORE, ROW};
use crate::prng::Prng;
use crate::stream::Streamer;

const ASKED: usize = 200_000;
// The questions are asked so many at a time. Of each such part the least time of so many rounds is kept, since whatever else
// runs on the machine only adds to it.
const PART: usize = 5_000;
const ROUNDS: usize = 9;
// Of readings so many keys are read, in one range and in ranges of so many keys, which are timed in so many parts.
const READ: usize = 100_000;
const SHORT: usize = 20;
const PARTS: usize = 20;
// A range in one call has room for so many keys.
const PAGE: usize = 32;
// A file as long as words fill 16 MiB.
const DENSE: usize = 16_777_216;

pub struct Set {
    pub name: &'static str,
    pub keys: Vec<Vec<u8>>,
}

pub fn sets() -> Vec<Set> {
    let mut prng = Prng::new(9);
    let words = generate_file::distinct(650_000, || generate_file::word(&mut prng));
    let letters = b"ABCDEFGHJKLMNPQRSTUVWXYZ";
    let parts = generate_file::distinct(505_000, || {
        // as AB-12345-6C
        let (first, second) = (prng.pick(letters) as char, prng.pick(&letters[..8]) as char);
        let (digit, last) = (prng.below(10), prng.pick(&letters[..6]) as char);
        format!("{}{}-{:05}-{}{}", first, second, prng.below(100_000), digit, last).into_bytes()
    });
    let numbers = (0..1_000_000).map(|i| format!("{:08}", i).into_bytes()).collect();
    vec![
        Set { name: "words", keys: words },
        Set { name: "part numbers", keys: parts },
        Set { name: "zero-padded numbers", keys: numbers },
    ]
}

// The time of a question, in nanoseconds, for each of two who answer. They take turns, each half a round behind the other, so
// that neither finds in the caches what the other has just read.
fn times<T>(questions: &[T], ours: impl FnMut(&[T]), rust: impl FnMut(&[T])) -> (f64, f64) {
    times_in(questions, PART, ours, rust)
}

// The same with so many questions at a time.
pub fn times_in<T>(questions: &[T], part: usize, mut ours: impl FnMut(&[T]), mut rust: impl FnMut(&[T])) -> (f64, f64) {
    let parts: Vec<&[T]> = questions.chunks(part).collect();
    let n = parts.len();
    let mut least = vec![(f64::INFINITY, f64::INFINITY); n];
    for _ in 0..ROUNDS {
        for i in 0..n {
            let other = (i + n / 2) % n;
            let start = Instant::now();
            ours(parts[i]);
            let between = Instant::now();
            rust(parts[other]);
            least[i].0 = least[i].0.min((between - start).as_secs_f64());
            least[other].1 = least[other].1.min(between.elapsed().as_secs_f64());
        }
    }
    let each = |seconds: f64| seconds * 1e9 / questions.len() as f64;
    (each(least.iter().map(|l| l.0).sum()), each(least.iter().map(|l| l.1).sum()))
}

pub fn say(what: &str, (ours, rust): (f64, f64)) {
    println!("    {:<28}{:>8.1} {:>8.1} {:>8.2}", what, ours, rust, ours / rust);
}

fn by_key(ours: &dyn FileAnswers, rust: &Opened, file: &[u8], keys: &[&[u8]], held: bool) -> (f64, f64) {
    for key in keys {
        assert_eq!(rust.get_timed(key).is_some(), held);
        assert_eq!(ours.get(file, key, &mut []), if held { HELD } else { NOT_HELD });
    }
    let mut out = [0];
    times(
        keys,
        |keys| {
            for key in keys {
                black_box(ours.get(file, key, &mut out));
                black_box(out[0]);
            }
        },
        |keys| {
            for key in keys {
                black_box(rust.get_timed(key));
            }
        },
    )
}

fn by_value(ours: &dyn FileAnswers, rust: &Opened, file: &[u8], values: &[u64], held: bool) -> (f64, f64) {
    let (mut buffer, mut list) = ([0; MAX_PATH], Vec::new());
    for &value in values {
        assert_eq!(rust.get_key_timed(value, &mut list), held);
        let answer = ours.get_key(file, value, &mut buffer);
        assert_eq!(answer, if held { list.len() as u64 } else { NO_KEY });
    }
    times(
        values,
        |values| {
            for &value in values {
                black_box(ours.get_key(file, value, &mut buffer));
                black_box(buffer[0]);
            }
        },
        |values| {
            for &value in values {
                black_box(rust.get_key_timed(value, &mut list));
            }
        },
    )
}

// The parts of a lookup by key: opening the file, and entering each node, which ours judges and the Rust reads.
fn opening(ours: &dyn FileAnswers, file: &[u8], keys: &[&[u8]]) -> (f64, f64) {
    times(
        keys,
        |keys| {
            for _ in keys {
                black_box(ours.open(black_box(file), &mut []));
            }
        },
        |keys| {
            for _ in keys {
                black_box(given_file::open(black_box(file)).is_some());
            }
        },
    )
}

// Admission, a byte of the file.
fn admitting(ours: &dyn FileAnswers, rust: &Opened, file: &[u8]) -> (f64, f64) {
    let (mut depths, mut sums) = (vec![0; file.len()], vec![0; file.len()]);
    let all = times_in(
        &[()],
        1,
        |_| assert_eq!(ours.admit(black_box(file), &mut depths, &mut sums), 0),
        |_| {
            black_box(rust.walk_timed());
        },
    );
    (all.0 / file.len() as f64, all.1 / file.len() as f64)
}

// Filling the table of keys, a byte of the file, beside admission alone.
fn filling(ours: &dyn FileAnswers, file: &[u8], counts: &mut [u64]) -> (f64, f64) {
    let (mut depths, mut sums) = (vec![0; file.len()], vec![0; file.len()]);
    let (mut other_depths, mut other_sums) = (vec![0; file.len()], vec![0; file.len()]);
    let all = times_in(
        &[()],
        1,
        |_| assert_eq!(ours.count_keys(black_box(file), &mut depths, &mut sums, counts), 0),
        |_| assert_eq!(ours.admit(black_box(file), &mut other_depths, &mut other_sums), 0),
    );
    (all.0 / file.len() as f64, all.1 / file.len() as f64)
}

fn entering(ours: &dyn Answers, rust: &Opened, file: &[u8], paths: &[Vec<usize>]) -> (f64, f64) {
    let meta = rust.meta();
    let at = |addr| At { file, version: meta.version, root: meta.root, addr };
    times(
        paths,
        |paths| {
            for path in paths {
                for &addr in path {
                    assert_eq!(ours.node(at(addr), &mut []), SOUND);
                }
            }
        },
        |paths| {
            for path in paths {
                for &addr in path {
                    black_box(rust.node_timed(addr));
                }
            }
        },
    )
}

// ---- readings

// A part of a reading in one range: the bounds, and how many keys lie between them.
struct Part {
    lower: Bound,
    upper: Bound,
    keys: usize,
}

// How many keys a range has by the Rust, which is read up to the end.
fn read_by_the_rust(rust: &Opened, part: &Part) -> usize {
    let mut range = rust.range_timed(&part.lower, &part.upper);
    let mut n = 0;
    while let Some(key) = range.next() {
        black_box(key);
        n += 1;
    }
    n
}

// The time of a key, over ranges that are read whole.
fn reading(ours: &dyn ReadingAnswers, rust: &Opened, file: &[u8], counts: Option<&[u64]>, parts: &[Part]) -> (f64, f64) {
    let mut key = [0; MAX_PATH];
    let mut read = |part: &Part| match counts {
        Some(counts) => ours.keys(file, &part.lower, &part.upper, counts, u64::max_value(), &mut key) as usize,
        None => ours.bare_keys(file, &part.lower, &part.upper, u64::max_value(), &mut key) as usize,
    };
    let mut keys = 0;
    for part in parts {
        assert_eq!(read(part), part.keys);
        assert_eq!(read_by_the_rust(rust, part), part.keys);
        keys += part.keys;
    }
    let (by_ours, by_the_rust) = times_in(
        parts,
        1 + parts.len() / PARTS,
        |parts| {
            for part in parts {
                black_box(read(part));
            }
        },
        |parts| {
            for part in parts {
                black_box(read_by_the_rust(rust, part));
            }
        },
    );
    let each = parts.len() as f64 / keys as f64;
    (by_ours * each, by_the_rust * each)
}

// The time of a key by ranges in one call, each from the last key of the one before, over ranges that are read whole.
fn paging(ours: &dyn RangeAnswers, rust: &Opened, file: &[u8], parts: &[Part]) -> (f64, f64) {
    let (mut rows, mut values) = ([0; ROW * PAGE], [0; PAGE]);
    let mut read = |part: &Part| {
        let mut from = part.lower.clone();
        let mut n = 0;
        loop {
            let (count, stop) = ours.range(file, &from, &part.upper, PAGE, &mut rows, &mut values);
            n += count as usize;
            if stop != RANGE_MORE {
                return n;
            }
            let last = &rows[ROW * (PAGE - 1)..];
            from.kind = Kind::Excluded;
            from.bytes.clear();
            from.bytes.extend_from_slice(&last[1..1 + usize::from(last[0])]);
        }
    };
    let mut keys = 0;
    for part in parts {
        assert_eq!(read(part), part.keys);
        keys += part.keys;
    }
    let (by_ours, by_the_rust) = times_in(
        parts,
        1 + parts.len() / PARTS,
        |parts| {
            for part in parts {
                black_box(read(part));
            }
        },
        |parts| {
            for part in parts {
                black_box(read_by_the_rust(rust, part));
            }
        },
    );
    let each = parts.len() as f64 / keys as f64;
    (by_ours * each, by_the_rust * each)
}

// The time of a key with the number of keys to come, beside that without it; or of a start alone, where no key is read.
fn numbered(ours: &dyn ReadingAnswers, file: &[u8], counts: &[u64], parts: &[Part], most: u64) -> (f64, f64) {
    let (mut key, mut other_key) = ([0; MAX_PATH], [0; MAX_PATH]);
    let mut read = |part: &Part| ours.keys(file, &part.lower, &part.upper, counts, most, &mut key) as usize;
    let mut bare = |part: &Part| ours.bare_keys(file, &part.lower, &part.upper, most, &mut other_key) as usize;
    let mut keys = 0;
    for part in parts {
        let wanted = part.keys.min(most as usize);
        assert_eq!((read(part), bare(part)), (wanted, wanted));
        keys += wanted;
    }
    let (with, without) = times_in(
        parts,
        1 + parts.len() / PARTS,
        |parts| {
            for part in parts {
                black_box(read(part));
            }
        },
        |parts| {
            for part in parts {
                black_box(bare(part));
            }
        },
    );
    let each = if keys == 0 { 1.0 } else { parts.len() as f64 / keys as f64 };
    (with * each, without * each)
}

// The keys from place i on, so many of them, as one range.
fn part(keys: &[Vec<u8>], i: usize, n: usize) -> Part {
    let bound = |place: usize| Bound { kind: Kind::Included, bytes: keys[place].clone() };
    Part { lower: bound(i), upper: bound(i + n - 1), keys: n }
}

// All keys, of which there are so many, without bounds.
fn whole_part(n: usize) -> Part {
    let unbounded = || Bound { kind: Kind::Unbounded, bytes: Vec::new() };
    Part { lower: unbounded(), upper: unbounded(), keys: n }
}

pub fn bench(
    nodes: &dyn Answers,
    ours: &dyn FileAnswers,
    readings: &dyn ReadingAnswers,
    ranges: &dyn RangeAnswers,
) {
    println!("nanoseconds a lookup, over {} lookups; of readings, nanoseconds a key\n", ASKED);
    for set in sets() {
        let mut prng = Prng::new(10);
        let n = set.keys.len();
        let mut builder = Builder::new(3, 0);
        // three apart, so that there are values that no key has
        for (i, key) in set.keys.iter().enumerate() {
            builder.insert(key, 3 * i as u64);
        }
        let file = builder.finish(0);
        let rust = given_file::open(&file).expect("a built file opens");
        let bytes: usize = set.keys.iter().map(Vec::len).sum();
        println!("{}: {} keys of {:.1} bytes, a file of {} bytes", set.name, n, bytes as f64 / n as f64, file.len());
        println!(
            "    {:<28}{:>8} {:>8} {:>8}",
            format!("(root: {} transitions)", rust.root_len()),
            "ours",
            "Rust",
            "ratio"
        );

        let held: Vec<&[u8]> = (0..ASKED).map(|_| &set.keys[prng.below(n)][..]).collect();
        say("held key", by_key(ours, &rust, &file, &held, true));
        say("  opening the file alone", opening(ours, &file, &held));
        let paths: Vec<Vec<usize>> = held.iter().map(|key| rust.entered(key)).collect();
        say("  entering its nodes alone", entering(nodes, &rust, &file, &paths));
        // a held key with one byte changed for another of its set
        let misses: Vec<Vec<u8>> = (0..ASKED)
            .map(|_| loop {
                let mut key = set.keys[prng.below(n)].clone();
                let (other, i) = (prng.below(n), prng.below(key.len()));
                key[i] = set.keys[other][prng.below(set.keys[other].len())];
                if rust.get_timed(&key).is_none() {
                    break key;
                }
            })
            .collect();
        let misses: Vec<&[u8]> = misses.iter().map(|key| &key[..]).collect();
        say("miss", by_key(ours, &rust, &file, &misses, false));
        let values: Vec<u64> = (0..ASKED).map(|_| 3 * prng.below(n) as u64).collect();
        say("by value", by_value(ours, &rust, &file, &values, true));
        let values: Vec<u64> = values.iter().map(|value| value + 1).collect();
        say("by value, none", by_value(ours, &rust, &file, &values, false));
        // one reading over much of the file, and short ones
        let whole = [part(&set.keys, 0, READ)];
        let mut counts = vec![0; file.len()];
        let fill = filling(ours, &file, &mut counts);
        say("key of a long reading", reading(readings, &rust, &file, Some(&counts), &whole));
        say("  without the number", reading(readings, &rust, &file, None, &whole));
        let short: Vec<Part> = (0..READ / SHORT).map(|_| part(&set.keys, prng.below(n - SHORT), SHORT)).collect();
        say("key of a range of 20", reading(readings, &rust, &file, Some(&counts), &short));
        say("  without the number", reading(readings, &rust, &file, None, &short));
        if set.name == "part numbers" {
            bench_pattern::bench(readings, &rust, &file, &set.keys);
        }
        say("long reading, by range", paging(ranges, &rust, &file, &whole));
        say("range of 20, by range", paging(ranges, &rust, &file, &short));
        say("admission, a byte", admitting(ours, &rust, &file));
        println!("    {:<28}{:>8} {:>8} {:>8}", "", "with", "without", "ratio");
        let wholes: Vec<Part> = short.iter().map(|_| whole_part(n)).collect();
        say("start of a whole reading", numbered(readings, &file, &counts, &wholes, 0));
        say("start of a range of 20", numbered(readings, &file, &counts, &short, 0));
        say("key of a long reading", numbered(readings, &file, &counts, &whole, u64::max_value()));
        say("key of a range of 20", numbered(readings, &file, &counts, &short, u64::max_value()));
        say("filling the table, a byte", fill);
        println!();
    }
    let file = generate_file::dense(&mut Prng::new(8), DENSE);
    let rust = given_file::open(&file).expect("it has a root");
    println!("a file of {} bytes", file.len());
    say("admission, a byte", admitting(ours, &rust, &file));
    say("filling, beside admission", filling(ours, &file, &mut vec![0; file.len()]));
}
