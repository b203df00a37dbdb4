// Times of readings by pattern, ours beside the Rust's search with an automaton, on the benchmark's part numbers (docs/PERFORMANCE.md). Ours
// opens the file and judges each node in every call, and a call copies the whole reading; a call has no limit, so its worst is printed too.

use std::hint::black_box;
use std::time::Instant;

use crate::answers::{Bound, Held, Kind, Pattern, ReadingAnswers, END, STARTED};
use crate::bench::{say, times_in};
use crate::given_file::Opened;
use crate::model_file::MAX_PATH;
use crate::prng::Prng;

// So many patterns, timed in so many parts.
const PATTERNS: usize = 2_000;
const PARTS: usize = 20;
const ANY: u16 = 256;

fn unbounded() -> Bound {
    Bound { kind: Kind::Unbounded, bytes: Vec::new() }
}

// How many keys fit, by our library, with the longest that a call took, in nanoseconds.
fn read_by_ours(ours: &dyn ReadingAnswers, file: &[u8], pattern: &Pattern, worst: &mut u128) -> usize {
    let (mut held, mut key, mut value) = (Held::new(), [0; MAX_PATH], [0]);
    assert_eq!(ours.start_by(file, pattern, &unbounded(), &unbounded(), &mut held), STARTED);
    let mut n = 0;
    loop {
        let start = Instant::now();
        let told = ours.next_by(file, pattern, &mut held, &mut key, &mut value);
        *worst = (*worst).max(start.elapsed().as_nanos());
        if told >= END {
            assert_eq!(told, END);
            return n;
        }
        black_box(&key);
        n += 1;
    }
}

fn read_by_the_rust(rust: &Opened, pattern: &Pattern) -> usize {
    let mut search = rust.search(pattern, &unbounded(), &unbounded()).expect("a start");
    let mut n = 0;
    while let Some(key) = search.next().expect("no panic") {
        black_box(key);
        n += 1;
    }
    n
}

fn reading(ours: &dyn ReadingAnswers, rust: &Opened, file: &[u8], patterns: &[Pattern]) -> (f64, f64, u128) {
    let (mut keys, mut worst) = (0, 0);
    for pattern in patterns {
        let n = read_by_the_rust(rust, pattern);
        assert_eq!(read_by_ours(ours, file, pattern, &mut worst), n);
        keys += n;
    }
    worst = 0;
    let (by_ours, by_the_rust) = times_in(
        patterns,
        1 + patterns.len() / PARTS,
        |patterns| {
            for pattern in patterns {
                black_box(read_by_ours(ours, file, pattern, &mut worst));
            }
        },
        |patterns| {
            for pattern in patterns {
                black_box(read_by_the_rust(rust, pattern));
            }
        },
    );
    let each = patterns.len() as f64 / keys as f64;
    (by_ours * each, by_the_rust * each, worst)
}

// Held keys with the two bytes in the middle any byte: whole, and cut behind them with any rest.
pub fn bench(ours: &dyn ReadingAnswers, rust: &Opened, file: &[u8], keys: &[Vec<u8>]) {
    let mut prng = Prng::new(11);
    for (what, cut) in [("key of a pattern", false), ("key of a pattern, any rest", true)] {
        let patterns: Vec<Pattern> = (0..PATTERNS)
            .map(|_| {
                let key = &keys[prng.below(keys.len())];
                let middle = key.len() / 2;
                let mut positions: Vec<u16> = key.iter().map(|&b| u16::from(b)).collect();
                positions[middle - 1] = ANY;
                positions[middle] = ANY;
                if cut {
                    positions.truncate(middle + 1);
                }
                Pattern { positions, rest: cut }
            })
            .collect();
        let (by_ours, by_the_rust, worst) = reading(ours, rust, file, &patterns);
        say(what, (by_ours, by_the_rust));
        println!("    {:<28}{:>8}", "  its longest call", worst);
    }
}
