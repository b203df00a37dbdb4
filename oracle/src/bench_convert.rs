// Times of conversion (document 02, N7) and of carrying a reading (N8) (docs/PERFORMANCE.md): lookups in wide nodes before and after a conversion, ours and the Rust's,
// a conversion beside an admission of the same file, and a carry beside a start at the same key.

use std::hint::black_box;

use crate::answers::{Bound, ConvertAnswers, FileAnswers, Held, Kind, ReadingAnswers, HELD, REFUSED, STARTED};
use crate::bench::{say, sets, times_in, Set};
use crate::builder::Builder;
use crate::given_file;
use crate::model_carry::CarryAnswers;
use crate::model_file;
use crate::prng::Prng;

const ASKED: usize = 100_000;
const PART: usize = 5_000;
const KEYS: usize = 4_000;

// Keys of two bytes below a root of n transitions, each to a node of n, with values that let no two nodes be alike.
fn wide(n: usize) -> (Vec<u8>, Vec<[u8; 2]>) {
    let mut builder = Builder::new(1, 7);
    let mut keys = Vec::new();
    for i in 0..n * n {
        let key = [(i / n) as u8, (i % n) as u8];
        builder.insert(&key, (i * i) as u64);
        keys.push(key);
    }
    (builder.finish(0), keys)
}

fn converted(ours: &dyn ConvertAnswers, file: &[u8]) -> Vec<u8> {
    let n = file.len();
    let (mut depths, mut sums, mut out, mut table) = (vec![0; n], vec![0; n], vec![0; 8 * n + 600], vec![0; n]);
    let len = ours.convert(file, u32::max_value(), &mut depths, &mut sums, &mut out, &mut table);
    assert!(len < REFUSED, "a built file is converted");
    out.truncate(len as usize);
    out
}

fn lookups(ours: &dyn FileAnswers, old: &[u8], new: &[u8], keys: &[[u8; 2]]) -> (f64, f64) {
    let get = |file: &[u8], keys: &[[u8; 2]]| {
        let mut out = [0];
        for key in keys {
            assert_eq!(ours.get(file, key, &mut out), HELD);
            black_box(out[0]);
        }
    };
    times_in(keys, PART, |keys| get(old, keys), |keys| get(new, keys))
}

fn lookups_by_the_rust(old: &[u8], new: &[u8], keys: &[[u8; 2]]) -> (f64, f64) {
    let (old, new) = (given_file::open(old).expect("it has a root"), given_file::open(new).expect("it has a root"));
    let get = |opened: &given_file::Opened, keys: &[[u8; 2]]| {
        for key in keys {
            assert!(black_box(opened.get_timed(key)).is_some());
        }
    };
    times_in(keys, PART, |keys| get(&old, keys), |keys| get(&new, keys))
}

// The time of a byte of the old file.
fn beside_admission(ours: &dyn FileAnswers, converts: &dyn ConvertAnswers, file: &[u8]) -> (f64, f64) {
    let n = file.len();
    let (mut depths, mut sums, mut out, mut table) = (vec![0; n], vec![0; n], vec![0; 8 * n + 600], vec![0; n]);
    let (mut other_depths, mut other_sums) = (vec![0; n], vec![0; n]);
    let (convert, admit) = times_in(
        &[()],
        1,
        |_| assert!(converts.convert(file, u32::max_value(), &mut depths, &mut sums, &mut out, &mut table) < REFUSED),
        |_| assert_eq!(ours.admit(file, &mut other_depths, &mut other_sums), 0),
    );
    (convert / n as f64, admit / n as f64)
}

// A carry beside a start at the same key, as the excluded lower bound.
fn carries(
    reads: &dyn ReadingAnswers,
    carry: &dyn CarryAnswers,
    old: &[u8],
    new: &[u8],
    keys: &[Vec<u8>],
) -> (f64, f64) {
    let counts = model_file::admitted(old).ok().and_then(|found| found.counts(old.len()).ok()).expect("few keys");
    let upper = Bound { kind: Kind::Unbounded, bytes: Vec::new() };
    let asked: Vec<(Bound, Held)> = keys
        .iter()
        .map(|key| {
            let (lower, mut held) = (Bound { kind: Kind::Excluded, bytes: key.clone() }, Held::new());
            assert_eq!(reads.start(old, &lower, &upper, &counts, &mut held), STARTED);
            (lower, held)
        })
        .collect();
    times_in(
        &asked,
        KEYS / 8,
        |asked| {
            for (_, held) in asked {
                let mut held = held.clone();
                assert_eq!(carry.carry(old, new, None, &mut held), 0);
                black_box(held.addrs[0]);
            }
        },
        |asked| {
            for (lower, _) in asked {
                let mut held = Held::new();
                assert_eq!(reads.start(old, lower, &upper, &counts, &mut held), STARTED);
                black_box(held.addrs[0]);
            }
        },
    )
}

pub fn bench(
    ours: &dyn FileAnswers,
    converts: &dyn ConvertAnswers,
    reads: &dyn ReadingAnswers,
    carry: &dyn CarryAnswers,
) {
    println!("lookups of keys of two bytes, nanoseconds, before and after conversion");
    println!("    {:<28}{:>8} {:>8} {:>8}", "", "before", "after", "ratio");
    for &n in &[16, 32, 33, 64, 128, 256] {
        let (old, keys) = wide(n);
        let new = converted(converts, &old);
        let mut prng = Prng::new(23);
        let asked: Vec<[u8; 2]> = (0..ASKED).map(|_| keys[prng.below(keys.len())]).collect();
        say(&format!("{} transitions, {} bytes", n, old.len()), lookups(ours, &old, &new, &asked));
        say("  the Rust", lookups_by_the_rust(&old, &new, &asked));
    }
    println!("conversion, nanoseconds a byte of the old file");
    println!("    {:<28}{:>8} {:>8} {:>8}", "", "convert", "admit", "ratio");
    let old_file = |keys: &[Vec<u8>]| {
        let mut builder = Builder::new(1, 7);
        keys.iter().enumerate().for_each(|(i, key)| builder.insert(key, 3 * i as u64));
        builder.finish(0)
    };
    let some = |keys: &[Vec<u8>], n: usize| keys.iter().step_by(keys.len() / n).take(n).cloned().collect::<Vec<_>>();
    // zero-padded numbers share nearly all their nodes
    let sets: Vec<Set> = sets().into_iter().take(2).collect();
    for Set { name, keys } in &sets {
        for &n in &[1_500, 40_000] {
            let old = old_file(&some(keys, n));
            say(&format!("{}, {} bytes", name, old.len()), beside_admission(ours, converts, &old));
        }
    }
    for &n in &[32, 64, 256] {
        let (old, _) = wide(n);
        say(&format!("{} transitions, {} bytes", n, old.len()), beside_admission(ours, converts, &old));
    }
    println!("a carry beside a start, nanoseconds, at keys of 11 bytes");
    println!("    {:<28}{:>8} {:>8} {:>8}", "", "carry", "start", "ratio");
    let keys = some(&sets[1].keys, KEYS);
    let old = old_file(&keys);
    say(&format!("{} keys, {} bytes", KEYS, old.len()), carries(reads, carry, &old, &converted(converts, &old), &keys));
}
