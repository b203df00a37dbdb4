// The replay list of readings, for a program that replays them with no Rust at hand: starts with a table of keys, and the calls of
// next after them. On admitted files keys, values, totals and, with the table as filled, the numbers of keys to come are the Rust's
// answers, everything else is the model's. crates/replay_stream/README.md has its layout.

use crate::answers::{
    start_name, Bound, Kind, Level, Reading, BOUND_BYTES, BOUND_KINDS, END, LEVELS, NEXTS, NEXT_REFUSED, STARTED, STATE,
};
use crate::compare::{filled, followed};
use crate::generate_file::{damage, file_of, small};
use crate::generate_reading::{addresses, blank, bounds, made, strings};
use crate::given_file;
use crate::given_reading::Range;
use crate::hand_made;
use crate::model_file::{self, MAX_PATH};
use crate::model_reading::{self, Told};
use crate::prng::Prng;
use crate::replay_file;
use crate::replay_list::{List, FILE};

// The kinds of record beside the file.
const START: u8 = 2;
const NEXT: u8 = 3;
const MADE: u8 = 4;
const TABLE: u8 = 5;

// How many files there are beside those by hand, sound ones, and as many damaged.
const FILES: usize = 120;
// The longest bound of the list, but for those by hand.
const SHORT_BOUND: usize = 40;

const TOP: u64 = u64::max_value();

// So many keys of a range are counted by the Rust.
const COUNTED: u64 = 1_000;

const ALL: Bound = Bound { kind: Kind::Unbounded, bytes: Vec::new() };

impl List {
    fn read_file(&mut self, file: &[u8]) {
        self.put(FILE, 0, 0, 0, file);
        self.count("files");
    }

    // The table of keys for the starts after it: the entry that stands nearly everywhere, and the others.
    fn table(&mut self, counts: &[u64]) {
        let often = if counts.iter().all(|&keys| keys == TOP) { TOP } else { 0 };
        let mut part = Vec::new();
        for (addr, keys) in counts.iter().enumerate().filter(|(_, keys)| **keys != often) {
            part.extend(&(addr as u16).to_le_bytes());
            part.extend(&keys.to_le_bytes());
        }
        self.put(TABLE, 0, often, counts.len() as u64, &part);
        self.count("tables of keys");
    }

    fn start(&mut self, file: &[u8], counts: &[u64], lower: &Bound, upper: &Bound) -> Option<Reading> {
        let begun = model_reading::start(file, lower, upper, counts);
        let kinds = 3 * lower.kind.number() + upper.kind.number();
        let keys = begun.as_ref().map_or(0, |reading| reading.keys);
        let part = [&keys.to_le_bytes()[..], &lower.bytes, &upper.bytes].concat();
        let number = begun.as_ref().err().copied().unwrap_or(STARTED);
        self.put(START, number, lower.bytes.len() as u64, kinds, &part);
        self.count("starts");
        self.count(start_name(number));
        begun.ok()
    }

    // A call, by the Rust where its range is given and the buffer is long enough, and what it leaves.
    fn next(&mut self, file: &[u8], reading: &Reading, space: usize, rust: Option<&mut Range>) -> (Told, Reading) {
        let (told, after) = model_reading::next(file, reading, space);
        let (told, total) = match rust {
            Some(range) if space >= MAX_PATH && told != Told::Refused(STATE) => {
                let key = range.next().expect("the Rust answers on an admitted file");
                (key.map_or(Told::End, |(bytes, value)| Told::Key(bytes, value)), range.followed())
            }
            _ => (told, after.total),
        };
        let (number, value, key, what) = match &told {
            Told::Key(key, value) => (key.len() as u64, *value, &key[..], "nexts: a key"),
            Told::End => (END, 0, &[][..], "nexts: the end"),
            Told::Refused(why) => (NEXT_REFUSED + why, 0, &[][..], NEXTS[*why as usize]),
        };
        let levels = (after.level_count as u16).to_le_bytes();
        let keys = after.keys.to_le_bytes();
        self.put(NEXT, number, value, space as u64, &[&total.to_le_bytes()[..], &levels, &keys, key].concat());
        self.count("nexts");
        self.count(what);
        (told, after)
    }

    // A reading that no start gave, and some calls from it.
    fn made(&mut self, prng: &mut Prng, file: &[u8], reading: Reading) {
        let mut part = (reading.file_len as u64).to_le_bytes().to_vec();
        part.push(reading.pending.is_some() as u8);
        part.extend(&reading.pending.unwrap_or(0).to_le_bytes());
        part.push(reading.kind.number() as u8);
        part.extend(&reading.keys.to_le_bytes());
        // the bytes of an unbounded one carry no meaning, and are there
        let mut bound = reading.bound.clone();
        bound.resize(reading.bound_len.min(BOUND_BYTES), b'm');
        part.extend(&bound);
        for level in &reading.levels {
            part.extend(&level.addr.to_le_bytes());
            part.push(level.inp);
            part.extend(&level.place.to_le_bytes());
            part.extend(&level.sum.to_le_bytes());
        }
        self.put(MADE, reading.level_count as u64, reading.total, reading.bound_len as u64, &part);
        self.count("readings that no start gave");
        let mut reading = reading;
        for _ in 0..prng.between(1, 3) {
            let space = prng.pick(&[0, 254, 255, 255, 255, 255, 300]);
            reading = self.next(file, &reading, space, None).1;
        }
    }

    // A start and so many calls, or one more than up to the end. Now and then a buffer is short, or another file comes between.
    fn range(&mut self, prng: &mut Prng, file: &[u8], counts: &[u64], lower: &Bound, upper: &Bound, calls: usize) {
        let mut reading = match self.start(file, counts, lower, upper) {
            Some(reading) => reading,
            None => return,
        };
        let found = model_file::admitted(file);
        let opened = if found.is_ok() { given_file::open(file) } else { None };
        if let (Ok(found), Some(rust)) = (&found, &opened) {
            if found.counts(file.len()).map_or(false, |right| right == counts) && reading.keys < COUNTED {
                assert_eq!(rust.keys_in(lower, upper, COUNTED), Some(reading.keys), "the keys that the Rust hands out");
            }
        }
        let mut range = opened.as_ref().and_then(|rust| rust.range(lower, upper));
        let mut ended = false;
        for _ in 0..calls {
            if prng.one_in(20) {
                let short = prng.pick(&[0, 1, 254]);
                reading = self.next(file, &reading, short, range.as_mut()).1;
            }
            if prng.one_in(60) {
                let other = if file.len() == 36 { hand_made::d() } else { hand_made::root_0() };
                self.read_file(&other);
                reading = self.next(&other, &reading, MAX_PATH, range.as_mut()).1;
                self.read_file(file);
            }
            let space = MAX_PATH + prng.below(30);
            let (told, after) = self.next(file, &reading, space, range.as_mut());
            reading = after;
            if ended || matches!(told, Told::Refused(_)) {
                break;
            }
            ended = told == Told::End;
        }
    }
}

fn bound(kind: Kind, bytes: &[u8]) -> Bound {
    Bound { kind, bytes: bytes.to_vec() }
}

// A table for a file that is not the one as filled, with few entries that differ: zeros, the largest, one entry changed, or short.
fn other_table(prng: &mut Prng, file: &[u8]) -> Vec<u64> {
    let mut counts = vec![0; file.len()];
    let entries = followed(file);
    match prng.below(6) {
        0 => (),
        1 => return vec![TOP; file.len()],
        way => {
            for &(addr, keys) in &entries {
                counts[addr] = keys;
            }
            if way == 2 {
                counts.truncate(file.len().saturating_sub(1));
            } else if !entries.is_empty() {
                let (addr, keys) = prng.pick(&entries);
                counts[addr] = prng.pick(&[0, keys / 2, keys.wrapping_sub(1), keys.wrapping_add(1), TOP]);
            }
        }
    }
    counts
}

// Document 02's rows of D, with its four tables.
fn rows_of_d(list: &mut List, prng: &mut Prng) {
    let file = hand_made::d();
    list.read_file(&file);
    for &(at_21, at_29) in &[(2, 3), (0, 0), (5, 3), (TOP, TOP), (2, 1), (2, 9)] {
        let mut counts = vec![0; file.len()];
        counts[21] = at_21;
        counts[29] = at_29;
        list.table(&counts);
        for (lower, upper) in vec![
            (ALL, ALL),
            (bound(Kind::Included, b"at"), bound(Kind::Excluded, b"e")),
            (bound(Kind::Included, b"b"), ALL),
            (bound(Kind::Excluded, b"at"), ALL),
            (ALL, bound(Kind::Included, b"a")),
            (ALL, bound(Kind::Excluded, b"a")),
            (ALL, bound(Kind::Excluded, b"")),
            (ALL, bound(Kind::Included, b"zz")),
            (bound(Kind::Included, b"e"), bound(Kind::Included, b"a")),
            (bound(Kind::Excluded, b"a"), bound(Kind::Included, b"a")),
        ] {
            list.range(prng, &file, &counts, &lower, &upper, 5);
        }
    }
    list.table(&[0; 49]);
    list.start(&file, &[0; 49], &ALL, &ALL);
    list.start(&file, &[0; 49], &bound(Kind::Included, &[b'a'; 256]), &ALL);
}

// Its other rows: an unsound node on the upper bound, about 2^64 keys, root 0 and no bytes.
fn other_rows(list: &mut List, prng: &mut Prng) {
    let (b, c) = (bound(Kind::Included, b"b"), bound(Kind::Included, b"c"));
    let unsound = hand_made::unsound_under(b'b');
    let tops = vec![TOP; unsound.len()];
    list.read_file(&unsound);
    list.table(&tops);
    list.start(&unsound, &tops, &ALL, &b);
    list.range(prng, &unsound, &tops, &c, &b, 2);
    list.start(&unsound, &tops, &ALL, &c);
    for &finals in &[false, true] {
        let file = hand_made::doubled(3, finals, 62, &[]);
        let counts = filled(&file);
        list.read_file(&file);
        list.table(&counts);
        list.range(prng, &file, &counts, &ALL, &ALL, 3);
        list.range(prng, &file, &counts, &bound(Kind::Excluded, b"ab"), &bound(Kind::Included, b"bab"), 3);
    }
    for file in vec![hand_made::root_0(), Vec::new()] {
        let counts = vec![TOP; file.len()];
        list.read_file(&file);
        list.table(&counts);
        list.range(prng, &file, &counts, &ALL, &ALL, 3);
    }
}

// The list, and how many records of each kind it has.
pub fn list() -> (Vec<u8>, Vec<(&'static str, usize)>) {
    let mut prng = Prng::new(14);
    let mut list = List::default();
    for file in replay_file::by_hand() {
        let counts = filled(&file);
        list.read_file(&file);
        list.table(&counts);
        list.range(&mut prng, &file, &counts, &ALL, &ALL, 6);
        let (at, e) = (bound(Kind::Included, b"at"), bound(Kind::Excluded, b"e"));
        list.range(&mut prng, &file, &counts, &at, &e, 4);
        list.range(&mut prng, &file, &counts, &bound(Kind::Excluded, b"a"), &bound(Kind::Included, b"aa"), 3);
        list.range(&mut prng, &file, &counts, &bound(Kind::Included, b"aa"), &ALL, 2);
    }
    rows_of_d(&mut list, &mut prng);
    other_rows(&mut list, &mut prng);
    // bounds of 255 and 256 bytes, and the empty key that the upper bound excludes
    let (long, longer) = ([b'a'; 255], [b'a'; 256]);
    let longest = hand_made::path_to(&[0, 0, 0x40], 255);
    let counts = filled(&longest);
    list.read_file(&longest);
    list.table(&counts);
    list.range(&mut prng, &longest, &counts, &bound(Kind::Included, &long), &bound(Kind::Included, &long), 3);
    list.range(&mut prng, &longest, &counts, &bound(Kind::Excluded, &long), &ALL, 2);
    list.start(&longest, &counts, &bound(Kind::Included, &longer), &ALL);
    list.start(&longest, &counts, &ALL, &bound(Kind::Excluded, &longer));
    list.range(&mut prng, &longest, &counts, &bound(Kind::Unbounded, &longer), &bound(Kind::Excluded, &long), 2);
    let with_empty = file_of(1, &[7, 0, 0, b'a', 0x11, 0x41]);
    let counts = filled(&with_empty);
    list.read_file(&with_empty);
    list.table(&counts);
    for &kind in &[Kind::Included, Kind::Excluded] {
        list.range(&mut prng, &with_empty, &counts, &ALL, &bound(kind, b""), 3);
        list.range(&mut prng, &with_empty, &counts, &bound(kind, b""), &bound(Kind::Included, b"a"), 4);
    }

    let mut files = 0;
    while files < FILES {
        let file = small(&mut prng).file;
        let found = match model_file::admitted(&file) {
            Ok(found) if (given_file::LEAST..=200).contains(&file.len()) => found,
            _ => continue,
        };
        let spelled = match strings(&found, 60) {
            Some(spelled) if spelled.len() > 1 => spelled,
            _ => continue,
        };
        files += 1;
        let near: Vec<_> = spelled.into_iter().map(|s| s.bytes).collect();
        list.read_file(&file);
        let mut counts = filled(&file);
        list.table(&counts);
        list.range(&mut prng, &file, &counts, &ALL, &ALL, 100);
        for i in 0..5 {
            if i == 3 {
                counts = other_table(&mut prng, &file);
                list.table(&counts);
            }
            let calls = prng.between(1, 6);
            list.bounded(&mut prng, &file, &counts, &near, calls);
        }
        let mut damaged = file.clone();
        for _ in 0..prng.between(1, 2) {
            let i = prng.between(16, file.len() - 1);
            damaged[i] = damage(&mut prng, damaged[i]);
        }
        list.read_file(&damaged);
        let counts = other_table(&mut prng, &damaged);
        list.table(&counts);
        list.range(&mut prng, &damaged, &counts, &ALL, &ALL, 5);
        for _ in 0..2 {
            list.bounded(&mut prng, &damaged, &counts, &near, 3);
        }
        let addrs = addresses(&damaged);
        let mut made_readings = 0;
        while made_readings < 2 {
            let reading = made(&mut prng, &damaged, &addrs, None);
            // numbers of two bytes, and few readings of many levels
            if reading.level_count <= 6 && reading.bound_len <= 300 {
                list.made(&mut prng, &damaged, reading);
                made_readings += 1;
            }
        }
    }
    list.made_at_limits(&mut prng);
    list.finish()
}

impl List {
    // D with so many levels at "a", the last with a transition to follow or used up, and bounds of 255 and 256 bytes.
    fn made_at_limits(&mut self, prng: &mut Prng) {
        let file = hand_made::d();
        self.read_file(&file);
        for &(level_count, place) in &[(255, 0), (256, 0), (256, 1), (257, 0), (300, 1)] {
            let mut reading = blank(&file);
            reading.levels = vec![Level { addr: 21, inp: b'a', place: 1, sum: 0 }; LEVELS.min(level_count)];
            reading.levels.last_mut().expect("there are levels").place = place;
            reading.level_count = level_count;
            self.made(prng, &file, reading);
        }
        for &bound_len in &[255, 256] {
            for &kind in &BOUND_KINDS {
                let mut reading = blank(&file);
                reading.set_levels(vec![Level { addr: 29, ..Level::default() }]);
                reading.kind = kind;
                reading.bound_len = bound_len;
                reading.bound = vec![b'a'; if kind == Kind::Unbounded { 0 } else { BOUND_BYTES }];
                reading.total = u64::max_value() - 1;
                self.made(prng, &file, reading);
            }
        }
    }

    fn bounded(&mut self, prng: &mut Prng, file: &[u8], counts: &[u64], near: &[Vec<u8>], calls: usize) {
        let ((lower, _), (upper, _)) = bounds(prng, near);
        // longer bounds would fill the list
        if lower.bytes.len() <= SHORT_BOUND && upper.bytes.len() <= SHORT_BOUND {
            self.range(prng, file, counts, &lower, &upper, calls);
        }
    }
}
