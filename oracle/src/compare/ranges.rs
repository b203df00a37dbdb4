// Readings of admitted files, by each: after the start and after every next the answer, the total, the pending empty key, the levels
// and the number of keys to come, held to the Rust with its stack and the keys that it still hands out, to the model, and to demand 3
// by the list of the file's strings.

use super::counting::filled;
use super::{describe_file, hex, same, smallest, Checked, Difference, Run, RANGES};
use crate::answers::{
    Bound, Held, Kind, Reading, ReadingAnswers, BOUND, BOUND_BYTES, DEEP, LEVELS, NODE, SHORT, SPACE, STARTED, SUM,
};
use crate::generate_file::{self, file_of, medium, small, Keys, Values};
use crate::generate_reading::{bounds, some_strings, strings, Spelled, BOUNDS};
use crate::given_file::{self, Opened};
use crate::hand_made::{d, final_sums, one_key, path_to, root_0, sums, unsound_after_sum};
use crate::model::Model;
use crate::model_file::{self, Admitted, MAX_PATH};
use crate::model_reading::{self, meets, passes, Told};
use crate::prng::Prng;

// ---- one start, one next

pub fn describe_bound(bound: &Bound) -> String {
    format!("{:?} {} ({} bytes)", bound.kind, hex(&bound.bytes), bound.bytes.len())
}

pub fn describe_reading(reading: &Reading) -> String {
    let levels: Vec<_> =
        reading.levels.iter().map(|l| format!("({} {:02x} {} {})", l.addr, l.inp, l.place, l.sum)).collect();
    format!(
        "a reading of {} bytes, upper {:?} {} ({} bytes), pending {:?}, total {}, {} keys, {} levels (address byte place sum) {}",
        reading.file_len,
        reading.kind,
        hex(&reading.bound),
        reading.bound_len,
        reading.pending,
        reading.total,
        reading.keys,
        reading.level_count,
        levels.join(" ")
    )
}

// Entries that carry no meaning, for a reading to be put over.
pub fn junk(keep: u64) -> Held {
    let n = keep | 1;
    let mut held = Held {
        head: [n; 7],
        bound: [n as u8; BOUND_BYTES],
        addrs: [n as u32; LEVELS],
        inps: [n as u8; LEVELS],
        places: [n as u16; LEVELS],
        sums: [n; LEVELS],
        keys: [n],
    };
    // none of them used up, and each at a node of the smallest files
    if keep % 2 == 0 {
        held.addrs = [21; LEVELS];
        held.places = [0; LEVELS];
    }
    held
}

// The entries of a table that are not 0, of the first ones.
fn describe_counts(counts: &[u64]) -> String {
    let entries = counts.iter().take(4_096).enumerate().filter(|(_, keys)| **keys != 0);
    let said: Vec<_> = entries.take(40).map(|(addr, keys)| format!("{}: {}", addr, keys)).collect();
    format!("a table of {} entries with {}", counts.len(), said.join(", "))
}

// A start with this table by the model and by ours.
pub fn started(
    ours: Option<&dyn ReadingAnswers>,
    file: &[u8],
    lower: &Bound,
    upper: &Bound,
    counts: &[u64],
    keep: u64,
) -> Result<Result<Reading, u64>, Difference> {
    let want = model_reading::start(file, lower, upper, counts);
    if let Some(ours) = ours {
        let input = || {
            let (lower, upper) = (describe_bound(lower), describe_bound(upper));
            format!("lower {}, upper {}, {}, {}", lower, upper, describe_counts(counts), describe_file(file))
        };
        let given = junk(keep);
        let mut held = given.clone();
        let number = want.as_ref().err().copied().unwrap_or(STARTED);
        same("a start", input, ("model", number), ("ours", ours.start(file, lower, upper, counts, &mut held)))?;
        match &want {
            Ok(reading) => same("a started reading", input, ("model", reading), ("ours", &held.reading()))?,
            Err(_) => same("after a refused start", input, ("as given", given.all()), ("ours", held.all()))?,
        }
        // some calls after it in one
        let most = keep % 5;
        let mut key = vec![keep as u8; if keep % 64 == 0 { MAX_PATH - 1 } else { MAX_PATH }];
        let mut left = key.clone();
        let number = Model.keys(file, lower, upper, counts, most, &mut left);
        let input = || format!("at most {} keys, {}", most, input());
        let answer = ours.keys(file, lower, upper, counts, most, &mut key);
        same("keys in a row", input, ("model", number), ("ours", answer))?;
        same("the key buffer after keys in a row", input, ("model", &left), ("ours", &key))?;
        // and without the number
        let number = Model.bare_keys(file, lower, upper, most, &mut left);
        let answer = ours.bare_keys(file, lower, upper, most, &mut key);
        same("keys in a row, without the number", input, ("model", number), ("ours", answer))?;
        same("the key buffer after keys in a row, without the number", input, ("model", left), ("ours", key))?;
    }
    Ok(want)
}

// A next by the model and by ours, with a key buffer of so many bytes.
pub fn stepped(
    ours: Option<&dyn ReadingAnswers>,
    file: &[u8],
    reading: &Reading,
    space: usize,
    keep: u64,
) -> Result<(Told, Reading), Difference> {
    let (told, after) = model_reading::next(file, reading, space);
    if let Some(ours) = ours {
        let input = || format!("a buffer of {} bytes, {}, {}", space, describe_reading(reading), describe_file(file));
        let mut held = junk(keep);
        held.put(reading);
        let mut key: Vec<u8> = (0..space).map(|i| keep as u8 ^ i as u8).collect();
        let mut value = [keep | 1];
        let (mut left, mut value_left) = (key.clone(), value);
        let number = model_reading::tell(&told, &mut left, &mut value_left);
        same("a next", input, ("model", number), ("ours", ours.next(file, &mut held, &mut key, &mut value)))?;
        same("the key buffer", input, ("model", left), ("ours", key))?;
        same("the value", input, ("model", value_left), ("ours", value))?;
        same("the reading after a next", input, ("model", &after), ("ours", &held.reading()))?;
    }
    Ok((told, after))
}

// ---- demand 3, by the list of all strings

struct Demanded<'s> {
    strings: &'s [Spelled],
    // the first string that meets the lower bound, and the first that passes the upper one
    from: usize,
    to: usize,
    // nothing is followed where the empty key is held and meets the lower bound, and the upper excludes it
    nothing: bool,
    longest: u64,
}

impl<'s> Demanded<'s> {
    fn new(strings: &'s [Spelled], lower: &Bound, upper: &Bound) -> Demanded<'s> {
        let from = strings.partition_point(|s| !meets(lower.kind, &lower.bytes, &s.bytes));
        let to = strings.partition_point(|s| !passes(upper.kind, &upper.bytes, &s.bytes));
        let nothing = from == 0 && to == 0 && strings[0].value.is_some();
        let held = strings.iter().filter(|s| s.value.is_some());
        Demanded { strings, from, to, nothing, longest: held.map(|s| s.bytes.len()).max().unwrap_or(0) as u64 }
    }

    // How many of the strings that meet the lower bound come before this place, without the empty one.
    fn strings_before(&self, place: usize) -> u64 {
        let without_empty = self.from.max(1);
        place.saturating_sub(without_empty) as u64
    }

    // The key from this place on that is to be handed out with its value, its place, and the total then.
    fn key_from(&self, place: usize) -> Option<(usize, Told, u64)> {
        (place.max(self.from)..self.to).find_map(|i| {
            let string = &self.strings[i];
            string.value.map(|value| (i, Told::Key(string.bytes.clone(), value), self.strings_before(i + 1)))
        })
    }

    // The total once "end" was answered: one more where a string meets the lower bound and passes the upper one.
    fn total_at_end(&self) -> u64 {
        if self.nothing {
            return 0;
        }
        let passing = self.from.max(self.to).max(1);
        self.strings_before(self.to) + (passing < self.strings.len()) as u64
    }
}

// ---- one range

pub struct Asked<'q> {
    pub lower: &'q Bound,
    pub upper: &'q Bound,
    // the table as filled for the file
    pub counts: &'q [u64],
    pub calls: usize,
    pub keep: u64,
}

#[derive(Default)]
pub struct Seen {
    refused: Option<u64>,
    keys: usize,
    short_buffers: usize,
    pub ended: bool,
    pub total: u64,
    nothing: bool,
    // how often the number of keys to come was held to the keys that the Rust still hands out
    numbers: usize,
    pub handed: Vec<(Vec<u8>, u64)>,
}

// So many keys of a range are counted by the Rust.
const COUNTED: u64 = 10_000;

// A range with so many calls, or up to the end and one call more, by each.
pub fn ranged(
    ours: Option<&dyn ReadingAnswers>,
    rust: &Opened,
    strings: Option<&[Spelled]>,
    file: &[u8],
    asked: &Asked,
) -> Result<Seen, Difference> {
    let (lower, upper) = (asked.lower, asked.upper);
    let mut prng = Prng::new(asked.keep);
    let mut seen = Seen::default();
    let mut reading = match started(ours, file, lower, upper, asked.counts, prng.next())? {
        Ok(reading) => reading,
        Err(why) => {
            let long = |bound: &Bound| bound.kind != Kind::Unbounded && bound.bytes.len() > MAX_PATH;
            let input = || format!("lower {}, upper {}", describe_bound(lower), describe_bound(upper));
            let want = if long(lower) || long(upper) { BOUND } else { 0 };
            same("a refused start on an admitted file", input, ("document 01", want), ("model", why))?;
            seen.refused = Some(why);
            return Ok(seen);
        }
    };
    let at = |call: usize| {
        format!(
            "call {}, lower {}, upper {}, {}",
            call,
            describe_bound(lower),
            describe_bound(upper),
            describe_file(file)
        )
    };
    let mut range = match rust.range(lower, upper) {
        Some(range) => range,
        None => {
            let what = "the Rust panics on an admitted file".to_string();
            return Err(Difference { what, input: at(0), answers: Vec::new() });
        }
    };
    same("the levels of a start", || at(0), ("the Rust", range.levels()), ("model", reading.levels.clone()))?;
    same("a start's pending key", || at(0), ("the Rust", range.pending()), ("model", reading.pending))?;
    // the number is held to the Rust where it hands out fewer keys than are counted, and is at least so many elsewhere
    let to_come = rust.keys_in(lower, upper, COUNTED).unwrap_or(0);
    let number = |keys: u64| if to_come < COUNTED { keys } else { keys.min(COUNTED) };
    same("the number of a start", || at(0), ("the Rust", to_come), ("model", number(reading.keys)))?;
    seen.numbers += 1;
    let demanded = strings.map(|strings| Demanded::new(strings, lower, upper));
    let mut place = 0;

    for call in 1..=asked.calls {
        if prng.one_in(12) {
            let short = prng.pick(&[0, 1, 254]);
            let (told, after) = stepped(ours, file, &reading, short, prng.next())?;
            same(
                "a short buffer",
                || at(call),
                ("wanted", (Told::Refused(SPACE), reading)),
                ("model", (told, after.clone())),
            )?;
            reading = after;
            seen.short_buffers += 1;
        }
        let before = reading.total;
        let space = MAX_PATH + prng.pick(&[0, 0, 1, 45]);
        let (told, after) = stepped(ours, file, &reading, space, prng.next())?;
        reading = after;
        let said = range.next().map(|key| key.map_or(Told::End, |(bytes, value)| Told::Key(bytes, value)));
        same("the next key", || at(call), ("the Rust", said.as_ref()), ("model", Some(&told)))?;
        same("the total", || at(call), ("the Rust", range.followed()), ("model", reading.total))?;
        same("the levels", || at(call), ("the Rust", range.levels()), ("model", reading.levels.clone()))?;
        same("the pending key", || at(call), ("the Rust", range.pending()), ("model", reading.pending))?;
        if let Some(demanded) = &demanded {
            let (there, want, total) =
                demanded.key_from(place).unwrap_or((usize::max_value() - 1, Told::End, demanded.total_at_end()));
            place = there + 1;
            same("the next key", || at(call), ("demand 3", &want), ("model", &told))?;
            same("the total", || at(call), ("demand 3", total), ("model", reading.total))?;
            let at_most = reading.total - before <= demanded.longest;
            same("no more is followed than the longest key has", || at(call), ("demand 3", true), ("model", at_most))?;
            seen.nothing = demanded.nothing;
        }
        let handed_out = seen.keys as u64 + matches!(told, Told::Key(..)) as u64;
        if to_come < COUNTED {
            same("the number", || at(call), ("the Rust", to_come - handed_out), ("model", reading.keys))?;
            seen.numbers += 1;
        }
        match told {
            Told::Key(bytes, value) => {
                seen.keys += 1;
                seen.handed.push((bytes, value));
            }
            // one call more, which is to say "end" again and leave all as it is
            _ if seen.ended => break,
            _ => seen.ended = true,
        }
    }
    seen.total = reading.total;
    Ok(seen)
}

// ---- rows by hand

pub enum Row {
    // a call with a key, its value and the total after it; "end" with the total; or a refusal
    Key(&'static [u8], u64, u64),
    End(u64),
    Refused(u64),
    // the Rust alone: in a call, or before the first one in the start
    Panics,
}

impl Row {
    // What a next tells, and the total after it.
    pub fn told(&self, before: u64) -> (Told, u64) {
        match self {
            Row::Key(bytes, value, total) => (Told::Key(bytes.to_vec(), *value), *total),
            Row::End(total) => (Told::End, *total),
            Row::Refused(why) => (Told::Refused(*why), before),
            Row::Panics => unreachable!("only the Rust panics"),
        }
    }
}

struct RangeRow {
    name: &'static str,
    file: fn() -> Vec<u8>,
    lower: (Kind, &'static [u8]),
    upper: (Kind, &'static [u8]),
    // what the calls answer; or what the start refuses
    want: Result<&'static [Row], u64>,
    // what the Rust's calls answer, where that is something else; none where it panics in the start or does not open the file
    rust: Option<&'static [Row]>,
}

const ALL: (Kind, &[u8]) = (Kind::Unbounded, b"");
const TOP: u64 = u64::max_value();
const LONG: &[u8] = &[b'a'; 256];

const ROWS: &[RangeRow] = &[
    RangeRow {
        name: "D",
        file: d,
        lower: ALL,
        upper: ALL,
        want: Ok(&[Row::Key(b"a", 1, 1), Row::Key(b"at", 3, 2), Row::Key(b"e", 4, 3), Row::End(3), Row::End(3)]),
        rust: None,
    },
    RangeRow {
        name: "D-at-to-e",
        file: d,
        lower: (Kind::Included, b"at"),
        upper: (Kind::Excluded, b"e"),
        want: Ok(&[Row::Key(b"at", 3, 1), Row::End(2), Row::End(2)]),
        rust: None,
    },
    RangeRow {
        name: "D-after-a-up-to-e",
        file: d,
        lower: (Kind::Excluded, b"a"),
        upper: (Kind::Included, b"e"),
        want: Ok(&[Row::Key(b"at", 3, 1), Row::Key(b"e", 4, 2), Row::End(2)]),
        rust: None,
    },
    RangeRow {
        name: "D-crossing",
        file: d,
        lower: (Kind::Included, b"e"),
        upper: (Kind::Excluded, b"at"),
        want: Ok(&[Row::End(1), Row::End(1)]),
        rust: None,
    },
    RangeRow {
        name: "D-beyond",
        file: d,
        lower: (Kind::Excluded, b"e"),
        upper: ALL,
        want: Ok(&[Row::End(0), Row::End(0)]),
        rust: None,
    },
    RangeRow {
        name: "root-0",
        file: root_0,
        lower: ALL,
        upper: ALL,
        want: Ok(&[Row::Key(b"", 0, 0), Row::End(0)]),
        rust: None,
    },
    RangeRow {
        name: "root-0-after-empty",
        file: root_0,
        lower: (Kind::Excluded, b""),
        upper: ALL,
        want: Ok(&[Row::End(0)]),
        rust: None,
    },
    RangeRow {
        name: "root-of-nothing",
        file: || file_of(3, &[0, 0, 0]),
        lower: ALL,
        upper: ALL,
        want: Ok(&[Row::End(0), Row::End(0)]),
        rust: None,
    },
    // final with output 7, and a/0 to 0: the empty key is held, and the upper bound excludes it
    RangeRow {
        name: "empty-key-excluded",
        file: || file_of(1, &[7, 0, 0, b'a', 0x11, 0x41]),
        lower: ALL,
        upper: (Kind::Excluded, b""),
        want: Ok(&[Row::End(0), Row::End(0)]),
        rust: None,
    },
    RangeRow {
        name: "empty-key-included",
        file: || file_of(1, &[7, 0, 0, b'a', 0x11, 0x41]),
        lower: (Kind::Included, b""),
        upper: (Kind::Included, b""),
        want: Ok(&[Row::Key(b"", 7, 0), Row::End(1), Row::End(1)]),
        rust: None,
    },
    // D has no empty key, so the same bound is passed by "a"
    RangeRow {
        name: "D-empty-excluded",
        file: d,
        lower: ALL,
        upper: (Kind::Excluded, b""),
        want: Ok(&[Row::End(1)]),
        rust: None,
    },
    // an unbounded bound's bytes are ignored, and their number
    RangeRow {
        name: "D-unbounded-256",
        file: d,
        lower: (Kind::Unbounded, LONG),
        upper: (Kind::Unbounded, LONG),
        want: Ok(&[Row::Key(b"a", 1, 1)]),
        rust: None,
    },
    RangeRow {
        name: "lower-of-256",
        file: d,
        lower: (Kind::Included, LONG),
        upper: ALL,
        want: Err(BOUND),
        rust: Some(&[Row::Key(b"at", 3, 1), Row::Key(b"e", 4, 2), Row::End(2)]),
    },
    RangeRow {
        name: "upper-of-256",
        file: d,
        lower: ALL,
        upper: (Kind::Excluded, LONG),
        want: Err(BOUND),
        rust: Some(&[Row::Key(b"a", 1, 1), Row::End(2)]),
    },
    RangeRow {
        name: "bound-after-opening",
        file: || vec![0; 31],
        lower: (Kind::Included, LONG),
        upper: ALL,
        want: Err(SHORT),
        rust: None,
    },
    RangeRow {
        name: "bound-before-the-walk",
        file: || file_of(3, &[0xc1]),
        lower: ALL,
        upper: (Kind::Included, LONG),
        want: Err(BOUND),
        rust: Some(&[Row::End(1)]),
    },
    RangeRow {
        name: "unsound-root",
        file: || file_of(3, &[0xc1]),
        lower: ALL,
        upper: ALL,
        want: Err(NODE),
        rust: Some(&[Row::End(1)]),
    },
    // 5 comes before 7 in a start, and after it in a step
    RangeRow {
        name: "unsound-after-sum",
        file: unsound_after_sum,
        lower: (Kind::Included, b"aa"),
        upper: ALL,
        want: Err(NODE),
        rust: None,
    },
    RangeRow {
        name: "sum-before-unsound",
        file: unsound_after_sum,
        lower: ALL,
        upper: ALL,
        want: Ok(&[Row::Refused(SUM), Row::Refused(SUM)]),
        rust: Some(&[Row::Panics]),
    },
    RangeRow {
        name: "sum-of-the-bound",
        file: || sums(1, TOP),
        lower: (Kind::Excluded, b"aa"),
        upper: ALL,
        want: Err(SUM),
        rust: None,
    },
    RangeRow {
        name: "sum-before-the-upper-bound",
        file: || sums(1, TOP),
        lower: ALL,
        upper: (Kind::Included, b"a"),
        want: Ok(&[Row::Refused(SUM)]),
        rust: Some(&[Row::Panics]),
    },
    // a start leaves the final output out
    RangeRow {
        name: "final-sum",
        file: || final_sums(1, TOP),
        lower: (Kind::Included, b"a"),
        upper: ALL,
        want: Ok(&[Row::Refused(SUM)]),
        rust: Some(&[Row::Panics]),
    },
    RangeRow {
        name: "final-sum-passed",
        file: || final_sums(1, TOP),
        lower: ALL,
        upper: (Kind::Excluded, b"a"),
        want: Ok(&[Row::End(1)]),
        rust: None,
    },
    RangeRow {
        name: "final-sum-exact",
        file: || final_sums(1, TOP - 1),
        lower: ALL,
        upper: ALL,
        want: Ok(&[Row::Key(b"a", TOP, 1), Row::End(1)]),
        rust: None,
    },
    RangeRow {
        name: "key-of-255",
        file: || path_to(&[0, 0, 0x40], 255),
        lower: ALL,
        upper: ALL,
        want: Ok(&[Row::Key(&[b'a'; 255], 0, 255), Row::End(255)]),
        rust: None,
    },
    RangeRow {
        name: "key-of-256",
        file: || path_to(&[0, 0, 0x40], 256),
        lower: ALL,
        upper: ALL,
        want: Ok(&[Row::Refused(DEEP)]),
        rust: Some(&[Row::Key(LONG, 0, 256), Row::End(256)]),
    },
    RangeRow {
        name: "upper-before-256",
        file: || path_to(&[0, 0, 0x40], 256),
        lower: ALL,
        upper: (Kind::Excluded, b"aaaaaaaaaa"),
        want: Ok(&[Row::End(10)]),
        rust: None,
    },
    RangeRow {
        name: "unsound-at-255",
        file: || path_to(&[0xc1], 255),
        lower: ALL,
        upper: ALL,
        want: Ok(&[Row::Refused(NODE)]),
        rust: Some(&[Row::End(256)]),
    },
    RangeRow {
        name: "deep-before-unsound",
        file: || path_to(&[0xc1], 256),
        lower: ALL,
        upper: ALL,
        want: Ok(&[Row::Refused(DEEP)]),
        rust: Some(&[Row::End(257)]),
    },
];

impl<'a> Run<'a> {
    fn range_rows(&mut self) -> Checked {
        for row in ROWS {
            let file = (row.file)();
            let bound = |(kind, bytes): (Kind, &[u8])| Bound { kind, bytes: bytes.to_vec() };
            let (lower, upper) = (bound(row.lower), bound(row.upper));
            let input = || {
                let (lower, upper) = (describe_bound(&lower), describe_bound(&upper));
                format!("row \"{}\", lower {}, upper {}, {}", row.name, lower, upper, describe_file(&file))
            };
            let started = started(self.ours_reading, &file, &lower, &upper, &filled(&file), 1)?;
            same("a row's start", input, ("row", row.want.as_ref().err()), ("model", started.as_ref().err()))?;
            if let (Ok(calls), Ok(reading)) = (&row.want, started) {
                let mut reading = reading;
                for call in calls.iter() {
                    let (told, after) = stepped(self.ours_reading, &file, &reading, MAX_PATH, 1)?;
                    let want = call.told(reading.total);
                    same("a row", input, ("row", want), ("model", (told, after.total)))?;
                    reading = after;
                }
            }
            self.count("rows by hand");
            self.range_row_by_the_rust(row, &file, &lower, &upper)?;
        }
        Ok(())
    }

    fn range_row_by_the_rust(&mut self, row: &RangeRow, file: &[u8], lower: &Bound, upper: &Bound) -> Checked {
        let wanted = match (row.rust, &row.want) {
            (Some(rows), _) => {
                self.count("rows on which the Rust says something else");
                rows
            }
            (None, Ok(rows)) => rows,
            (None, Err(_)) => &[],
        };
        let opened = given_file::open(file);
        let mut range = opened.as_ref().and_then(|rust| rust.range(lower, upper));
        let mut calls = 0;
        for want in wanted {
            calls += 1;
            let input = || format!("row \"{}\", call {}, {}", row.name, calls, describe_file(file));
            let said = range.as_mut().and_then(|range| {
                let key = range.next()?;
                Some((key.map_or(Told::End, |(bytes, value)| Told::Key(bytes, value)), range.followed()))
            });
            let want = match want {
                Row::Panics => None,
                other => Some(other.told(0)),
            };
            same("a row, by the Rust", input, ("row", want), ("the Rust", said))?;
        }
        let there = || format!("row \"{}\", the start, {}", row.name, describe_file(file));
        same("a row's start, by the Rust", there, ("row", !wanted.is_empty()), ("the Rust", range.is_some()))
    }

    pub fn ranges(&mut self) -> Checked {
        self.prng = Prng::new(12);
        self.range_rows()?;
        let mut done = 0;
        let mut i = 0;
        while done < RANGES / self.one_in {
            i += 1;
            let prng = &mut self.prng;
            let file = match i % 40 {
                0 => {
                    let keys = generate_file::keys(prng, Keys::Wide, 0);
                    let values = generate_file::values(prng, Values::Any, keys.len());
                    let version = prng.pick(&[1, 2, 3]);
                    generate_file::built_from(prng, version, keys, &values).file
                }
                1 => medium(prng).file,
                2 => {
                    // paths of 255 bytes
                    let (version, size) = (prng.pick(&[1, 2, 3]), prng.between(0, 7));
                    let finals = prng.one_in(2);
                    generate_file::path_over(prng, version, &[0, 0, 0x40], 255, size, finals)
                }
                3 if i % 80 == 3 => one_key(255),
                3 => {
                    let keys = generate_file::keys(prng, Keys::Long, 3);
                    let values = generate_file::values(prng, Values::Ascending, keys.len());
                    let version = prng.pick(&[1, 2, 3]);
                    generate_file::built_from(prng, version, keys, &values).file
                }
                4 => generate_file::unused(prng),
                _ => small(prng).file,
            };
            let found = match model_file::admitted(&file) {
                // the Rust opens none under 36 bytes
                Ok(found) if file.len() >= given_file::LEAST => found,
                _ => continue,
            };
            let asked = if file.len() > 1_000 { 300 } else { 60 };
            self.ranges_in(&file, &found, asked)?;
            done += asked;
        }
        self.require(&["ranges"], 100_000)?;
        self.require(&["ranges: whole", "ranges: no key", "ranges: more than one key"], 10_000)?;
        self.require(&["ranges: the empty key held, and the upper bound excludes it"], 100)?;
        self.require(&["ranges: refused, 9 BOUND"], 1_000)?;
        self.require(&["ranges: held to demand 3"], 80_000)?;
        self.require(&["numbers held to the keys that the Rust still hands out"], 500_000)?;
        self.require(&["calls with a short buffer"], 10_000)?;
        self.require(&["ranges: lower and upper with the same bytes"], 1_000)?;
        self.require(&BOUNDS, 1_000)?;
        self.require_cuts()?;
        self.require(
            &[
                "files: version 1",
                "files: version 2",
                "files: version 3",
                "files: a node shared",
                "files: a node with an index",
                "files: 256 transitions",
                "files: with a final output",
                "files: a path of 255 bytes",
                "files: unused nodes",
            ],
            20,
        )
    }

    fn ranges_in(&mut self, file: &[u8], found: &Admitted, asked: usize) -> Checked {
        let rust = given_file::open(file).expect("the Rust opens an admitted file");
        let all = strings(found, 3_000);
        let all = all.as_ref().map(|all| &all[..]);
        let some = some_strings(&mut self.prng, found, all);
        self.count_file(found, model_file::numbered(found));
        if found.chain.first().map_or(false, |(_, _, reach)| reach.longest == MAX_PATH) {
            self.count("files: a path of 255 bytes");
        }
        let counts = match found.counts(file.len()) {
            Ok(counts) => counts,
            // no table is filled
            Err(_) => return Ok(self.count("files: over 2^64 - 1 keys")),
        };
        let ours = self.ours_reading;
        for i in 0..asked {
            let prng = &mut self.prng;
            let ((lower, lower_name), (upper, upper_name)) = bounds(prng, &some);
            let whole = i % 10 == 0;
            let calls = if whole { 4_000 } else { prng.between(1, 8) };
            let asked = Asked { lower: &lower, upper: &upper, counts: &counts, calls, keep: prng.next() };
            let seen = match ranged(ours, &rust, all, file, &asked) {
                Ok(seen) => seen,
                // the same on a file with as many zeros as leave it admitted and the difference there
                Err(_) => smallest(file, |file| match model_file::admitted(file) {
                    Ok(found) if found.counts(file.len()).is_ok() => {
                        let rust = given_file::open(file).expect("the Rust opens an admitted file");
                        let asked = Asked { counts: &filled(file), ..asked };
                        ranged(ours, &rust, strings(&found, 3_000).as_ref().map(|all| &all[..]), file, &asked)
                    }
                    _ => Ok(Seen::default()),
                })?,
            };
            self.count(BOUNDS[lower_name]);
            self.count(BOUNDS[upper_name]);
            self.count_range(&seen, &lower, &upper, all.is_some());
            if seen.ended {
                self.in_two_sittings((&rust, file), all, &some, &asked, &seen)?;
            }
        }
        Ok(())
    }

    pub fn count_range(&mut self, seen: &Seen, lower: &Bound, upper: &Bound, by_strings: bool) {
        self.count("ranges");
        if seen.refused.is_some() {
            return self.count("ranges: refused, 9 BOUND");
        }
        for &(there, what) in &[
            (seen.ended, "ranges: whole"),
            (seen.keys == 0, "ranges: no key"),
            (seen.keys == 1, "ranges: one key"),
            (seen.keys > 1, "ranges: more than one key"),
            (seen.nothing, "ranges: the empty key held, and the upper bound excludes it"),
            (by_strings, "ranges: held to demand 3"),
            (
                lower.kind != Kind::Unbounded && upper.kind != Kind::Unbounded && lower.bytes == upper.bytes,
                "ranges: lower and upper with the same bytes",
            ),
        ] {
            if there {
                self.count(what);
            }
        }
        self.count_more("numbers held to the keys that the Rust still hands out", seen.numbers);
        self.count_more("calls with a short buffer", seen.short_buffers);
        self.count_more("calls that gave a key", seen.keys);
        self.count_more("transitions followed", seen.total as usize);
    }
}
