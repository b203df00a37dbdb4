// Readings of damaged files, starts with any table, and readings that no start gave: by the model and by ours.

use super::counting::any_table;
use super::ranges::{describe_reading, started, stepped, Row};
use super::{describe_file, same, smallest, Checked, Run, READINGS};
use crate::answers::{
    start_name, Kind, Level, Reading, BOUND, COUNT, DEEP, LARGE, LEVELS, NEXTS, NODE, ROOT, SHORT, SPACE, STATE, SUM,
    VERSION,
};
use crate::generate_file::file_of;
use crate::generate_reading::{addresses, at_limits, blank, bounds, made};
use crate::hand_made::{d, final_sums, path_to, root_0, sums, unsound_after_sum};
use crate::model::MAX_LEN;
use crate::model_file::MAX_PATH;
use crate::model_reading::{self, Told};
use crate::prng::Prng;
use crate::sparse::Zeros;

// ---- rows by hand

const TOP: u64 = u64::max_value();

struct MadeRow {
    name: &'static str,
    file: fn() -> Vec<u8>,
    reading: fn(Reading) -> Reading,
    space: usize,
    want: Row,
    // how many levels there are afterwards
    levels: usize,
}

fn level(addr: u32, inp: u8, place: u16, sum: u64) -> Level {
    Level { addr, inp, place, sum }
}

// The blank reading with these levels.
fn with(mut reading: Reading, levels: &[Level]) -> Reading {
    reading.set_levels(levels.to_vec());
    reading
}

// So many levels in D at "a", the last with this place and the others used up.
fn deep(reading: Reading, n: usize, place: u16) -> Reading {
    let mut levels = vec![level(21, b'a', 1, 0); n];
    levels[n - 1].place = place;
    with(reading, &levels)
}

const MADE_ROWS: &[MadeRow] = &[
    // a pending empty key comes before any node is judged
    MadeRow {
        name: "pending-first",
        file: d,
        reading: |r| with(Reading { pending: Some(9), ..r }, &[level(17, 0, 0, 0)]),
        space: 255,
        want: Row::Key(b"", 9, 0),
        levels: 1,
    },
    MadeRow {
        name: "pending-ends",
        file: d,
        reading: |r| with(Reading { pending: Some(9), kind: Kind::Excluded, ..r }, &[level(17, 0, 0, 0)]),
        space: 255,
        want: Row::End(0),
        levels: 0,
    },
    MadeRow {
        name: "nothing-left",
        file: d,
        reading: |r| Reading { total: 7, ..r },
        space: 255,
        want: Row::End(7),
        levels: 0,
    },
    // also after "end" a short buffer and another length are refused
    MadeRow { name: "end-short-buffer", file: d, reading: |r| r, space: 254, want: Row::Refused(SPACE), levels: 0 },
    MadeRow {
        name: "end-other-length",
        file: d,
        reading: |r| Reading { file_len: 51, ..r },
        space: 255,
        want: Row::Refused(STATE),
        levels: 0,
    },
    MadeRow {
        name: "state-before-space",
        file: d,
        reading: |r| Reading { file_len: 51, ..r },
        space: 0,
        want: Row::Refused(STATE),
        levels: 0,
    },
    MadeRow {
        name: "opening-before-state",
        file: || vec![0; 31],
        reading: |r| Reading { file_len: 51, ..r },
        space: 0,
        want: Row::Refused(SHORT),
        levels: 0,
    },
    MadeRow {
        name: "bound-of-256",
        file: d,
        reading: |r| Reading { bound_len: 256, ..r },
        space: 255,
        want: Row::Refused(STATE),
        levels: 0,
    },
    MadeRow {
        name: "bound-of-255",
        file: d,
        reading: |r| Reading { bound_len: 255, ..r },
        space: 255,
        want: Row::End(0),
        levels: 0,
    },
    MadeRow {
        name: "levels-257",
        file: d,
        reading: |r| Reading { level_count: 257, ..deep(r, LEVELS, 1) },
        space: 255,
        want: Row::Refused(STATE),
        levels: 257,
    },
    MadeRow {
        name: "levels-256-used-up",
        file: d,
        reading: |r| deep(r, 256, 1),
        space: 255,
        want: Row::End(0),
        levels: 0,
    },
    MadeRow {
        name: "levels-256-to-follow",
        file: d,
        reading: |r| deep(r, 256, 0),
        space: 255,
        want: Row::Refused(DEEP),
        levels: 256,
    },
    MadeRow {
        name: "levels-255-to-follow",
        file: d,
        reading: |r| deep(r, 255, 0),
        space: 255,
        want: Row::Key(&LONGEST_OF_D, 2, 1),
        levels: 256,
    },
    MadeRow {
        name: "used-up-unsound",
        file: d,
        reading: |r| with(r, &[level(29, 0, 0, 0), level(17, b'a', 9, 0)]),
        space: 255,
        want: Row::Refused(NODE),
        levels: 2,
    },
    MadeRow {
        name: "used-up",
        file: d,
        reading: |r| with(r, &[level(29, 0, 1, 0), level(21, b'a', u16::max_value(), 0)]),
        space: 255,
        want: Row::Key(b"e", 4, 1),
        levels: 2,
    },
    // the first level's byte has no meaning
    MadeRow {
        name: "first-byte",
        file: d,
        reading: |r| with(r, &[level(29, b'z', 0, 0)]),
        space: 255,
        want: Row::Key(b"a", 1, 1),
        levels: 2,
    },
    MadeRow {
        name: "root-above-the-root",
        file: d,
        reading: |r| with(r, &[level(29, 0, 0, 0), level(29, b'q', 1, 5)]),
        space: 255,
        want: Row::Key(b"qe", 9, 1),
        levels: 3,
    },
    MadeRow {
        name: "sum-exact",
        file: d,
        reading: |r| with(r, &[level(29, 0, 0, TOP - 1)]),
        space: 255,
        want: Row::Key(b"a", TOP, 1),
        levels: 2,
    },
    MadeRow {
        name: "sum-one-more",
        file: d,
        reading: |r| with(r, &[level(29, 0, 0, TOP)]),
        space: 255,
        want: Row::Refused(SUM),
        levels: 1,
    },
    MadeRow {
        name: "deep-before-sum",
        file: d,
        reading: |r| {
            let mut r = deep(r, 256, 0);
            r.levels[255].sum = TOP;
            r
        },
        space: 255,
        want: Row::Refused(DEEP),
        levels: 256,
    },
    MadeRow {
        name: "total-to-the-top",
        file: d,
        reading: |r| with(Reading { total: TOP - 1, ..r }, &[level(29, 0, 0, 0)]),
        space: 255,
        want: Row::Key(b"a", 1, TOP),
        levels: 2,
    },
    MadeRow {
        name: "total-at-the-top",
        file: d,
        reading: |r| with(Reading { total: TOP, ..r }, &[level(29, 0, 0, 0)]),
        space: 300,
        want: Row::Key(b"a", 1, TOP),
        levels: 2,
    },
    // the number of keys to come is judged last, and only where a key comes
    MadeRow {
        name: "late-state",
        file: d,
        reading: |r| with(Reading { keys: 0, ..r }, &[level(29, 0, 0, 0)]),
        space: 255,
        want: Row::Refused(STATE),
        levels: 1,
    },
    MadeRow {
        name: "the-last-key",
        file: d,
        reading: |r| with(Reading { keys: 1, ..r }, &[level(29, 0, 0, 0)]),
        space: 255,
        want: Row::Key(b"a", 1, 1),
        levels: 2,
    },
    MadeRow {
        name: "pending-late-state",
        file: d,
        reading: |r| with(Reading { keys: 0, pending: Some(9), ..r }, &[level(29, 0, 0, 0)]),
        space: 255,
        want: Row::Refused(STATE),
        levels: 1,
    },
    MadeRow {
        name: "pending-ends-with-no-key-to-come",
        file: d,
        reading: |r| with(Reading { keys: 0, pending: Some(9), kind: Kind::Excluded, ..r }, &[level(29, 0, 0, 0)]),
        space: 255,
        want: Row::End(0),
        levels: 0,
    },
    MadeRow {
        name: "end-with-no-key-to-come",
        file: d,
        reading: |r| with(Reading { keys: 0, ..r }, &[level(29, 0, 2, 0)]),
        space: 255,
        want: Row::End(0),
        levels: 0,
    },
    MadeRow {
        name: "space-before-the-late-state",
        file: d,
        reading: |r| with(Reading { keys: 0, ..r }, &[level(29, 0, 0, 0)]),
        space: 254,
        want: Row::Refused(SPACE),
        levels: 1,
    },
    MadeRow {
        name: "final-sum-before-the-late-state",
        file: || final_sums(1, TOP),
        reading: |r| with(Reading { keys: 0, ..r }, &[level(30, 0, 0, 0)]),
        space: 255,
        want: Row::Refused(SUM),
        levels: 1,
    },
    // the key that a made reading stands at is past its upper bound with the first byte that is followed
    MadeRow {
        name: "past-already",
        file: d,
        reading: |r| {
            let bound = Reading { kind: Kind::Included, bound_len: 1, bound: vec![b'b'], ..r };
            with(bound, &[level(29, 0, 0, 0), level(29, b'c', 0, 0)])
        },
        space: 255,
        want: Row::End(1),
        levels: 0,
    },
];

// 254 bytes "a" and then "t".
const LONGEST_OF_D: [u8; 255] = {
    let mut key = [b'a'; 255];
    key[254] = b't';
    key
};

// ---- the comparison

impl<'a> Run<'a> {
    fn made_rows(&mut self) -> Checked {
        for row in MADE_ROWS {
            let file = (row.file)();
            let reading = (row.reading)(blank(&file));
            let input = || format!("row \"{}\", {}, {}", row.name, describe_reading(&reading), describe_file(&file));
            let (told, after) = stepped(self.ours_reading, &file, &reading, row.space, 1)?;
            let (want, total) = row.want.told(reading.total);
            same("a row", input, ("row", (want, total)), ("model", (told.clone(), after.total)))?;
            same("a row's levels", input, ("row", row.levels), ("model", after.level_count))?;
            if let Told::Refused(_) = told {
                same("a row's reading", input, ("as given", &reading), ("model", &after))?;
            }
            self.count("rows by hand");
        }
        Ok(())
    }

    pub fn made_readings(&mut self) -> Checked {
        self.prng = Prng::new(13);
        self.made_rows()?;
        self.number_rows()?;
        self.made_at_limits()?;
        let mut done = 0;
        while done < READINGS / self.one_in {
            let (file, held) = self.to_damage();
            let leading = self.leading(&file, held);
            let addrs = addresses(&file);
            for _ in 0..8 {
                let damaged = self.damaged_file(&file);
                // from a start on the damaged file, and from one on the file before
                let begun = self.made_start(&damaged, &leading)?;
                let on_file = self.made_start(&file, &leading)?;
                if let Some(begun) = begun {
                    self.made_nexts(&damaged, begun, false)?;
                }
                if let Some(on_file) = on_file {
                    let calls = self.prng.below(4);
                    let (mut reading, mut call) = (on_file, 0);
                    while call < calls {
                        reading = model_reading::next(&file, &reading, MAX_PATH).1;
                        call += 1;
                    }
                    self.made_nexts(&damaged, reading.clone(), false)?;
                    let changed = made(&mut self.prng, &damaged, &addrs, Some(&reading));
                    self.made_nexts(&damaged, changed, true)?;
                }
                for _ in 0..2 {
                    let reading = made(&mut self.prng, &damaged, &addrs, None);
                    self.made_nexts(&damaged, reading, true)?;
                }
                done += 6;
            }
        }
        self.made_on_large()?;
        self.require(&["starts"], 40_000)?;
        self.require(&["nexts"], 200_000)?;
        self.require(&["nexts: readings that no start gave"], 100_000)?;
        self.require(&["starts: a reading", "nexts: a key", "nexts: the end"], 10_000)?;
        for &why in &[SHORT, VERSION, ROOT, LARGE, NODE, SUM, SPACE, BOUND, COUNT] {
            self.require(&[start_name(why)], 120)?;
        }
        self.require(&["nexts: 11 STATE for a key where the number says none"], 120)?;
        for &why in &[SHORT, VERSION, ROOT, LARGE, NODE, DEEP, SUM, SPACE, STATE] {
            self.require(&[NEXTS[why as usize]], 100)?;
        }
        self.require(&["nexts: 6 DEEP of a reading that no start gave"], 100)?;
        self.require(&["nexts: the total at 2^64 - 1"], 100)
    }

    fn made_start(&mut self, file: &[u8], leading: &[Vec<u8>]) -> Result<Option<Reading>, super::Difference> {
        let ours = self.ours_reading;
        let ((lower, _), (upper, _)) = bounds(&mut self.prng, leading);
        let keep = self.prng.next();
        let begun =
            smallest(file, |file| started(ours, file, &lower, &upper, &any_table(&mut Prng::new(keep), file), keep))?;
        self.count("starts");
        self.count(start_name(begun.as_ref().err().copied().unwrap_or(0)));
        Ok(begun.ok())
    }

    // Some calls from a reading, each with what the one before left.
    fn made_nexts(&mut self, file: &[u8], reading: Reading, no_start: bool) -> Checked {
        let mut reading = reading;
        for _ in 0..self.prng.between(1, 4) {
            let prng = &mut self.prng;
            let space = match prng.below(16) {
                0 => prng.pick(&[0, 1, 254]),
                1 => prng.below(300),
                _ => prng.pick(&[255, 255, 256, 300]),
            };
            reading = self.made_next(file, &reading, space, no_start)?;
        }
        Ok(())
    }

    fn made_next(
        &mut self,
        file: &[u8],
        reading: &Reading,
        space: usize,
        no_start: bool,
    ) -> Result<Reading, super::Difference> {
        let ours = self.ours_reading;
        let keep = self.prng.next();
        let (told, after) = smallest(file, |file| stepped(ours, file, reading, space, keep))?;
        self.count("nexts");
        if no_start {
            self.count("nexts: readings that no start gave");
        }
        match told {
            Told::Key(..) => self.count("nexts: a key"),
            Told::End => self.count("nexts: the end"),
            Told::Refused(why) => {
                self.count(NEXTS[why as usize]);
                let input = || format!("{}, {}", describe_reading(reading), describe_file(file));
                same("a refused reading", input, ("as given", reading), ("model", &after))?;
                if why == STATE && model_reading::bare_next(file, reading, space).0 != Told::Refused(STATE) {
                    self.count("nexts: 11 STATE for a key where the number says none");
                }
                if no_start && why == DEEP {
                    self.count("nexts: 6 DEEP of a reading that no start gave");
                }
            }
        }
        if after.total == TOP && reading.levels != after.levels {
            self.count("nexts: the total at 2^64 - 1");
        }
        Ok(after)
    }

    // Everything that a reading states at its limits, with each key buffer.
    fn made_at_limits(&mut self) -> Checked {
        let files = [
            (d(), 21),
            (d(), 29),
            (d(), 17),
            (root_0(), 0),
            (file_of(1, &[7, 0, 0, b'a', 0x11, 0x41]), 21),
            (path_to(&[0, 0, 0x40], 255), 273),
            (path_to(&[0xc1], 3), 17),
            (sums(1, TOP), 30),
            (unsound_after_sum(), 34),
            (vec![0; 31], 0),
            (Vec::new(), 0),
        ];
        for (file, addr) in &files {
            for (i, reading) in at_limits(file, *addr).into_iter().enumerate() {
                if i % self.one_in.min(10) != 0 {
                    continue;
                }
                for &space in &[0, 254, 255, 300] {
                    let after = self.made_next(file, &reading, space, true)?;
                    if space >= MAX_PATH && reading.levels.len() < after.levels.len() {
                        self.made_next(file, &after, space, true)?;
                    }
                }
            }
        }
        Ok(())
    }

    fn made_on_large(&mut self) -> Checked {
        let mut large = Zeros::new(MAX_LEN + 1);
        large[0] = 3;
        for i in 0..120 {
            self.made_start(&large, &[vec![b'a'; i]])?;
            let reading = made(&mut self.prng, &large, &[0], None);
            self.made_next(&large, &reading, i * 3, true)?;
        }
        Ok(())
    }
}
