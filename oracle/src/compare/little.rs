// Files of no bytes, and of versions 1 and 2 from 32 bytes on (document 02, N3). The Rust opens none under 36 bytes, so ours is held to
// the model, and the model to rows by hand.

use super::admission::{admitted, Lent};
use super::counting::{any_table, filled};
use super::lookup::{got, got_key};
use super::opening::put_ends;
use super::ranges::{started, stepped};
use super::{describe_file, same, smallest, Checked, Run};
use crate::answers::{Bound, Kind, Level, Reading, BOUND, NODE, ROOT, SHORT, SPACE, STATE, VERSION};
use crate::generate_file::file_of;
use crate::generate_reading::blank;
use crate::hand_made::ends;
use crate::model_file::{Answer, MAX_PATH};
use crate::model_reading::Told;
use crate::prng::Prng;

// How many files of 35 bytes with nodes at random.
const LITTLE: usize = 100_000;

// A file by hand: what opening answers, the value of the empty key, and its lines with the total, or the refusal of admission.
struct Row {
    name: &'static str,
    file: fn() -> Vec<u8>,
    open: u64,
    empty: Answer<u64>,
    listed: Result<(&'static [(&'static [u8], u64)], u64), u64>,
}

const fn refused(name: &'static str, file: fn() -> Vec<u8>, why: u64) -> Row {
    Row { name, file, open: why, empty: Answer::Refused(why), listed: Err(why) }
}

const ROWS: &[Row] = &[
    Row { name: "no-bytes", file: Vec::new, open: 0, empty: Answer::None, listed: Ok((&[], 0)) },
    refused("1-byte", || vec![0; 1], SHORT),
    refused("31-bytes", || vec![1; 31], SHORT),
    refused("zeros-32", || vec![0; 32], VERSION),
    refused("zeros-33", || vec![0; 33], VERSION),
    refused("zeros-35", || vec![0; 35], VERSION),
    refused("version-3-of-32", || ends(32, 3, 0), SHORT),
    refused("version-3-of-35", || ends(35, 3, 14), SHORT),
    Row { name: "version-1-of-32", file: || ends(32, 1, 0), open: 0, empty: Answer::Found(0), listed: Ok((&[(b"", 0)], 0)) },
    Row { name: "version-2-of-32", file: || ends(32, 2, 0), open: 0, empty: Answer::Found(0), listed: Ok((&[(b"", 0)], 0)) },
    refused("root-15-of-32", || ends(32, 1, 15), ROOT),
    refused("root-16-of-32", || ends(32, 2, 16), ROOT),
    refused("root-17-of-32", || ends(32, 1, 17), ROOT),
    refused("root-0-of-33", || ends(33, 2, 0), ROOT),
    refused("root-0-of-35", || ends(35, 2, 0), ROOT),
    refused("root-0-of-36", || ends(36, 2, 0), ROOT),
    Row { name: "node-of-1", file: || file_of(2, &[0xc5]), open: 0, empty: Answer::Refused(NODE), listed: Err(NODE) },
    Row { name: "node-of-2", file: || file_of(2, &[0, 0x40]), open: 0, empty: Answer::Refused(NODE), listed: Err(NODE) },
    Row { name: "no-key", file: || file_of(2, &[0, 0, 0]), open: 0, empty: Answer::None, listed: Ok((&[], 0)) },
    Row { name: "empty-key", file: || file_of(2, &[0, 0, 0x40]), open: 0, empty: Answer::Found(0), listed: Ok((&[(b"", 0)], 0)) },
    Row { name: "a", file: || file_of(1, &[0, 0x10, 0x85]), open: 0, empty: Answer::None, listed: Ok((&[(b"a", 0)], 1)) },
];

fn unbounded() -> Bound {
    Bound { kind: Kind::Unbounded, bytes: Vec::new() }
}

impl<'a> Run<'a> {
    pub fn little(&mut self) -> Checked {
        // the cases that come after stay what they are
        let before = std::mem::replace(&mut self.prng, Prng::new(21));
        let checked = self.little_files();
        self.prng = before;
        checked
    }

    fn little_files(&mut self) -> Checked {
        self.little_rows()?;
        self.no_bytes()?;
        self.little_openings()?;
        // every file of 33 and of 34 bytes that opens: none is admitted
        for version in 1..=2 {
            for node in 0..(65_536 + 256) / self.one_in {
                let nodes: Vec<u8> =
                    if node < 256 { vec![node as u8] } else { vec![(node - 256 >> 8) as u8, (node - 256) as u8] };
                let admitted = self.little_file(&file_of(version, &nodes))?;
                same("files of 33 and 34 bytes", || format!("{:02x?}", nodes), ("admitted", admitted), ("wanted", false))?;
            }
        }
        for _ in 0..LITTLE / self.one_in {
            let prng = &mut self.prng;
            let mut nodes = [0; 3];
            prng.fill(&mut nodes);
            if !prng.one_in(4) {
                nodes[0] = prng.pick(&[0, 0, 0x10, 0x88, 1]);
                nodes[1] = prng.pick(&[0, 0x10, 0x10, 0x80, 0x11, 1]);
            }
            if prng.one_in(2) {
                nodes[2] = prng.pick(&[0, 0x40, 0x85, 0xbf, 0xc5]);
            }
            let version = prng.between(1, 2) as u64;
            if self.little_file(&file_of(version, &nodes))? {
                self.count("files of 35 bytes that are admitted");
            }
        }
        self.require(&["files of 35 bytes that are admitted"], 1_000)?;
        self.require(&["files of 33 bytes"], 512)?;
        self.require(&["files of 34 bytes"], 131_072)
    }

    // A file by admission, both lookups and a reading; whether it is admitted.
    fn little_file(&mut self, file: &[u8]) -> Result<bool, super::Difference> {
        let keep = self.prng.next() | 1;
        let (ours, readings) = (self.ours_file, self.ours_reading);
        self.count(match file.len() {
            33 => "files of 33 bytes",
            34 => "files of 34 bytes",
            _ => "files of 35 bytes",
        });
        self.count_opening(file)?;
        let n = file.len();
        let (depths, sums) = (n + self.prng.below(2), n + self.prng.below(2));
        let counts = depths.max(sums);
        let judged = smallest(file, |file| admitted(ours, file, Lent { depths, sums, counts, keep }))?;
        let common = self.prng.pick(&[b'a', b't', 0, b'~']);
        for key in &[&b""[..], &[common], &[common, common]] {
            smallest(file, |file| got(ours, None, file, key, keep))?;
        }
        for &value in &[0, keep] {
            smallest(file, |file| got_key(ours, None, file, value, MAX_PATH, keep))?;
        }
        let lower = match self.prng.below(3) {
            0 => unbounded(),
            1 => Bound { kind: Kind::Included, bytes: vec![common] },
            _ => Bound { kind: Kind::Excluded, bytes: Vec::new() },
        };
        let begun = smallest(file, |file| {
            started(readings, file, &lower, &unbounded(), &any_table(&mut Prng::new(keep), file), keep)
        })?;
        if let Ok(mut reading) = begun {
            for _ in 0..3 {
                reading = stepped(readings, file, &reading, MAX_PATH, keep)?.1;
            }
        }
        Ok(judged.is_ok())
    }

    fn little_rows(&mut self) -> Checked {
        for row in ROWS {
            let file = (row.file)();
            let input = || format!("row \"{}\", {}", row.name, describe_file(&file));
            self.count_opening(&file)?;
            same("a row", input, ("row", row.open), ("model", crate::model_file::open(&file).err().unwrap_or(0)))?;
            same("a row's empty key", input, ("row", &row.empty), ("model", &got(self.ours_file, None, &file, b"", 4)?))?;
            let lent = Lent { depths: file.len(), sums: file.len() + 1, counts: file.len(), keep: 5 };
            let judged = admitted(self.ours_file, &file, lent)?.err().unwrap_or(0);
            same("a row's admission", input, ("row", row.listed.err().unwrap_or(0)), ("model", judged))?;
            if let Ok((keys, total)) = row.listed {
                let begun = started(self.ours_reading, &file, &unbounded(), &unbounded(), &filled(&file), 6)?;
                let mut reading = match begun {
                    Ok(reading) => reading,
                    Err(why) => return same("a row's start", input, ("row", 0), ("model", why)),
                };
                same("a row's number", input, ("row", keys.len() as u64), ("model", reading.keys))?;
                for want in keys.iter().map(|(k, v)| Told::Key(k.to_vec(), *v)).chain(vec![Told::End, Told::End]) {
                    let (told, after) = stepped(self.ours_reading, &file, &reading, MAX_PATH, 7)?;
                    same("a row's line", input, ("row", want), ("model", told))?;
                    reading = after;
                }
                same("a row's total", input, ("row", total), ("model", reading.total))?;
            }
            self.count("rows by hand");
        }
        Ok(())
    }

    // All that can be asked of a file without bytes.
    fn no_bytes(&mut self) -> Checked {
        let input = || "no bytes".to_string();
        let (ours, readings) = (self.ours_file, self.ours_reading);
        for &(depths, sums, counts) in &[(0, 0, 0), (1, 0, 0), (0, 1, 1), (300, 7, 5)] {
            let judged = admitted(ours, &[], Lent { depths, sums, counts, keep: 9 })?;
            same("tables", input, ("wanted", true), ("model", judged.is_ok()))?;
        }
        let spaces = [(0, Answer::Refused(SPACE)), (254, Answer::Refused(SPACE)), (255, Answer::None), (300, Answer::None)];
        for &(space, ref want) in &spaces {
            for &value in &[0, 1, u64::max_value()] {
                let found = got_key(ours, None, &[], value, space, 3)?;
                same("by value", input, ("wanted", want), ("model", &found))?;
            }
        }
        for key in &[&b""[..], b"a", &[0; 256]] {
            same("by key", input, ("wanted", Answer::None), ("model", got(ours, None, &[], key, 3)?))?;
        }
        let bound = |kind, n| Bound { kind, bytes: vec![b'a'; n] };
        let bounds = || {
            let kinds = [Kind::Unbounded, Kind::Included, Kind::Excluded];
            kinds.iter().flat_map(|&kind| [0, 1, 255, 256].iter().map(move |&n| (kind, n))).collect::<Vec<_>>()
        };
        for (lower_kind, lower) in bounds() {
            for (upper_kind, upper) in bounds() {
                let long = |kind, n| kind != Kind::Unbounded && n > 255;
                // any table will do
                let counts = vec![7; (lower + upper) % 3];
                let begun = started(readings, &[], &bound(lower_kind, lower), &bound(upper_kind, upper), &counts, 11)?;
                let want = if long(lower_kind, lower) || long(upper_kind, upper) { BOUND } else { 0 };
                same("a start", input, ("wanted", want), ("model", *begun.as_ref().err().unwrap_or(&0)))?;
                if let Ok(reading) = begun {
                    let of = (reading.file_len, reading.pending, reading.total, reading.keys, reading.level_count);
                    same("a start's reading", input, ("wanted", (0, None, 0, 0, 0)), ("model", of))?;
                    for &(space, ref want) in &[(255, Told::End), (254, Told::Refused(SPACE)), (300, Told::End)] {
                        let (told, after) = stepped(readings, &[], &reading, space, 12)?;
                        same("a next", input, ("wanted", want), ("model", &told))?;
                        same("a next's reading", input, ("as given", &reading), ("model", &after))?;
                    }
                    let (told, _) = stepped(readings, &file_of(3, &[0, 0, 0x40]), &reading, 255, 13)?;
                    same("a next on another file", input, ("wanted", Told::Refused(STATE)), ("model", told))?;
                }
                self.count("readings of no bytes");
            }
        }
        // readings that no start gave
        let mut level = blank(&[]);
        level.set_levels(vec![Level { addr: 0, inp: 0, place: 0, sum: 0 }]);
        let pending = Reading { pending: Some(7), ..blank(&[]) };
        let both = Reading { pending: Some(7), ..level.clone() };
        let rows = [(level, Told::Refused(NODE)), (pending, Told::Key(Vec::new(), 7)), (both, Told::Key(Vec::new(), 7))];
        for (reading, want) in &rows {
            let (told, _) = stepped(readings, &[], reading, 255, 14)?;
            same("a next on a made reading", input, ("wanted", want), ("model", &told))?;
            self.count("readings of no bytes that no start gave");
        }
        Ok(())
    }

    // Every length from 0 to 64 with every version from 0 to 4 and the roots around the right one.
    fn little_openings(&mut self) -> Checked {
        for len in 0..=64usize {
            for version in 0..=4u64 {
                let right = (len as u64).wrapping_sub(if version == 3 { 21 } else { 17 });
                let mut roots: Vec<u64> = (0..=20).chain(len as u64..len as u64 + 2).collect();
                roots.extend((0..7).map(|i| right.wrapping_add(i).wrapping_sub(3)));
                roots.extend(&[right.wrapping_add(1 << 32), 1 << 63, u64::max_value()]);
                for root in roots {
                    let mut file = vec![0; len];
                    self.prng.fill(&mut file);
                    if len >= 8 {
                        file[..8].copy_from_slice(&version.to_le_bytes());
                    }
                    if len >= 32 {
                        put_ends(&mut file, version, root);
                    }
                    self.count("openings of 0 to 64 bytes");
                    self.count_opening(&file)?;
                }
            }
        }
        Ok(())
    }
}
