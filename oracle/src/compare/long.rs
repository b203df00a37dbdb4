// Files and records past 16 MiB, up to the limit of 4,294,967,295 bytes. The files are zeros but for header, trailer and a
// few nodes (sparse.rs), so that they cost a few pages. Such a file is not admitted, since zeros are no chain of nodes; what
// is admitted is dense and shorter (admission.rs).

use super::counting::followed;
use super::lookup::{got, got_key};
use super::opening::put_ends;
use super::ranges::{ranged, Asked};
use super::{describe_file, describe_record, same, Checked, Run, DELTA_SIZES};
use crate::answers::{Bound, Kind, Record, LARGE, RECORD, REFUSED, ROOT, SPACE, VERSION};
use crate::builder::trailer_size;
use crate::generate::{self, Targets, COUNTS, FAR};
use crate::generate_reading::Spelled;
use crate::given;
use crate::given_file;
use crate::model::{self, FIRST_NODE, MAX_LEN};
use crate::model_file::{self, MAX_PATH};
use crate::prng::Prng;
use crate::sparse::Zeros;

const GIB_4: usize = 1 << 32;

const LENGTHS: [usize; 9] =
    [16_777_216, 16_777_217, (1 << 31) - 1, 1 << 31, MAX_LEN - 1, MAX_LEN, GIB_4, GIB_4 + 36, 1 << 33];

// ---- the sparse file

// Its keys with their values, and what begins them: all its strings but the empty one.
const KEYS: [(&[u8], u64); 6] = [(b"a", 7), (b"ax", 1), (b"b", 22), (b"bm", 30), (b"bmx", 24), (b"c", 100)];

// A file of the largest length. From 16 up stands a node that is final with 7 and leads on with x/1 to 0; at 2^31 one that is
// final with 2 and leads to the first with m/3; and the root leads to both and to 0, with a/0, b/20 and c/100.
fn sparse(version: u64) -> Zeros<u8> {
    let node = |final_output: Option<u64>, transitions: &[(u8, u64, usize)], first: usize| {
        let record = Record {
            final_flag: final_output.is_some() as u8,
            final_output: final_output.unwrap_or(0),
            inputs: transitions.iter().map(|t| t.0).collect(),
            outputs: transitions.iter().map(|t| t.1).collect(),
            targets: transitions.iter().map(|t| t.2).collect(),
        };
        given::pack(&record, first).expect("the Rust packs a record that breaks no rule")
    };
    let mut file = Zeros::new(MAX_LEN);
    let mut put = |bytes: &[u8], first: usize| {
        file[first..first + bytes.len()].copy_from_slice(bytes);
        first + bytes.len() - 1
    };
    let low = put(&node(Some(7), &[(b'x', 1, 0)], FIRST_NODE), FIRST_NODE);
    let middle = put(&node(Some(2), &[(b'm', 3, low)], 1 << 31), 1 << 31);
    let transitions = [(b'a', 0, low), (b'b', 20, middle), (b'c', 100, 0)];
    let end = MAX_LEN - trailer_size(version);
    // every delta of the root has 4 bytes, wherever near the end it stands
    let first = end - node(None, &transitions, end).len();
    let root = put(&node(None, &transitions, first), first);
    assert_eq!(root + 1, end);
    put_ends(&mut file, version, root as u64);
    file
}

fn strings() -> Vec<Spelled> {
    let empty = Spelled { bytes: Vec::new(), value: None };
    let keys = KEYS.iter().map(|&(key, value)| Spelled { bytes: key.to_vec(), value: Some(value) });
    Some(empty).into_iter().chain(keys).collect()
}

impl<'a> Run<'a> {
    // ---- opening

    pub fn long_opening(&mut self) -> Checked {
        self.prng = Prng::new(14);
        let mut zeros = Zeros::new(LENGTHS[8]);
        for &len in &LENGTHS {
            for version in 0..=4 {
                let file = &mut zeros[..len];
                let right = len as u64 - if version == 3 { 21 } else { 17 };
                let mut roots = vec![right, right + 1, right - 1, right + GIB_4 as u64, 0, 16];
                // what 32 bits would leave of the right one
                roots.extend(right.checked_sub(GIB_4 as u64));
                for &root in &roots {
                    put_ends(file, version, root);
                    let want = match (version, root) {
                        _ if len > 4_294_967_295 => LARGE,
                        (0, _) | (4, _) => VERSION,
                        (_, root) if root != right => ROOT,
                        _ => 0,
                    };
                    let said = model_file::open(file).err().unwrap_or(0);
                    let input = || format!("version {}, root {}, {}", version, root, describe_file(file));
                    same("a row", input, ("row", want), ("model", said))?;
                    self.count_opening(file)?;
                    self.count("lengths past 16 MiB");
                }
                let n = file.len();
                file[n - 20..].iter_mut().for_each(|b| *b = 0);
                file[..8].iter_mut().for_each(|b| *b = 0);
            }
        }
        self.require(&["refused: 4 LARGE"], 90)?;
        self.require(&["opened: version 1", "opened: version 2", "opened: version 3"], 6)
    }

    // ---- packing

    pub fn long_packing(&mut self) -> Checked {
        self.prng = Prng::new(15);
        // the farthest F with the target 16, by hand
        let record = Record { inputs: vec![b'a'], outputs: vec![0], targets: vec![FIRST_NODE], ..Record::default() };
        let bytes = [0xef, 0xff, 0xff, 0xff, 0x40, 0x85];
        let input = || describe_record(&record, MAX_LEN);
        same("a row", input, ("row", &bytes[..]), ("model", &model::pack(&record, MAX_LEN)[..]))?;

        let mut space = Zeros::new(MAX_LEN + 8_192);
        // a delta of 2^24 - 1 and of 2^24, and the largest of all, 2^32 - 17
        for &first in &[FAR, FAR + 1, FIRST_NODE + FAR - 1, FIRST_NODE + FAR, (1 << 31) + 1, MAX_LEN - 1, MAX_LEN] {
            for &target in &[FIRST_NODE, first - 1, 0] {
                for &n in &COUNTS {
                    for &(final_flag, output) in &[(0, 0), (0, 5), (1, 0), (1, u64::max_value())] {
                        let record = Record {
                            final_flag,
                            final_output: if final_flag == 1 { output } else { 0 },
                            inputs: (0..n).map(|i| i as u8).collect(),
                            outputs: vec![output; n],
                            targets: vec![target; n],
                        };
                        self.packed(&record, first, &mut space)?;
                        self.count("F at a boundary past 16 MiB");
                    }
                }
            }
        }
        for i in 0..(600 / self.one_in).max(20) {
            let prng = &mut self.prng;
            let first = match i % 3 {
                0 => MAX_LEN - prng.below(300),
                _ => prng.between(FAR, MAX_LEN),
            };
            let (n, is_final, size) = (prng.between(1, 40), prng.one_in(2), prng.between(0, 8));
            let targets = prng.pick(&[Targets::Size(4), Targets::Size(4), Targets::Size(3), Targets::Any]);
            let record = generate::record(prng, n, is_final, size, targets, first);
            self.packed(&record, first, &mut space)?;
            self.count("F up to 4,294,967,295");
        }
        for &first in &[GIB_4, GIB_4 + 16, 1 << 33, usize::max_value()] {
            for &target in &[FIRST_NODE, first - 1, 0] {
                for &room in &[0, 64] {
                    let record =
                        Record { inputs: vec![b'a'], outputs: vec![0], targets: vec![target], ..Record::default() };
                    let input = || format!("a buffer of {} bytes, {}", room, describe_record(&record, first));
                    same("a row", input, ("row", 1), ("model", model::broken_rules(&record, first).len()))?;
                    if let Some(ours) = self.ours {
                        let mut buffer = vec![0xa5; room];
                        let answer = ours.compile(&record, first, &mut buffer);
                        same("F past the limit", input, ("model", REFUSED + RECORD), ("ours", answer))?;
                        same(
                            "the buffer of a refused record",
                            input,
                            ("as given", &vec![0xa5; room]),
                            ("ours", &buffer),
                        )?;
                    }
                    self.count("F past the limit");
                }
            }
        }
        self.require(&[DELTA_SIZES[3], DELTA_SIZES[4]], 100)
    }

    // ---- lookup, and the tables that admission asks for

    pub fn long_lookup(&mut self) -> Checked {
        self.prng = Prng::new(16);
        for version in 1..=3 {
            let file = sparse(version);
            let (ours, rust) = (self.ours_file, given_file::open(&file));
            let input = || format!("version {}, {}", version, describe_file(&file));
            same("the sparse file opens", input, ("wanted", true), ("the Rust", rust.is_some()))?;
            self.count_opening(&file)?;
            for &(key, value) in &KEYS {
                let keep = self.prng.next() | 1;
                let answer = got(ours, rust.as_ref(), &file, key, keep)?;
                same("a row", input, ("row", model_file::Answer::Found(value)), ("model", answer))?;
                self.count("by key: held");
                for b in 0..=255 {
                    let mut longer = key.to_vec();
                    longer.push(b);
                    got(ours, rust.as_ref(), &file, &longer, keep)?;
                    self.count("by key: one byte more");
                }
            }
            got(ours, rust.as_ref(), &file, b"", 1)?;
            for value in (0..200).chain(Some(u64::max_value())) {
                got_key(ours, rust.as_ref(), &file, value, MAX_PATH, value)?;
                self.count("by value");
            }
            self.long_tables(&file)?;
        }
        Ok(())
    }

    // Tables that are one entry short: 8 and 32 GiB of addresses, of which nothing is written.
    fn long_tables(&mut self, file: &[u8]) -> Checked {
        let ours = match self.ours_file {
            Some(ours) => ours,
            None => return Ok(()),
        };
        let n = file.len();
        let (mut depths, mut sums) = (Zeros::<u16>::new(n), Zeros::<u64>::new(n));
        let marked = [0, 21, 1 << 31, n - 22, n - 2];
        for &i in &marked {
            depths[i] = 0xa5a5;
            sums[i] = 0xa5a5;
        }
        for &(d, s) in &[(n - 1, n), (n, n - 1), (n - 1, n - 1), (0, n), (n, 0)] {
            let input = || format!("tables of {} and {} entries, {}", d, s, describe_file(file));
            let answer = ours.admit(file, &mut depths[..d], &mut sums[..s]);
            same("admission", input, ("document 01", SPACE), ("ours", answer))?;
            for &i in &marked {
                same("a table", input, ("as given", (0xa5a5, 0xa5a5)), ("ours", (depths[i], sums[i])))?;
            }
            self.count("tables one entry short, or without any");
        }
        Ok(())
    }

    // ---- readings

    // Every range between two strings of the sparse file, or near them, with all its calls.
    pub fn long_ranges(&mut self) -> Checked {
        self.prng = Prng::new(17);
        let strings = strings();
        let mut bounds = vec![Bound { kind: Kind::Unbounded, bytes: Vec::new() }];
        for &bytes in &[&b""[..], b"a", b"ax", b"ay", b"b", b"bm", b"bmx", b"bmy", b"c", b"d"] {
            for &kind in &[Kind::Included, Kind::Excluded] {
                bounds.push(Bound { kind, bytes: bytes.to_vec() });
            }
        }
        for version in 1..=3 {
            let file = sparse(version);
            let rust = given_file::open(&file).expect("the Rust opens it");
            // 32 GiB of addresses, of which three entries are written
            let mut counts = Zeros::<u64>::new(file.len());
            for (addr, keys) in followed(&file) {
                counts[addr] = keys;
            }
            for lower in &bounds {
                for upper in &bounds {
                    if self.one_in > 1 && !self.prng.one_in(4) {
                        continue;
                    }
                    let asked = Asked { lower, upper, counts: &counts, calls: 20, keep: self.prng.next() };
                    let seen = ranged(self.ours_reading, &rust, Some(&strings), &file, &asked)?;
                    self.count_range(&seen, lower, upper, true);
                }
            }
        }
        self.require(&["ranges: whole"], 1_000)
    }
}
