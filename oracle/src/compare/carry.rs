// Readings carried to another file (document 02, N8): to the file's conversion, where the reading is the one that the same start and calls leave there
// and the Rust goes on with the same keys; and to any file from any reading, by the model and by ours.

use super::opening::put_ends;
use super::ranges::{describe_bound, describe_reading, junk};
use super::{describe_file, same, Checked, Difference, Run};
use crate::answers::{
    Bound, Held, Kind, ReadingAnswers, END, LARGE, NODE, PATTERN, POSITIONS, ROOT, SHORT, STARTED, STATE, VERSION,
};
use crate::generate_file::{self, damage, header, medium, small};
use crate::generate_reading::{addresses, bounds, made, some_strings, strings};
use crate::given_file;
use crate::model::{self, Model, MAX_LEN};
use crate::model_carry::{self, CarryAnswers, CARRY};
use crate::model_convert;
use crate::model_file::{self, MAX_PATH};
use crate::prng::Prng;
use crate::sparse::Zeros;

// Files, the readings of each, and carries from any reading to any file.
const FILES: usize = 2_200;
const OF_EACH: usize = 10;
const MADE: usize = 60_000;
// carries to foreign files of an equal shape
const EQUAL: usize = 20_000;
// carries of which a file is over 4,294,967,295 bytes
const PAST: usize = 4_000;
// calls after a carry
const CALLS: usize = 9;

// A version 1 file.
fn old_file(prng: &mut Prng) -> Vec<u8> {
    let file = match prng.below(12) {
        0..=5 => small(prng).file,
        6 | 7 => generate_file::unused(prng),
        8 => medium(prng).file,
        _ => {
            let (nodes, size) = (prng.between(1, 9), prng.below(8));
            generate_file::chained(prng, 1, nodes, size, false).file
        }
    };
    if file.len() < 32 || file[0] == 1 {
        return file;
    }
    let cut = crate::builder::trailer_size(u64::from(file[0]));
    let mut old = header(1, 7);
    old.extend(&file[16..file.len() - cut]);
    let root = if old.len() == 16 { 0 } else { old.len() - 1 };
    crate::builder::whole(old, 3, root, 0)
}

// A version 2 file with as many transitions at every node as another one has, and the same bytes: some outputs are others, or some final flags.
fn of_equal_shape(prng: &mut Prng, file: &[u8]) -> Vec<u8> {
    let found = match model_file::admitted(file) {
        Ok(found) => found,
        Err(_) => return file.to_vec(),
    };
    let outputs = prng.one_in(2);
    let mut new = header(2, found.meta.ty);
    let mut moved = std::collections::HashMap::new();
    for (addr, node, _) in found.chain.iter().rev() {
        let mut record = model_convert::record(node, &moved);
        if outputs && prng.one_in(3) {
            record.outputs.iter_mut().for_each(|output| *output = (*output).max(1) - 1);
        }
        if !outputs && prng.one_in(3) && !record.inputs.is_empty() {
            record.final_flag ^= 1;
            record.final_output = 0;
        }
        let bytes = model::pack(&record, new.len());
        new.extend(bytes);
        moved.insert(*addr, new.len() - 1);
    }
    let root = moved.get(&found.meta.root).copied().unwrap_or(0);
    crate::builder::whole(new, found.meta.len, root, 0)
}

// The same arrays, where nothing was carried.
fn kept(held: &Held, before: &Held) -> bool {
    held.all() == before.all()
}

// A carry by the model and by ours; what ours leaves.
fn carried(
    ours: Option<&dyn CarryAnswers>,
    old: &[u8],
    new: &[u8],
    positions: Option<usize>,
    given: &Held,
) -> Result<(u64, Held), Difference> {
    let reading = given.reading();
    let input = || {
        let (from, to) = (describe_file(old), describe_file(new));
        format!("{:?} positions, {}, from {}, to {}", positions, describe_reading(&reading), from, to)
    };
    let wanted = model_carry::carry(old, new, positions, &reading);
    let mut held = given.clone();
    let answer = match ours {
        Some(ours) => ours.carry(old, new, positions, &mut held),
        None => Model.carry(old, new, positions, &mut held),
    };
    match wanted {
        Ok(after) => {
            same("a carry", input, ("model", 0), ("ours", answer))?;
            same("a carried reading", input, ("model", &after), ("ours", &held.reading()))?;
        }
        Err(why) => {
            same("a carry", input, ("model", why), ("ours", answer))?;
            same("the reading is the one given", input, ("wanted", true), ("ours", kept(&held, given)))?;
        }
    }
    Ok((answer, held))
}

impl<'a> Run<'a> {
    // To the conversion: the same start and calls on both files, and then the carry.
    fn to_conversion(&mut self, old: &[u8], new: &[u8]) -> Checked {
        let found = model_file::admitted(old).expect("what is converted is admitted");
        let again = model_file::admitted(new).expect("a converted file is admitted");
        let (counts, new_counts) = match (found.counts(old.len()), again.counts(new.len())) {
            (Ok(counts), Ok(new_counts)) => (counts, new_counts),
            _ => return Ok(()),
        };
        let all = strings(&found, 3_000);
        let some = some_strings(&mut self.prng, &found, all.as_deref());
        let rust = if new.len() < given_file::LEAST { None } else { given_file::open(new) };
        let ours_carry = self.ours_carry;
        let reads: &dyn ReadingAnswers = match self.ours_reading {
            Some(ours) => ours,
            None => &Model,
        };
        self.count("files");
        for _ in 0..OF_EACH {
            let ((lower, _), (mut upper, _)) = bounds(&mut self.prng, &some);
            // half of them with no upper bound, so that fewer are at their end
            if self.prng.one_in(2) {
                upper = Bound { kind: Kind::Unbounded, bytes: Vec::new() };
            }
            let (mut held, mut stays) = (junk(self.prng.next()), junk(self.prng.next()));
            let begun = reads.start(old, &lower, &upper, &counts, &mut held);
            let begun_new = reads.start(new, &lower, &upper, &new_counts, &mut stays);
            let input = || {
                format!("lower {}, upper {}, {}", describe_bound(&lower), describe_bound(&upper), describe_file(old))
            };
            same("starts on both files", input, ("old", begun), ("new", begun_new))?;
            if begun != STARTED {
                continue;
            }
            let (mut key, mut value) = ([0; MAX_PATH], [0]);
            let calls = self.prng.below(5);
            for _ in 0..calls {
                let one = reads.next(old, &mut held, &mut key, &mut value);
                let other = reads.next(new, &mut stays, &mut key, &mut value);
                same("answers on both files", input, ("old", one), ("new", other))?;
            }
            let (answer, mut there) = carried(ours_carry, old, new, None, &held)?;
            same("a carry to the conversion", input, ("wanted", 0), ("found", answer))?;
            same("the same start and calls there", input, ("there", &stays.reading()), ("carried", &there.reading()))?;
            let (answer, by) = carried(ours_carry, old, new, Some(self.prng.below(POSITIONS + 1)), &held)?;
            same("a carry by pattern", input, ("wanted", 0), ("found", answer))?;
            same("the same by pattern", input, ("there", &stays.reading().levels), ("carried", &by.reading().levels))?;
            self.count("carried to the conversion");
            self.count(match held.reading().levels.len() {
                0 => "carried to the conversion, at the end",
                1 => "carried to the conversion, with one level",
                _ => "carried to the conversion, with more levels",
            });
            let (answer, _) = carried(ours_carry, old, old, None, &held)?;
            same("a carry to itself", input, ("wanted", 0), ("found", answer))?;
            // the Rust reads the whole range of the new file; ours goes on behind what was handed out before
            let mut range = match rust.as_ref().and_then(|rust| rust.range(&lower, &upper)) {
                Some(range) => range,
                None => continue,
            };
            let ended = reads.next(old, &mut held.clone(), &mut key, &mut value) == END;
            let mut taken = 0;
            for _ in 0..calls {
                if ended {
                    break;
                }
                range.next();
                taken += 1;
            }
            if ended || taken < calls {
                continue;
            }
            for _ in 0..CALLS {
                let said = reads.next(new, &mut there, &mut key, &mut value);
                let wanted = range.next().expect("the Rust reads an admitted file");
                let found = if said == END { None } else { Some((key[..said as usize].to_vec(), value[0])) };
                same("the keys that follow", input, ("the Rust", &wanted), ("ours", &found))?;
                self.count("calls after a carry, by the Rust");
                if wanted.is_none() {
                    break;
                }
            }
        }
        Ok(())
    }

    // From any reading to any file.
    fn to_any(&mut self, old: &[u8], new: &[u8]) -> Checked {
        let addrs = addresses(old);
        let given = self.some_reading(old);
        let reading = if self.prng.one_in(2) {
            made(&mut self.prng, old, &addrs, given.as_ref())
        } else {
            given.unwrap_or_else(|| made(&mut self.prng, old, &addrs, None))
        };
        let mut held = junk(self.prng.next());
        held.put(&reading);
        let positions = match self.prng.below(4) {
            0 => Some(self.prng.pick(&[0, 3, 255, 256, 65_536])),
            _ => None,
        };
        let (answer, _) = carried(self.ours_carry, old, new, positions, &held)?;
        self.count(match answer {
            0 => "any reading: carried",
            SHORT => "any reading: SHORT",
            VERSION => "any reading: VERSION",
            ROOT => "any reading: ROOT",
            NODE => "any reading: NODE",
            STATE => "any reading: STATE",
            PATTERN => "any reading: PATTERN",
            CARRY => "any reading: CARRY",
            _ => "any reading: another answer",
        });
        Ok(())
    }

    // A reading that a start and calls gave, where the file is admitted.
    fn some_reading(&mut self, file: &[u8]) -> Option<crate::answers::Reading> {
        let found = model_file::admitted(file).ok()?;
        let some = some_strings(&mut self.prng, &found, strings(&found, 300).as_deref());
        let ((lower, _), (upper, _)) = bounds(&mut self.prng, &some);
        let mut reading = crate::model_reading::bare_start(file, &lower, &upper).ok()?;
        for _ in 0..self.prng.below(CALLS) {
            reading = crate::model_reading::bare_next(file, &reading, MAX_PATH).1;
        }
        Some(reading)
    }

    // A reading of the old file and, in its place, one that says another length; plain and by pattern. The old file's number is the answer, else the new one's.
    fn to_large(&mut self, old: &[u8], new: &[u8]) -> Checked {
        let large = |file: &[u8]| file.len() > MAX_LEN;
        let mut reading = match self.some_reading(if large(old) { &[] } else { old }) {
            Some(reading) => reading,
            None => made(&mut self.prng, &[], &[0], None),
        };
        reading.file_len = if self.prng.one_in(4) { new.len() } else { old.len() };
        let mut held = junk(self.prng.next());
        held.put(&reading);
        let positions = if self.prng.one_in(2) { Some(self.prng.pick(&[0, 3, 255, 256])) } else { None };
        let (answer, _) = carried(self.ours_carry, old, new, positions, &held)?;
        self.count(match (answer, large(old), large(new)) {
            (LARGE, true, true) => "both files LARGE",
            (LARGE, true, false) if model_file::open(new).is_err() => "old file LARGE, the new one has another number",
            (LARGE, true, false) => "old file LARGE, the new one opens",
            (LARGE, false, true) => "new file LARGE, the old one opens",
            (SHORT, false, true) => "new file LARGE, the old one SHORT",
            (VERSION, false, true) => "new file LARGE, the old one VERSION",
            (ROOT, false, true) => "new file LARGE, the old one ROOT",
            _ => "another answer",
        });
        Ok(())
    }

    // From and to files of zeros past 4,294,967,295 bytes, with a header and a trailer; the other file opens, or is refused for something else.
    pub fn large_carries(&mut self) -> Checked {
        const LENGTHS: [usize; 3] = [MAX_LEN + 1, MAX_LEN + 37, 1 << 33];
        let mut zeros: Vec<Zeros<u8>> = LENGTHS.iter().map(|&len| Zeros::new(len)).collect();
        for _ in 0..PAST / self.one_in {
            let version = self.prng.below(5) as u64;
            for file in &mut zeros {
                let root = file.len() as u64 - if version == 3 { 21 } else { 17 };
                put_ends(file, version, root);
            }
            let mut other = old_file(&mut self.prng);
            match self.prng.below(4) {
                0 => other = vec![0; self.prng.between(1, 31)],
                1 if other.len() >= 32 => other[0] = self.prng.pick(&[0, 4, 255]),
                2 if other.len() >= 32 => {
                    let n = other.len();
                    other[n - 8] ^= 1;
                }
                _ => {}
            }
            let (one, two) = (self.prng.below(zeros.len()), self.prng.below(zeros.len()));
            match self.prng.below(3) {
                0 => self.to_large(&zeros[one], &zeros[two])?,
                1 => self.to_large(&zeros[one], &other)?,
                _ => self.to_large(&other, &zeros[two])?,
            }
        }
        self.require(
            &[
                "both files LARGE",
                "old file LARGE, the new one has another number",
                "old file LARGE, the new one opens",
                "new file LARGE, the old one opens",
                "new file LARGE, the old one SHORT",
                "new file LARGE, the old one VERSION",
                "new file LARGE, the old one ROOT",
            ],
            120,
        )
    }

    // To a foreign file of an equal shape, from a reading that a start and calls gave: it is carried where the values on its path are the same, and what follows there
    // is the foreign file's own.
    fn to_equal_shape(&mut self, old: &[u8], new: &[u8]) -> Checked {
        let foreign = of_equal_shape(&mut self.prng, new);
        let mut held = junk(self.prng.next());
        held.put(&match self.some_reading(old) {
            Some(reading) => reading,
            None => return Ok(()),
        });
        let (answer, _) = carried(self.ours_carry, old, &foreign, None, &held)?;
        self.count(match answer {
            0 if foreign != new => "a foreign file of equal shape: carried",
            0 => "the conversion itself: carried",
            CARRY => "a foreign file of equal shape: CARRY",
            _ => "a foreign file of equal shape: another answer",
        });
        Ok(())
    }

    pub fn foreign_carries(&mut self) -> Checked {
        for _ in 0..EQUAL / self.one_in {
            let old = old_file(&mut self.prng);
            if let Ok(new) = model_convert::convert(&old, MAX_LEN) {
                self.to_equal_shape(&old, &new.file)?;
            }
        }
        self.require(&["a foreign file of equal shape: carried", "a foreign file of equal shape: CARRY"], 500)
    }

    pub fn carries(&mut self) -> Checked {
        let mut files = 0;
        while files < FILES / self.one_in {
            let old = old_file(&mut self.prng);
            if let Ok(new) = model_convert::convert(&old, MAX_LEN) {
                self.to_conversion(&old, &new.file)?;
                files += 1;
            }
        }
        for _ in 0..MADE / self.one_in {
            let mut old = old_file(&mut self.prng);
            let mut new = match model_convert::convert(&old, MAX_LEN) {
                Ok(new) if !self.prng.one_in(8) => new.file,
                // a foreign file, or the same one
                _ if self.prng.one_in(2) => small(&mut self.prng).file,
                _ => old.clone(),
            };
            match self.prng.below(8) {
                0 | 1 if !new.is_empty() => {
                    let at = self.prng.below(new.len());
                    new[at] = damage(&mut self.prng, new[at]);
                }
                2 if !old.is_empty() && self.prng.one_in(2) => {
                    let at = self.prng.below(old.len());
                    old[at] = damage(&mut self.prng, old[at]);
                }
                3 if self.prng.one_in(4) => new.truncate(self.prng.below(40)),
                4 if self.prng.one_in(16) => new.clear(),
                _ => {}
            }
            self.to_any(&old, &new)?;
        }
        self.require(&["files"], 2_000)?;
        self.require(&["carried to the conversion"], 20_000)?;
        self.require(&["calls after a carry, by the Rust", "carried to the conversion, with more levels"], 5_000)?;
        self.require(
            &[
                "any reading: carried",
                "any reading: SHORT",
                "any reading: VERSION",
                "any reading: ROOT",
                "any reading: NODE",
                "any reading: STATE",
                "any reading: PATTERN",
                "any reading: CARRY",
                "carried to the conversion, at the end",
                "carried to the conversion, with one level",
            ],
            120,
        )
    }
}
