// Readings by pattern of admitted files, by each: after every next the answer and the total, held to the Rust, to the model, and to the demand by
// pattern by the list of the file's strings. And damaged files, made readings and made patterns, by the model and by ours.

use super::ranges::{describe_bound, describe_reading, junk};
use super::{describe_file, same, Checked, Difference, Run, PATTERNED, PATTERNED_MADE};
use crate::answers::{
    start_name, Bound, Kind, Pattern, Reading, ReadingAnswers, NEXTS, PATTERN, POSITIONS, SPACE, STARTED, STATE,
};
use crate::generate_file::{self, medium, small, Keys, Values};
use crate::generate_reading::{addresses, bounds, made, some_strings, strings, Spelled};
use crate::given_file::{self, Opened};
use crate::model_file::{self, Admitted, MAX_PATH};
use crate::model_pattern::{self, fits, fits_start};
use crate::model_reading::{self, meets, passes, Told};
use crate::prng::Prng;

// ---- patterns

const ANY: u16 = 256;

pub const PATTERNS: [&str; 7] = [
    "patterns: a string of the file",
    "patterns: with any bytes",
    "patterns: cut",
    "patterns: one position more",
    "patterns: one byte changed",
    "patterns: any bytes alone",
    "patterns: no position",
];

// A pattern near one of these strings, and the place of its name.
pub fn pattern(prng: &mut Prng, strings: &[Vec<u8>]) -> (Pattern, usize) {
    let n = prng.below(strings.len());
    let mut positions: Vec<u16> = strings[n].iter().map(|&b| u16::from(b)).collect();
    let name = prng.below(PATTERNS.len());
    let any = |prng: &mut Prng| prng.pick(&[ANY, 257, 1_000, 65_535]);
    match name {
        1 => {
            for position in &mut positions {
                if prng.one_in(2) {
                    *position = any(prng);
                }
            }
        }
        2 => positions.truncate(prng.between(0, positions.len())),
        3 if positions.len() < POSITIONS => positions.push(any(prng)),
        4 if !positions.is_empty() => {
            let i = prng.below(positions.len());
            positions[i] = u16::from(prng.byte());
        }
        5 => {
            let n = prng.between(1, 3);
            positions = (0..n).map(|_| any(prng)).collect();
        }
        6 => positions.clear(),
        _ => {}
    }
    positions.truncate(POSITIONS);
    (Pattern { positions, rest: prng.one_in(3) }, name)
}

// The same without its name, for the replay list.
pub fn pattern_near(prng: &mut Prng, strings: &[Vec<u8>]) -> Pattern {
    pattern(prng, strings).0
}

fn describe_pattern(pattern: &Pattern) -> String {
    format!("pattern {:?}, any rest {}", pattern.positions, pattern.rest)
}

// ---- one start, one next

fn started_by(
    ours: Option<&dyn ReadingAnswers>,
    file: &[u8],
    pattern: &Pattern,
    lower: &Bound,
    upper: &Bound,
    keep: u64,
) -> Result<Result<Reading, u64>, Difference> {
    let want = model_pattern::start(file, pattern, lower, upper);
    if let Some(ours) = ours {
        let (lo, hi) = (describe_bound(lower), describe_bound(upper));
        let input = || format!("{}, lower {}, upper {}, {}", describe_pattern(pattern), lo, hi, describe_file(file));
        let given = junk(keep);
        let mut held = given.clone();
        let number = want.as_ref().err().copied().unwrap_or(STARTED);
        let answer = ours.start_by(file, pattern, lower, upper, &mut held);
        same("a start by pattern", input, ("model", number), ("ours", answer))?;
        match &want {
            Ok(reading) => {
                // no number is put
                let want = Reading { keys: given.keys[0], ..reading.clone() };
                same("a reading started by pattern", input, ("model", want), ("ours", held.reading()))?
            }
            Err(_) => same("after a refused start", input, ("as given", given.all()), ("ours", held.all()))?,
        }
    }
    Ok(want)
}

fn stepped_by(
    ours: Option<&dyn ReadingAnswers>,
    file: &[u8],
    pattern: &Pattern,
    reading: &Reading,
    space: usize,
    keep: u64,
) -> Result<(Told, Reading), Difference> {
    let (told, after) = model_pattern::next(file, pattern, reading, space);
    if let Some(ours) = ours {
        let (p, r) = (describe_pattern(pattern), describe_reading(reading));
        let input = || format!("{}, a buffer of {} bytes, {}, {}", p, space, r, describe_file(file));
        let mut held = junk(keep);
        held.put(reading);
        let mut key: Vec<u8> = (0..space).map(|i| keep as u8 ^ i as u8).collect();
        let mut value = [keep | 1];
        let (mut left, mut value_left) = (key.clone(), value);
        let number = model_reading::tell(&told, &mut left, &mut value_left);
        let answer = ours.next_by(file, pattern, &mut held, &mut key, &mut value);
        same("a next by pattern", input, ("model", number), ("ours", answer))?;
        same("the key buffer", input, ("model", left), ("ours", key))?;
        same("the value", input, ("model", value_left), ("ours", value))?;
        same("the reading after a next by pattern", input, ("model", &after), ("ours", &held.reading()))?;
    }
    Ok((told, after))
}

// ---- the demand by pattern, by the list of all strings

// The keys to hand out, each with the total then, and the total at the end.
fn demanded(strings: &[Spelled], pattern: &Pattern, lower: &Bound, upper: &Bound) -> (Vec<(Told, u64)>, u64) {
    let meets = |s: &Spelled| meets(lower.kind, &lower.bytes, &s.bytes);
    let passes = |s: &Spelled| passes(upper.kind, &upper.bytes, &s.bytes);
    if strings[0].value.is_some() && meets(&strings[0]) && passes(&strings[0]) {
        return (Vec::new(), 0);
    }
    // less its last byte it fits the pattern's start
    let followed = |s: &Spelled| !s.bytes.is_empty() && fits_start(pattern, &s.bytes[..s.bytes.len() - 1]);
    let (mut keys, mut total, mut beyond) = (Vec::new(), 0, 0);
    for string in strings.iter().filter(|s| meets(s)) {
        if passes(string) {
            beyond = beyond.max(followed(string) as u64);
            continue;
        }
        total += followed(string) as u64;
        match string.value {
            Some(value) if fits(pattern, &string.bytes) => keys.push((Told::Key(string.bytes.clone(), value), total)),
            _ => {}
        }
    }
    (keys, total + beyond)
}

impl<'a> Run<'a> {
    // One range by pattern, to its end and one call more, by each.
    fn searched(
        &mut self,
        rust: &Opened,
        strings: Option<&[Spelled]>,
        file: &[u8],
        pattern: &Pattern,
        lower: &Bound,
        upper: &Bound,
    ) -> Checked {
        let ours = self.ours_reading;
        let mut reading = match started_by(ours, file, pattern, lower, upper, self.prng.next())? {
            Ok(reading) => reading,
            Err(_) => return Ok(self.count("ranges by pattern: refused, 9 BOUND")),
        };
        let (p, lo, hi) = (describe_pattern(pattern), describe_bound(lower), describe_bound(upper));
        let at = |call: usize| format!("call {}, {}, lower {}, upper {}, {}", call, p, lo, hi, describe_file(file));
        let mut search = match rust.search(pattern, lower, upper) {
            Some(search) => search,
            None => {
                let what = "the Rust panics on an admitted file".to_string();
                return Err(Difference { what, input: at(0), answers: Vec::new() });
            }
        };
        let wanted = strings.map(|strings| demanded(strings, pattern, lower, upper));
        let mut ended = false;
        for call in 1..4_000 {
            if self.prng.one_in(12) {
                let short = self.prng.pick(&[0, 1, 254]);
                let (told, after) = stepped_by(ours, file, pattern, &reading, short, self.prng.next())?;
                let want = (Told::Refused(SPACE), reading);
                same("a short buffer", || at(call), ("wanted", want), ("model", (told, after.clone())))?;
                reading = after;
                self.count("calls with a short buffer");
            }
            let (told, after) = stepped_by(ours, file, pattern, &reading, MAX_PATH, self.prng.next())?;
            reading = after;
            let said = search.next().map(|key| key.map_or(Told::End, |(bytes, value)| Told::Key(bytes, value)));
            same("the next key", || at(call), ("the Rust", said.as_ref()), ("model", Some(&told)))?;
            same("the total", || at(call), ("the Rust", search.followed()), ("model", reading.total))?;
            if let Some((keys, total)) = &wanted {
                let (want, total) = keys.get(call - 1).cloned().unwrap_or((Told::End, *total));
                same("the next key", || at(call), ("the demand", &want), ("model", &told))?;
                same("the total", || at(call), ("the demand", total), ("model", reading.total))?;
            }
            match told {
                Told::Key(..) => self.count("calls that gave a key"),
                // one call more, which is to say "end" again and leave all as it is
                _ if ended => break,
                _ => ended = true,
            }
        }
        self.count("ranges by pattern");
        if wanted.is_some() {
            self.count("ranges by pattern: held to the demand");
        }
        Ok(self.count_more("transitions followed", reading.total as usize))
    }

    pub fn patterns(&mut self) -> Checked {
        self.prng = Prng::new(19);
        let mut done = 0;
        let mut i = 0;
        while done < PATTERNED / self.one_in {
            i += 1;
            let prng = &mut self.prng;
            let file = match i % 40 {
                0 => {
                    let keys = generate_file::keys(prng, Keys::Wide, 0);
                    let values = generate_file::values(prng, Values::Any, keys.len());
                    let version = prng.pick(&[1, 2, 3]);
                    generate_file::built_from(prng, version, keys, &values).file
                }
                1 => medium(prng).file,
                2 => {
                    let keys = generate_file::keys(prng, Keys::Long, 3);
                    let values = generate_file::values(prng, Values::Ascending, keys.len());
                    let version = prng.pick(&[1, 2, 3]);
                    generate_file::built_from(prng, version, keys, &values).file
                }
                3 => generate_file::unused(prng),
                _ => small(prng).file,
            };
            let found = match model_file::admitted(&file) {
                // the Rust opens none under 36 bytes
                Ok(found) if file.len() >= given_file::LEAST => found,
                _ => continue,
            };
            let asked = if file.len() > 1_000 { 100 } else { 60 };
            self.patterns_in(&file, &found, asked)?;
            done += asked;
        }
        self.require(&["ranges by pattern", "ranges by pattern: held to the demand"], 100_000)?;
        self.require(&["calls that gave a key"], 100_000)?;
        self.require(&PATTERNS, 5_000)
    }

    fn patterns_in(&mut self, file: &[u8], found: &Admitted, asked: usize) -> Checked {
        let rust = given_file::open(file).expect("the Rust opens an admitted file");
        let all = strings(found, 3_000);
        let all = all.as_ref().map(|all| &all[..]);
        let some = some_strings(&mut self.prng, found, all);
        for i in 0..asked {
            let (pattern, name) = pattern(&mut self.prng, &some);
            let ((mut lower, _), (mut upper, _)) = bounds(&mut self.prng, &some);
            if i % 3 == 0 {
                lower.kind = Kind::Unbounded;
            }
            if i % 3 != 1 {
                upper.kind = Kind::Unbounded;
            }
            self.count(PATTERNS[name]);
            self.searched(&rust, all, file, &pattern, &lower, &upper)?;
        }
        Ok(())
    }

    // Damaged files, readings that no start gave, and patterns of 256 positions and more.
    pub fn made_patterns(&mut self) -> Checked {
        self.prng = Prng::new(20);
        let ours = self.ours_reading;
        for i in 0..PATTERNED_MADE / self.one_in {
            let prng = &mut self.prng;
            let mut file = small(prng).file;
            if i % 3 != 0 {
                let n = prng.between(1, 4);
                for _ in 0..n {
                    let at = prng.below(file.len());
                    file[at] = prng.byte();
                }
            }
            let keys: Vec<Vec<u8>> = (0..8).map(|_| (0..prng.below(4)).map(|_| prng.pick(b"abct")).collect()).collect();
            let (mut pattern, _) = pattern(prng, &keys);
            if prng.one_in(24) {
                let n = prng.pick(&[254, 255, 256, 257, 300]);
                pattern.positions.resize(n, ANY);
            }
            let ((lower, _), (upper, _)) = bounds(prng, &keys);
            let keep = prng.next();
            let started = started_by(ours, &file, &pattern, &lower, &upper, keep)?;
            self.count(start_name(started.as_ref().err().copied().unwrap_or(STARTED)));
            let mut reading = match started {
                Ok(reading) if i % 2 == 0 => reading,
                _ => made(&mut self.prng, &file, &addresses(&file), None),
            };
            for _ in 0..4 {
                let prng = &mut self.prng;
                let space = prng.pick(&[MAX_PATH, MAX_PATH, MAX_PATH, MAX_PATH, 254]);
                let keep = prng.next();
                let (told, after) = stepped_by(ours, &file, &pattern, &reading, space, keep)?;
                let name = match told {
                    Told::Refused(why) => NEXTS[why as usize],
                    Told::Key(..) | Told::End => NEXTS[0],
                };
                self.count(name);
                reading = after;
            }
        }
        self.require(&[start_name(PATTERN), NEXTS[PATTERN as usize]], 120)?;
        self.require(&[NEXTS[STATE as usize], NEXTS[5], NEXTS[6], NEXTS[7], NEXTS[SPACE as usize]], 120)
    }
}
