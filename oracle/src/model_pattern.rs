// A plain model of document 02, N1: start and next by pattern, on all bytes and from every reading and pattern whatsoever. It is written from the
// paper, with OPEN-POINTS-02's N1; nodes and files are judged by model.rs and model_file.rs.

use crate::answers::{
    Bound, Level, Pattern, Reading, BOUND_BYTES, DEEP, LEVELS, NODE, PATTERN, POSITIONS, SPACE, STATE, SUM,
};
use crate::model_file::{judge, open, MAX_PATH, MAX_SUM};
use crate::model_reading::{self, passes, Told};

// As long as the pattern at most, or the pattern ends in any rest; and each byte that has a position is its byte, or the position is any byte.
pub fn fits_start(pattern: &Pattern, string: &[u8]) -> bool {
    let positions = &pattern.positions;
    let fits = |(&p, &b): (&u16, &u8)| p >= 256 || p == u16::from(b);
    (string.len() <= positions.len() || pattern.rest) && positions.iter().zip(string).all(fits)
}

// And not shorter than the pattern.
pub fn fits(pattern: &Pattern, string: &[u8]) -> bool {
    fits_start(pattern, string) && string.len() >= pattern.positions.len()
}

// 1, 4, 2, 3, then 12, then all as a start without a table. The number of keys to come is 0 and says nothing.
pub fn start(file: &[u8], pattern: &Pattern, lower: &Bound, upper: &Bound) -> Result<Reading, u64> {
    open(file)?;
    if pattern.positions.len() > POSITIONS {
        return Err(PATTERN);
    }
    model_reading::bare_start(file, lower, upper)
}

pub fn next(file: &[u8], pattern: &Pattern, reading: &Reading, space: usize) -> (Told, Reading) {
    match unrefused(file, pattern, reading, space) {
        Ok(answered) => answered,
        Err(why) => (Told::Refused(why), reading.clone()),
    }
}

// 1, 4, 2, 3, then 11, 12, 8; a pending empty key; then the steps, each at the highest level: 5 for it; popped where it is used up or its bytes do
// not fit the start; else 6, 7, 5 for the target, the upper bound, and 7 with the final output where the key fits.
fn unrefused(file: &[u8], pattern: &Pattern, reading: &Reading, space: usize) -> Result<(Told, Reading), u64> {
    let meta = open(file)?;
    if reading.level_count > LEVELS || reading.bound_len > BOUND_BYTES || reading.file_len != file.len() {
        return Err(STATE);
    }
    if pattern.positions.len() > POSITIONS {
        return Err(PATTERN);
    }
    if space < MAX_PATH {
        return Err(SPACE);
    }
    let mut after = reading.clone();
    if let Some(value) = after.pending.take() {
        if passes(reading.kind, &reading.bound, b"") {
            after.set_levels(Vec::new());
            return Ok((Told::End, after));
        }
        if fits(pattern, b"") {
            return Ok((Told::Key(Vec::new(), value), after));
        }
    }
    let bytes = |levels: &[Level]| levels.iter().skip(1).map(|level| level.inp).collect::<Vec<u8>>();
    let mut levels = reading.levels.clone();
    while let Some(&level) = levels.last() {
        let node = judge(file, &meta, level.addr as usize).ok_or(NODE)?;
        let t = match node.transitions.get(usize::from(level.place)) {
            Some(t) if fits_start(pattern, &bytes(&levels)) => t,
            _ => {
                levels.pop();
                continue;
            }
        };
        if levels.len() > MAX_PATH {
            return Err(DEEP);
        }
        let sum = u128::from(level.sum) + u128::from(t.out);
        if sum > MAX_SUM {
            return Err(SUM);
        }
        let target = judge(file, &meta, t.addr).ok_or(NODE)?;
        after.total = after.total.saturating_add(1);
        let here = levels.len() - 1;
        levels[here].place += 1;
        levels.push(Level { addr: t.addr as u32, inp: t.inp, place: 0, sum: sum as u64 });
        let key = bytes(&levels);
        if passes(reading.kind, &reading.bound, &key) {
            levels.clear();
            break;
        }
        if target.is_final && fits(pattern, &key) {
            let value = sum + u128::from(target.final_output);
            if value > MAX_SUM {
                return Err(SUM);
            }
            after.set_levels(levels);
            return Ok((Told::Key(key, value as u64), after));
        }
    }
    after.set_levels(levels);
    Ok((Told::End, after))
}
