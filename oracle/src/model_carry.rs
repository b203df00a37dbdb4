// A plain model of document 02, N8: a reading carried to another file, for any two files and every reading whatsoever. It is written from the paper,
// with OPEN-POINTS-02's N8; nodes and files are judged by model.rs and model_file.rs.

use crate::answers::{Held, Reading, Transition, BOUND_BYTES, LEVELS, NODE, PATTERN, POSITIONS, STATE};
use crate::model::Model;
use crate::model_file::{judge, open};

pub const CARRY: u64 = 16;

// What is compared: 0 and the reading in the arrays, or the refusal and the arrays as they were. A reading by pattern has so many positions.
pub trait CarryAnswers {
    fn carry(&self, old: &[u8], new: &[u8], positions: Option<usize>, held: &mut Held) -> u64;
}

// The old file's refusals, the new file's, 11 by the old file, 12; then level by level 5 in the old file, 16 where the new file lacks the byte, 5 in
// the new file, 16 for another count or another running value.
pub fn carry(old: &[u8], new: &[u8], positions: Option<usize>, reading: &Reading) -> Result<Reading, u64> {
    carry_with(old, new, positions, reading, "")
}

// The same with a slip of the self-test (wrong_carry.rs).
pub fn carry_with(
    old: &[u8],
    new: &[u8],
    positions: Option<usize>,
    reading: &Reading,
    slip: &str,
) -> Result<Reading, u64> {
    if slip.ends_with("the new file is judged first") {
        open(new)?;
    }
    let (from, to) = (open(old)?, open(new)?);
    if reading.level_count > LEVELS || reading.bound_len > BOUND_BYTES || reading.file_len != old.len() {
        return Err(STATE);
    }
    if positions.map_or(false, |n| n > POSITIONS) {
        return Err(PATTERN);
    }
    let mut levels = reading.levels.clone();
    // where the level below leads by each byte, and its running value
    let mut below: Option<(Vec<Transition>, u128)> = None;
    for level in &mut levels {
        if slip.ends_with("a missing byte comes before the old node") {
            if let Some((transitions, _)) = &below {
                transitions.iter().find(|t| t.inp == level.inp).ok_or(CARRY)?;
            }
        }
        let was = judge(old, &from, level.addr as usize).ok_or(NODE)?;
        let (addr, sum) = match &below {
            None => (to.root, 0),
            Some((transitions, sum)) => {
                let t = transitions.iter().find(|t| t.inp == level.inp).ok_or(CARRY)?;
                (t.addr, sum + u128::from(t.out))
            }
        };
        let is = judge(new, &to, addr).ok_or(NODE)?;
        let another_count = is.transitions.len() != was.transitions.len();
        let another_value = sum != u128::from(level.sum);
        if another_count && !slip.ends_with("counts are not compared")
            || another_value && !slip.ends_with("values are not compared")
        {
            return Err(CARRY);
        }
        level.addr = addr as u32;
        below = Some((is.transitions, sum));
    }
    let mut after = reading.clone();
    if !slip.ends_with("the old file's length is kept") {
        after.file_len = new.len();
    }
    if slip.ends_with("the total is counted from 0") {
        after.total = 0;
    }
    after.levels = levels;
    Ok(after)
}

impl CarryAnswers for Model {
    fn carry(&self, old: &[u8], new: &[u8], positions: Option<usize>, held: &mut Held) -> u64 {
        match carry(old, new, positions, &held.reading()) {
            Ok(after) => {
                held.put(&after);
                0
            }
            Err(why) => why,
        }
    }
}
