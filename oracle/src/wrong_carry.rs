// The model's carries with one slip each, which the comparison is to notice.

use crate::answers::{Held, LARGE};
use crate::model::MAX_LEN;
use crate::model_carry::{carry_with, CarryAnswers};

pub const SLIPS: &[&str] = &[
    "carry: counts are not compared",
    "carry: values are not compared",
    "carry: a missing byte comes before the old node",
    "carry: the new file is judged first",
    "carry: the total is counted from 0",
    "carry: the old file's length is kept",
    "carry: a new file over 4,294,967,295 bytes is opened",
    "carry: LARGE of the new file comes first",
    "carry: a refusal leaves another reading",
];

pub struct WrongCarry {
    pub slip: &'static str,
}

impl CarryAnswers for WrongCarry {
    fn carry(&self, old: &[u8], new: &[u8], positions: Option<usize>, held: &mut Held) -> u64 {
        if self.slip.ends_with("LARGE of the new file comes first") && new.len() > MAX_LEN {
            return LARGE;
        }
        let opened = self.slip.ends_with("bytes is opened") && new.len() > MAX_LEN;
        let new = if opened { &new[..MAX_LEN] } else { new };
        match carry_with(old, new, positions, &held.reading(), self.slip) {
            Ok(after) => {
                held.put(&after);
                0
            }
            Err(why) => {
                if self.slip.ends_with("leaves another reading") {
                    held.head[0] = new.len() as u64;
                }
                why
            }
        }
    }
}
