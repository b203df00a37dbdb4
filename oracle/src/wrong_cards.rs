// The model's calls of an operation with one slip each, which the comparison of single calls is to notice.

use crate::answers::{LEVELS, SPACE};
use crate::model::Model;
use crate::model_cards::{CardAnswers, HeldCards, Pairs, ITEMS_END, ITEMS_REFUSED};
use crate::model_file::{self, MAX_PATH};
use crate::model_ops::{Op, MOST_FILES};

pub const SLIPS: &[&str] = &[
    "cards: an ended reading is stepped again",
    "cards: a held key is used up at once",
    "cards: a key of over 256 levels is held",
    "cards: the buffer is judged before the files",
    "cards: no buffer is asked for at the end",
    "cards: the files are opened before the count is judged",
    "cards: nine cards are taken for eight",
    "cards: a file past the count is opened",
    "cards: values by file alone",
    "cards: pairs past the count are left",
    "cards: the key's rest is cleared",
    "cards: a refusal writes the buffer",
    "cards: the union for the intersection",
    "cards: a difference hands out what others hold",
];

pub struct WrongCards {
    pub slip: &'static str,
}

impl WrongCards {
    fn has(&self, slip: &str) -> bool {
        self.slip.ends_with(slip)
    }

    // What is refused before the call is made.
    fn judged_first(&self, count: usize, files: &[&[u8]; MOST_FILES], space: usize) -> Option<u64> {
        if self.has("before the files") && (1..=MOST_FILES).contains(&count) && space < MAX_PATH {
            return Some(SPACE);
        }
        let opened = |i: usize| files.get(i).and_then(|file| model_file::open(file).err());
        if self.has("before the count is judged") {
            return opened(0);
        }
        if self.has("past the count is opened") && (1..MOST_FILES).contains(&count) {
            return opened(count);
        }
        None
    }
}

impl CardAnswers for WrongCards {
    fn next_item(
        &self,
        op: Op,
        count: usize,
        files: &[&[u8]; MOST_FILES],
        held: &mut HeldCards,
        key: &mut [u8],
    ) -> (u64, Pairs) {
        if let Some(why) = self.judged_first(count, files, key.len()) {
            return (ITEMS_REFUSED + why, Pairs::default());
        }
        let (mut op, mut count) = (op, count);
        match op {
            Op::Intersection if self.has("for the intersection") => op = Op::Union,
            Op::Difference if self.has("what others hold") => count = count.min(1),
            _ => {}
        }
        if self.has("taken for eight") && count > MOST_FILES {
            count = MOST_FILES;
        }
        for i in 0..MOST_FILES {
            if self.has("stepped again") && held.slots[i] == 2 || self.has("used up at once") && held.slots[i] == 1 {
                held.slots[i] = 0;
            }
            if self.has("levels is held") && held.slots[i] == 1 && held.readings[i].head[6] > LEVELS as u64 {
                held.readings[i].head[6] = LEVELS as u64;
            }
        }
        let all_ended = held.slots[..count.min(MOST_FILES)].iter().all(|&slot| slot == 2);
        if self.has("asked for at the end") && all_ended && count > 0 && count <= MOST_FILES {
            return (ITEMS_END, Pairs::default());
        }
        let (answer, mut pairs) = Model.next_item(op, count, files, held, key);
        if answer < ITEMS_END {
            if self.has("by file alone") {
                let mut its: Vec<_> = (0..pairs.count).map(|i| (pairs.files[i], pairs.values[i])).collect();
                its.sort();
                for (i, (file, value)) in its.into_iter().enumerate() {
                    pairs.files[i] = file;
                    pairs.values[i] = value;
                }
            }
            if self.has("past the count are left") {
                pairs.files[pairs.count..].iter_mut().for_each(|file| *file = 7);
            }
            if self.has("rest is cleared") {
                key[answer as usize..].iter_mut().for_each(|b| *b = 0);
            }
        }
        if self.has("writes the buffer") && answer >= ITEMS_REFUSED {
            key.iter_mut().for_each(|b| *b = 0);
        }
        (answer, pairs)
    }
}
