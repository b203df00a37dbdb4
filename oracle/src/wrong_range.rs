// The model's ranges with one slip each, which the comparison is to notice.

use crate::answers::{Bound, Kind, SPACE};
use crate::model_range::{page, write, RangeAnswers, RANGE_END, RANGE_MORE, RANGE_REFUSED, ROW};

pub const SLIPS: &[&str] = &[
    "range: the last key of a page again at the head of the next",
    "range: the empty key is lost",
    "range: the empty key again on the second page",
    "range: ended with a key left",
    "range: more at the end",
    "range: a row is written past its key",
    "range: rows stand 255 bytes apart",
    "range: values stand one row late",
    "range: a refusal hides the keys before it",
    "range: the values' room is not judged",
    "range: short rows are judged before a long bound",
    "range: 256 times the number wraps",
];

pub struct WrongRange {
    pub slip: &'static str,
}

impl WrongRange {
    fn has(&self, slip: &str) -> bool {
        self.slip.ends_with(slip)
    }
}

impl RangeAnswers for WrongRange {
    fn range(
        &self,
        file: &[u8],
        lower: &Bound,
        upper: &Bound,
        most: usize,
        rows: &mut [u8],
        values: &mut [u64],
    ) -> (u64, u64) {
        let mut from = lower.clone();
        let again = self.has("head of the next") || self.has("on the second page") && from.bytes.is_empty();
        if again && from.kind == Kind::Excluded {
            from.kind = Kind::Included;
        }
        if self.has("before a long bound") && rows.len() < ROW * most {
            return (0, RANGE_REFUSED + SPACE);
        }
        let rows_len =
            if self.has("wraps") && most.wrapping_mul(ROW) <= rows.len() { usize::max_value() } else { rows.len() };
        let values_len = if self.has("is not judged") { values.len().max(most) } else { values.len() };
        let asked = if self.has("wraps") && rows_len > rows.len() { values.len().min(2) } else { most };
        let (mut keys, mut stop) = page(file, &from, upper, asked, rows_len, values_len);
        if self.has("is lost") {
            keys.retain(|(key, _)| !key.is_empty());
        }
        if self.has("with a key left") && stop == RANGE_MORE {
            stop = RANGE_END;
        }
        if self.has("more at the end") && stop == RANGE_END {
            stop = RANGE_MORE;
        }
        if self.has("before it") && stop >= RANGE_REFUSED {
            keys.clear();
        }
        keys.truncate(values.len());
        if self.has("255 bytes apart") || self.has("one row late") {
            for (i, (key, value)) in keys.iter().enumerate() {
                let at = if self.has("apart") { (ROW - 1) * i } else { ROW * i };
                rows[at] = key.len() as u8;
                rows[at + 1..][..key.len()].copy_from_slice(key);
                let place = if self.has("late") { i + 1 } else { i };
                if let Some(entry) = values.get_mut(place) {
                    *entry = *value;
                }
            }
        } else {
            write(&keys, rows, values);
        }
        if self.has("past its key") {
            if let Some((key, _)) = keys.first() {
                rows[(1 + key.len()).min(ROW - 1)] = 0;
            }
        }
        (keys.len() as u64, stop)
    }
}
