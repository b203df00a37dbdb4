// A plain model of a range in one call (docs/FORMAT.md, "Ranges"), over the model of a reading: on all bytes, with buffers of any size.

use crate::answers::{Bound, Kind, BOUND, BOUND_BYTES, SPACE};
use crate::model::Model;
use crate::model_file::{open, MAX_PATH};
use crate::model_reading::{bare_next, bare_start, Told};

// The bytes of a row: a key's length, and room for the longest key.
pub const ROW: usize = 256;

// What a range answers beside its count: the end, more, or RANGE_REFUSED plus a refusal.
pub const RANGE_END: u64 = 1000;
pub const RANGE_MORE: u64 = 1001;
pub const RANGE_REFUSED: u64 = 2000;

// One who answers ranges: how many rows and values were written, and why it stopped. Every other byte and value stays as given.
pub trait RangeAnswers {
    fn range(
        &self,
        file: &[u8],
        lower: &Bound,
        upper: &Bound,
        most: usize,
        rows: &mut [u8],
        values: &mut [u64],
    ) -> (u64, u64);
}

// The keys with their values, and why there are no more.
pub type Page = (Vec<(Vec<u8>, u64)>, u64);

fn long(bound: &Bound) -> bool {
    bound.kind != Kind::Unbounded && bound.bytes.len() > BOUND_BYTES
}

// 1, 4, 2, 3, then 9, then 8 for rows or values, then what the start meets, and next up to `most` times.
pub fn page(file: &[u8], lower: &Bound, upper: &Bound, most: usize, rows: usize, values: usize) -> Page {
    let refused = |why: u64| (Vec::new(), RANGE_REFUSED + why);
    if let Err(why) = open(file) {
        return refused(why);
    }
    if long(lower) || long(upper) {
        return refused(BOUND);
    }
    if (rows as u128) < ROW as u128 * most as u128 || values < most {
        return refused(SPACE);
    }
    let mut reading = match bare_start(file, lower, upper) {
        Ok(reading) => reading,
        Err(why) => return refused(why),
    };
    let mut keys = Vec::new();
    while keys.len() < most {
        let (told, after) = bare_next(file, &reading, MAX_PATH);
        match told {
            Told::Key(bytes, value) => keys.push((bytes, value)),
            Told::End => return (keys, RANGE_END),
            Told::Refused(why) => return (keys, RANGE_REFUSED + why),
        }
        reading = after;
    }
    (keys, RANGE_MORE)
}

// What a page leaves in the buffers.
pub fn write(keys: &[(Vec<u8>, u64)], rows: &mut [u8], values: &mut [u64]) {
    for (i, (key, value)) in keys.iter().enumerate() {
        rows[ROW * i] = key.len() as u8;
        rows[ROW * i + 1..][..key.len()].copy_from_slice(key);
        values[i] = *value;
    }
}

impl RangeAnswers for Model {
    fn range(
        &self,
        file: &[u8],
        lower: &Bound,
        upper: &Bound,
        most: usize,
        rows: &mut [u8],
        values: &mut [u64],
    ) -> (u64, u64) {
        let (keys, stop) = page(file, lower, upper, most, rows.len(), values.len());
        write(&keys, rows, values);
        (keys.len() as u64, stop)
    }
}
