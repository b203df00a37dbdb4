// Our static library, target/staticlib/liboracle_range.a (crate `oracle_range`): its exported function, and a safe function over it. A slice is passed
// as its pointer and then its length, an array as its pointer.

use crate::answers::Bound;
use crate::model_range::RangeAnswers;
use crate::ours::Library;

#[link(name = "oracle_range", kind = "static")]
extern "C" {
    fn oracle_range(
        file: *const u8,
        file_len: usize,
        lower_kind: u64,
        lower: *const u8,
        lower_len: usize,
        upper_kind: u64,
        upper: *const u8,
        upper_len: usize,
        most: usize,
        rows: *mut u8,
        rows_len: usize,
        values: *mut u64,
        values_len: usize,
        count: *mut u64,
    ) -> u64;
}

// Each slice lives through the call, and a slice that is written is lent to nobody else.
impl RangeAnswers for Library {
    fn range(
        &self,
        file: &[u8],
        lower: &Bound,
        upper: &Bound,
        most: usize,
        rows: &mut [u8],
        values: &mut [u64],
    ) -> (u64, u64) {
        let mut count = [u64::max_value()];
        let stop = unsafe {
            oracle_range(
                file.as_ptr(),
                file.len(),
                lower.kind.number(),
                lower.bytes.as_ptr(),
                lower.bytes.len(),
                upper.kind.number(),
                upper.bytes.as_ptr(),
                upper.bytes.len(),
                most,
                rows.as_mut_ptr(),
                rows.len(),
                values.as_mut_ptr(),
                values.len(),
                count.as_mut_ptr(),
            )
        };
        (count[0], stop)
    }
}
