// Our static library, target/staticlib/liboracle_convert.a (crate `oracle_convert`): its exported function, and a safe function over it. A
// slice is passed as its pointer and then its length.

use crate::answers::ConvertAnswers;
use crate::ours::Library;

#[link(name = "oracle_convert", kind = "static")]
extern "C" {
    fn oracle_convert(
        file: *const u8,
        file_len: usize,
        limit: u32,
        depths: *mut u16,
        depths_len: usize,
        sums: *mut u64,
        sums_len: usize,
        out: *mut u8,
        out_len: usize,
        table: *mut u32,
        table_len: usize,
    ) -> u64;
}

// Each slice lives through the call, and a slice that is written is lent to nobody else.
impl ConvertAnswers for Library {
    fn convert(
        &self,
        file: &[u8],
        limit: u32,
        depths: &mut [u16],
        sums: &mut [u64],
        out: &mut [u8],
        table: &mut [u32],
    ) -> u64 {
        unsafe {
            oracle_convert(
                file.as_ptr(),
                file.len(),
                limit,
                depths.as_mut_ptr(),
                depths.len(),
                sums.as_mut_ptr(),
                sums.len(),
                out.as_mut_ptr(),
                out.len(),
                table.as_mut_ptr(),
                table.len(),
            )
        }
    }
}
