// Our static library, target/staticlib/liboracle_fst.a (crate `oracle_fst`): its exported functions, and a safe function
// over each. A slice is passed as its pointer and then its length.

use crate::answers::FileAnswers;
use crate::ours::Library;

#[link(name = "oracle_fst", kind = "static")]
extern "C" {
    fn oracle_open(file: *const u8, file_len: usize, out: *mut u64, out_len: usize) -> u64;

    fn oracle_admit(
        file: *const u8,
        file_len: usize,
        depths: *mut u16,
        depths_len: usize,
        sums: *mut u64,
        sums_len: usize,
    ) -> u64;

    fn oracle_count_keys(
        file: *const u8,
        file_len: usize,
        depths: *mut u16,
        depths_len: usize,
        sums: *mut u64,
        sums_len: usize,
        counts: *mut u64,
        counts_len: usize,
    ) -> u64;

    fn oracle_get(
        file: *const u8,
        file_len: usize,
        key: *const u8,
        key_len: usize,
        out: *mut u64,
        out_len: usize,
    ) -> u64;

    fn oracle_get_key(file: *const u8, file_len: usize, value: u64, key: *mut u8, key_len: usize) -> u64;
}

// Each slice lives through the call, and a slice that is written is lent to nobody else.
impl FileAnswers for Library {
    fn open(&self, file: &[u8], out: &mut [u64]) -> u64 {
        unsafe { oracle_open(file.as_ptr(), file.len(), out.as_mut_ptr(), out.len()) }
    }

    fn admit(&self, file: &[u8], depths: &mut [u16], sums: &mut [u64]) -> u64 {
        unsafe {
            oracle_admit(file.as_ptr(), file.len(), depths.as_mut_ptr(), depths.len(), sums.as_mut_ptr(), sums.len())
        }
    }

    fn count_keys(&self, file: &[u8], depths: &mut [u16], sums: &mut [u64], counts: &mut [u64]) -> u64 {
        unsafe {
            oracle_count_keys(
                file.as_ptr(),
                file.len(),
                depths.as_mut_ptr(),
                depths.len(),
                sums.as_mut_ptr(),
                sums.len(),
                counts.as_mut_ptr(),
                counts.len(),
            )
        }
    }

    fn get(&self, file: &[u8], key: &[u8], out: &mut [u64]) -> u64 {
        unsafe { oracle_get(file.as_ptr(), file.len(), key.as_ptr(), key.len(), out.as_mut_ptr(), out.len()) }
    }

    fn get_key(&self, file: &[u8], value: u64, key: &mut [u8]) -> u64 {
        unsafe { oracle_get_key(file.as_ptr(), file.len(), value, key.as_mut_ptr(), key.len()) }
    }
}
