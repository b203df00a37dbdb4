// Our static library, target/staticlib/liboracle_pack.a (crate `oracle_pack`): its exported function, and a safe function over it. A slice is
// passed as its pointer and then its length.

use crate::model_pack::{Cell, PackAnswers};
use crate::ours::Library;

#[link(name = "oracle_pack", kind = "static")]
extern "C" {
    fn oracle_pack(
        limit: u32,
        list: *const u8,
        list_len: usize,
        out: *mut u8,
        out_len: usize,
        cells: *mut Cell,
        cells_len: usize,
        inputs: *mut u8,
        inputs_len: usize,
        leasts: *mut u64,
        leasts_len: usize,
        targets: *mut usize,
        targets_len: usize,
    ) -> u64;
}

// Each slice lives through the call, and a slice that is written is lent to nobody else.
impl PackAnswers for Library {
    fn pack(
        &self,
        limit: u32,
        list: &[u8],
        out: &mut [u8],
        cells: &mut [Cell],
        inputs: &mut [u8],
        leasts: &mut [u64],
        targets: &mut [usize],
    ) -> u64 {
        unsafe {
            oracle_pack(
                limit,
                list.as_ptr(),
                list.len(),
                out.as_mut_ptr(),
                out.len(),
                cells.as_mut_ptr(),
                cells.len(),
                inputs.as_mut_ptr(),
                inputs.len(),
                leasts.as_mut_ptr(),
                leasts.len(),
                targets.as_mut_ptr(),
                targets.len(),
            )
        }
    }
}
