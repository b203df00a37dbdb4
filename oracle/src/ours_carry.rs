// Our static library, target/staticlib/liboracle_carry.a (crate `oracle_carry`): its exported functions, and a safe function over both. A slice is
// passed as its pointer and then its length, an array as its pointer.

use crate::answers::Held;
use crate::model_carry::CarryAnswers;
use crate::ours::Library;

#[link(name = "oracle_carry", kind = "static")]
extern "C" {
    fn oracle_carry(
        old: *const u8,
        old_len: usize,
        new: *const u8,
        new_len: usize,
        head: *mut u64,
        bound: *mut u8,
        addrs: *mut u32,
        inps: *mut u8,
        places: *mut u16,
        sums: *mut u64,
        keys: u64,
    ) -> u64;

    fn oracle_carry_by(
        old: *const u8,
        old_len: usize,
        new: *const u8,
        new_len: usize,
        len: usize,
        head: *mut u64,
        bound: *mut u8,
        addrs: *mut u32,
        inps: *mut u8,
        places: *mut u16,
        sums: *mut u64,
    ) -> u64;
}

// Each slice and array lives through the call, and one that is written is lent to nobody else.
impl CarryAnswers for Library {
    fn carry(&self, old: &[u8], new: &[u8], positions: Option<usize>, held: &mut Held) -> u64 {
        let (old_at, new_at) = (old.as_ptr(), new.as_ptr());
        let (head, bound, addrs) = (held.head.as_mut_ptr(), held.bound.as_mut_ptr(), held.addrs.as_mut_ptr());
        let (inps, places, sums) = (held.inps.as_mut_ptr(), held.places.as_mut_ptr(), held.sums.as_mut_ptr());
        unsafe {
            match positions {
                None => oracle_carry(
                    old_at,
                    old.len(),
                    new_at,
                    new.len(),
                    head,
                    bound,
                    addrs,
                    inps,
                    places,
                    sums,
                    held.keys[0],
                ),
                Some(n) => {
                    oracle_carry_by(old_at, old.len(), new_at, new.len(), n, head, bound, addrs, inps, places, sums)
                }
            }
        }
    }
}
