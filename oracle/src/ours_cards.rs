// Our static library, target/staticlib/liboracle_cards.a (crate `oracle_cards`): its exported function, and a safe function over it. A slice is passed as
// its pointer and then its length, an array as its pointer.

use crate::answers::{Held, BOUND_BYTES, LEVELS};
use crate::model_cards::{CardAnswers, HeldCards, Pairs};
use crate::model_ops::{Op, MOST_FILES};
use crate::ours::Library;

#[link(name = "oracle_cards", kind = "static")]
extern "C" {
    fn oracle_next_item(
        op: u64,
        count: usize,
        a: *const u8,
        a_len: usize,
        b: *const u8,
        b_len: usize,
        c: *const u8,
        c_len: usize,
        d: *const u8,
        d_len: usize,
        e: *const u8,
        e_len: usize,
        f: *const u8,
        f_len: usize,
        g: *const u8,
        g_len: usize,
        h: *const u8,
        h_len: usize,
        slots: *mut u8,
        values: *mut u64,
        heads: *mut [u64; 7],
        bounds: *mut [u8; BOUND_BYTES],
        addrs: *mut [u32; LEVELS],
        inps: *mut [u8; LEVELS],
        trans: *mut [u16; LEVELS],
        outs: *mut [u64; LEVELS],
        keys: *mut u64,
        key: *mut u8,
        key_len: usize,
        pairs: *mut usize,
        pair_files: *mut u8,
        pair_values: *mut u64,
    ) -> u64;
}

fn column<T>(readings: &[Held], of: impl Fn(&Held) -> T) -> Vec<T> {
    readings.iter().map(of).collect()
}

// Each slice and array lives through the call, and one that is written is lent to nobody else.
impl CardAnswers for Library {
    fn next_item(
        &self,
        op: Op,
        count: usize,
        files: &[&[u8]; MOST_FILES],
        held: &mut HeldCards,
        key: &mut [u8],
    ) -> (u64, Pairs) {
        let mut heads = column(&held.readings, |r| r.head);
        let mut bounds = column(&held.readings, |r| r.bound);
        let mut addrs = column(&held.readings, |r| r.addrs);
        let mut inps = column(&held.readings, |r| r.inps);
        let mut trans = column(&held.readings, |r| r.places);
        let mut outs = column(&held.readings, |r| r.sums);
        let mut keys = column(&held.readings, |r| r.keys[0]);
        let mut pairs = Pairs { count: 7, files: [7; MOST_FILES], values: [7; MOST_FILES] };
        let f = |i: usize| files[i].as_ptr();
        let n = |i: usize| files[i].len();
        let answer = unsafe {
            oracle_next_item(
                op as u64,
                count,
                f(0),
                n(0),
                f(1),
                n(1),
                f(2),
                n(2),
                f(3),
                n(3),
                f(4),
                n(4),
                f(5),
                n(5),
                f(6),
                n(6),
                f(7),
                n(7),
                held.slots.as_mut_ptr(),
                held.values.as_mut_ptr(),
                heads.as_mut_ptr(),
                bounds.as_mut_ptr(),
                addrs.as_mut_ptr(),
                inps.as_mut_ptr(),
                trans.as_mut_ptr(),
                outs.as_mut_ptr(),
                keys.as_mut_ptr(),
                key.as_mut_ptr(),
                key.len(),
                &mut pairs.count,
                pairs.files.as_mut_ptr(),
                pairs.values.as_mut_ptr(),
            )
        };
        for i in 0..MOST_FILES {
            held.readings[i] = Held {
                head: heads[i],
                bound: bounds[i],
                addrs: addrs[i],
                inps: inps[i],
                places: trans[i],
                sums: outs[i],
                keys: [keys[i]],
            };
        }
        (answer, pairs)
    }
}
