// Our static libraries of readings, target/staticlib/liboracle_stream_c.a and liboracle_pattern.a (crates `oracle_stream_c` and `oracle_pattern`): their
// exported functions, and a safe function over each. A slice is passed as its pointer and then its length, an array as its pointer.

use crate::answers::{Bound, Held, Pattern, ReadingAnswers, POSITIONS};
use crate::ours::Library;

#[link(name = "oracle_stream_c", kind = "static")]
extern "C" {
    fn oracle_start(
        file: *const u8,
        file_len: usize,
        lower_kind: u64,
        lower: *const u8,
        lower_len: usize,
        upper_kind: u64,
        upper: *const u8,
        upper_len: usize,
        counts: *const u64,
        counts_len: usize,
        head: *mut u64,
        bound: *mut u8,
        addrs: *mut u32,
        inps: *mut u8,
        places: *mut u16,
        sums: *mut u64,
        keys: *mut u64,
    ) -> u64;

    fn oracle_next(
        file: *const u8,
        file_len: usize,
        head: *mut u64,
        bound: *mut u8,
        addrs: *mut u32,
        inps: *mut u8,
        places: *mut u16,
        sums: *mut u64,
        keys: *mut u64,
        key: *mut u8,
        key_len: usize,
        value: *mut u64,
    ) -> u64;

    fn oracle_keys(
        file: *const u8,
        file_len: usize,
        lower_kind: u64,
        lower: *const u8,
        lower_len: usize,
        upper_kind: u64,
        upper: *const u8,
        upper_len: usize,
        counts: *const u64,
        counts_len: usize,
        most: u64,
        key: *mut u8,
        key_len: usize,
    ) -> u64;

    fn oracle_bare_keys(
        file: *const u8,
        file_len: usize,
        lower_kind: u64,
        lower: *const u8,
        lower_len: usize,
        upper_kind: u64,
        upper: *const u8,
        upper_len: usize,
        most: u64,
        key: *mut u8,
        key_len: usize,
    ) -> u64;
}

#[link(name = "oracle_pattern", kind = "static")]
extern "C" {
    fn oracle_start_by(
        file: *const u8,
        file_len: usize,
        positions: *const u16,
        positions_len: usize,
        rest: u64,
        lower_kind: u64,
        lower: *const u8,
        lower_len: usize,
        upper_kind: u64,
        upper: *const u8,
        upper_len: usize,
        head: *mut u64,
        bound: *mut u8,
        addrs: *mut u32,
        inps: *mut u8,
        places: *mut u16,
        sums: *mut u64,
    ) -> u64;

    fn oracle_next_by(
        file: *const u8,
        file_len: usize,
        pattern: *const u64,
        positions: *const u16,
        head: *mut u64,
        bound: *mut u8,
        addrs: *mut u32,
        inps: *mut u8,
        places: *mut u16,
        sums: *mut u64,
        key: *mut u8,
        key_len: usize,
        value: *mut u64,
    ) -> u64;
}

// Each slice and array lives through the call, and one that is written is lent to nobody else.
impl ReadingAnswers for Library {
    fn start(&self, file: &[u8], lower: &Bound, upper: &Bound, counts: &[u64], held: &mut Held) -> u64 {
        unsafe {
            oracle_start(
                file.as_ptr(),
                file.len(),
                lower.kind.number(),
                lower.bytes.as_ptr(),
                lower.bytes.len(),
                upper.kind.number(),
                upper.bytes.as_ptr(),
                upper.bytes.len(),
                counts.as_ptr(),
                counts.len(),
                held.head.as_mut_ptr(),
                held.bound.as_mut_ptr(),
                held.addrs.as_mut_ptr(),
                held.inps.as_mut_ptr(),
                held.places.as_mut_ptr(),
                held.sums.as_mut_ptr(),
                held.keys.as_mut_ptr(),
            )
        }
    }

    fn next(&self, file: &[u8], held: &mut Held, key: &mut [u8], value: &mut [u64; 1]) -> u64 {
        unsafe {
            oracle_next(
                file.as_ptr(),
                file.len(),
                held.head.as_mut_ptr(),
                held.bound.as_mut_ptr(),
                held.addrs.as_mut_ptr(),
                held.inps.as_mut_ptr(),
                held.places.as_mut_ptr(),
                held.sums.as_mut_ptr(),
                held.keys.as_mut_ptr(),
                key.as_mut_ptr(),
                key.len(),
                value.as_mut_ptr(),
            )
        }
    }

    fn start_by(&self, file: &[u8], pattern: &Pattern, lower: &Bound, upper: &Bound, held: &mut Held) -> u64 {
        unsafe {
            oracle_start_by(
                file.as_ptr(),
                file.len(),
                pattern.positions.as_ptr(),
                pattern.positions.len(),
                u64::from(pattern.rest),
                lower.kind.number(),
                lower.bytes.as_ptr(),
                lower.bytes.len(),
                upper.kind.number(),
                upper.bytes.as_ptr(),
                upper.bytes.len(),
                held.head.as_mut_ptr(),
                held.bound.as_mut_ptr(),
                held.addrs.as_mut_ptr(),
                held.inps.as_mut_ptr(),
                held.places.as_mut_ptr(),
                held.sums.as_mut_ptr(),
            )
        }
    }

    fn next_by(&self, file: &[u8], pattern: &Pattern, held: &mut Held, key: &mut [u8], value: &mut [u64; 1]) -> u64 {
        // entries past the positions carry no meaning
        let mut positions = [value[0] as u16; POSITIONS];
        let n = pattern.positions.len().min(POSITIONS);
        positions[..n].copy_from_slice(&pattern.positions[..n]);
        let lens = [pattern.positions.len() as u64, u64::from(pattern.rest)];
        unsafe {
            oracle_next_by(
                file.as_ptr(),
                file.len(),
                lens.as_ptr(),
                positions.as_ptr(),
                held.head.as_mut_ptr(),
                held.bound.as_mut_ptr(),
                held.addrs.as_mut_ptr(),
                held.inps.as_mut_ptr(),
                held.places.as_mut_ptr(),
                held.sums.as_mut_ptr(),
                key.as_mut_ptr(),
                key.len(),
                value.as_mut_ptr(),
            )
        }
    }

    fn keys(&self, file: &[u8], lower: &Bound, upper: &Bound, counts: &[u64], most: u64, key: &mut [u8]) -> u64 {
        unsafe {
            oracle_keys(
                file.as_ptr(),
                file.len(),
                lower.kind.number(),
                lower.bytes.as_ptr(),
                lower.bytes.len(),
                upper.kind.number(),
                upper.bytes.as_ptr(),
                upper.bytes.len(),
                counts.as_ptr(),
                counts.len(),
                most,
                key.as_mut_ptr(),
                key.len(),
            )
        }
    }

    fn bare_keys(&self, file: &[u8], lower: &Bound, upper: &Bound, most: u64, key: &mut [u8]) -> u64 {
        unsafe {
            oracle_bare_keys(
                file.as_ptr(),
                file.len(),
                lower.kind.number(),
                lower.bytes.as_ptr(),
                lower.bytes.len(),
                upper.kind.number(),
                upper.bytes.as_ptr(),
                upper.bytes.len(),
                most,
                key.as_mut_ptr(),
                key.len(),
            )
        }
    }
}
