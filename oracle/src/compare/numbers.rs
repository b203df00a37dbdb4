// The two tables, and numbers in the sizes that hold them.

use super::{same, Checked, Run, NUMBERS};
use crate::generate;
use crate::given;
use crate::model;

const SIZES: [&str; 8] = [
    "numbers of 1 byte",
    "numbers of 2 bytes",
    "numbers of 3 bytes",
    "numbers of 4 bytes",
    "numbers of 5 bytes",
    "numbers of 6 bytes",
    "numbers of 7 bytes",
    "numbers of 8 bytes",
];

impl<'a> Run<'a> {
    pub fn tables(&mut self) -> Checked {
        for i in 0..=255u8 {
            let input = || format!("byte {}", i);
            let place = given::common_inputs_inv(given::common_inputs(i));
            same("the Rust's tables do not undo each other", input, ("byte", i), ("read back", place))?;
            let place = given::common_inputs(given::common_inputs_inv(i));
            same("the Rust's tables do not undo each other", input, ("place", i), ("read back", place))?;
            let (next, one) = given::common_idx(i);
            let modelled = model::common_idx(i);
            same("common_idx", input, ("the Rust, form 11", next), ("model", modelled))?;
            same("common_idx", input, ("the Rust, form 10", one), ("model", modelled))?;
            if let Some(ours) = self.ours {
                same("COMMON_INPUTS", input, ("the Rust", given::common_inputs(i)), ("ours", ours.common_inputs(i)))?;
                same(
                    "COMMON_INPUTS_INV",
                    input,
                    ("the Rust", given::common_inputs_inv(i)),
                    ("ours", ours.common_inputs_inv(i)),
                )?;
                same("common_idx", input, ("the Rust", next), ("ours", ours.common_idx(i)))?;
            }
            self.count("bytes, in both tables and common_idx");
        }
        Ok(())
    }

    pub fn numbers(&mut self) -> Checked {
        let mut boundaries = vec![0, u64::max_value()];
        for size in 1..=8 {
            let largest = generate::largest(size);
            boundaries.extend(&[largest - 1, largest, largest.wrapping_add(1), largest.wrapping_add(2)]);
        }
        for &n in &boundaries {
            self.number(n)?;
        }
        for _ in 0..NUMBERS / self.one_in {
            // every bit length
            let n = self.prng.next() >> self.prng.below(64);
            self.number(n)?;
        }
        self.weights()?;
        self.require(&SIZES, 1_000)
    }

    // Each byte with its weight: every byte alone at each place, and the rows that a wrong weight would show in, with bytes after the
    // number that must not count.
    fn weights(&mut self) -> Checked {
        for place in 0..8 {
            for byte in 0..=255u8 {
                let mut stored = [0u8; 8];
                stored[place] = byte;
                for nbytes in place + 1..=8 {
                    self.unpacked(&stored, nbytes)?;
                }
            }
        }
        for nbytes in 1..=8 {
            for after in &[0u8, 255] {
                let mut stored = [*after; 11];
                let rows: [fn(usize, usize) -> u8; 5] =
                    [|_, _| 0, |_, _| 255, |i, n| u8::from(i + 1 == n), |i, _| u8::from(i == 0), |i, _| i as u8 + 1];
                for row in &rows {
                    for (i, byte) in stored[..nbytes].iter_mut().enumerate() {
                        *byte = row(i, nbytes);
                    }
                    self.unpacked(&stored, nbytes)?;
                }
            }
        }
        Ok(())
    }

    fn unpacked(&mut self, stored: &[u8], nbytes: usize) -> Checked {
        let input = || format!("{} bytes of {:02x?}", nbytes, stored);
        let read = given::unpack_uint(stored, nbytes);
        same("unpack_uint", input, ("the Rust", read), ("model", model::number(&stored[..nbytes])))?;
        if let Some(ours) = self.ours {
            same("unpack_uint", input, ("the Rust", read), ("ours", ours.unpack_uint(stored, nbytes)))?;
            // no bytes are 0; the Rust asserts that there is one
            same("unpack_uint of no bytes", input, ("model", 0), ("ours", ours.unpack_uint(stored, 0)))?;
        }
        self.count("unpack_uint");
        Ok(())
    }

    fn number(&mut self, n: u64) -> Checked {
        let input = || format!("{}", n);
        let size = given::pack_size(n);
        same("pack_size", input, ("the Rust", size), ("model", model::size_of(n) as u8))?;
        if let Some(ours) = self.ours {
            same("pack_size", input, ("the Rust", size), ("ours", ours.pack_size(n)))?;
        }
        self.count("pack_size");
        self.count(SIZES[usize::from(size) - 1]);

        // the number in each size that holds it, with bytes after it
        for nbytes in usize::from(size)..=8 {
            let mut stored = given::pack_uint_in(n, nbytes);
            for _ in 0..self.prng.below(4) {
                stored.push(self.prng.byte());
            }
            let input = || format!("{} bytes of {:02x?}", nbytes, stored);
            same("unpack_uint", input, ("packed", n), ("the Rust", given::unpack_uint(&stored, nbytes)))?;
            self.unpacked(&stored, nbytes)?;
        }
        Ok(())
    }
}
