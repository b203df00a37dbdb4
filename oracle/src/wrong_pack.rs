// Wrong answers of packing a list, to see that the comparison notices them: the model, with one slip each.

use crate::answers::REFUSED;
use crate::model_pack::{self, Cell, PackAnswers, EMPTY, TABLE};
use crate::wrong::Wrong;

// Those that the model makes itself, and those of what is left behind.
pub const SLIPS: &[&str] = &[
    "a key of 256 bytes is taken",
    "equal keys are taken",
    "outputs are not pushed",
    "the final output is left out of the hash",
    "the row is by the number of cells",
    "equal hashes are equal nodes",
    "the second cell stays second",
    "LARGE comes before SPACE",
    "cells are kept after a refusal",
    "the output is kept after a refusal",
    "the output beyond the file is kept",
    "a working table is kept",
    "a working table one entry short is taken",
    "one cell is taken",
];

impl PackAnswers for Wrong {
    fn pack(
        &self,
        limit: u32,
        list: &[u8],
        out: &mut [u8],
        cells: &mut [Cell],
        inputs: &mut [u8],
        leasts: &mut [u64],
        targets: &mut [usize],
    ) -> u64 {
        let (n, least) = match self.slip {
            "one cell is taken" => (cells.len().max(2), TABLE),
            "a working table one entry short is taken" => (cells.len(), TABLE - 1),
            _ => (cells.len(), TABLE),
        };
        let tables = inputs.len() >= least && leasts.len() >= least && targets.len() >= least;
        let done = model_pack::pack_with(list, out.len(), n, tables, limit as usize, self.slip);
        inputs.iter_mut().for_each(|n| *n = 0);
        leasts.iter_mut().for_each(|n| *n = 0);
        if self.slip != "a working table is kept" {
            targets.iter_mut().for_each(|n| *n = 0);
        }
        match done {
            Ok(done) => {
                let (front, beyond) = out.split_at_mut(done.file.len());
                front.copy_from_slice(&done.file);
                if self.slip != "the output beyond the file is kept" {
                    beyond.iter_mut().for_each(|b| *b = 0);
                }
                for (cell, new) in cells.iter_mut().zip(&done.cells) {
                    *cell = *new;
                }
                done.file.len() as u64
            }
            Err(why) => {
                if self.slip != "the output is kept after a refusal" {
                    out.iter_mut().for_each(|b| *b = 0);
                }
                if self.slip != "cells are kept after a refusal" {
                    cells.iter_mut().for_each(|cell| *cell = EMPTY);
                }
                REFUSED + why
            }
        }
    }
}
