// The model's conversions with one slip each, which the comparison is to notice.

use crate::answers::{ConvertAnswers, LARGE, REFUSED, SPACE};
use crate::model::MAX_LEN;
use crate::model_convert::{convert_with, Converted, EDITION};
use crate::model_file;

pub const SLIPS: &[&str] = &[
    "convert: a node that vanishes is kept",
    "convert: targets are not mapped",
    "convert: unreached nodes are left out",
    "convert: the root vanishes and the nodes stay",
    "convert: SPACE comes before LARGE",
    "convert: the table is changed on SPACE",
    "convert: the sums are left as scratch",
    "convert: the depths are left as marks",
    "convert: the output is zeroed on a refusal",
    "convert: the output beyond the file is zeroed",
    "convert: the table is not zeroed off the chain",
    "convert: EDITION comes before the nodes are judged",
];

pub struct WrongConvert {
    pub slip: &'static str,
}

impl WrongConvert {
    fn has(&self, slip: &str) -> bool {
        self.slip.ends_with(slip)
    }

    fn refuse(&self, why: u64, out: &mut [u8]) -> u64 {
        if self.has("zeroed on a refusal") {
            out.iter_mut().for_each(|b| *b = 0);
        }
        REFUSED + why
    }

    // The new file and the table, where nothing is refused.
    fn write(&self, new: &Converted, sums: &mut [u64], out: &mut [u8], table: &mut [u32]) {
        let n = new.file.len();
        out[..n].copy_from_slice(&new.file);
        if self.has("beyond the file is zeroed") {
            out[n..].iter_mut().for_each(|b| *b = 0);
        }
        for (a, &to) in new.table.iter().enumerate() {
            if to != 0 || !self.has("not zeroed off the chain") {
                table[a] = to;
            }
            if to != 0 && self.has("left as scratch") {
                sums[a] = u64::from(to);
            }
        }
    }
}

impl ConvertAnswers for WrongConvert {
    fn convert(
        &self,
        file: &[u8],
        limit: u32,
        depths: &mut [u16],
        sums: &mut [u64],
        out: &mut [u8],
        table: &mut [u32],
    ) -> u64 {
        let meta = match model_file::open(file) {
            Ok(meta) => meta,
            Err(why) => return REFUSED + why,
        };
        if depths.len() < file.len() || sums.len() < file.len() {
            return REFUSED + SPACE;
        }
        let judged = model_file::admitted(file);
        model_file::fill(file.len(), &judged, depths, sums);
        if self.has("before the nodes are judged") && meta.version != 1 {
            return REFUSED + EDITION;
        }
        let new = match convert_with(file, MAX_LEN, self.slip) {
            Ok(new) => new,
            Err(why) => return self.refuse(why, out),
        };
        let large = new.file.len() > limit as usize;
        let short = out.len() < new.file.len() || table.len() < file.len();
        if large && !(short && self.has("SPACE comes before LARGE")) {
            return self.refuse(LARGE, out);
        }
        if short {
            if self.has("changed on SPACE") {
                table.iter_mut().take(file.len()).for_each(|entry| *entry = 0);
            }
            return self.refuse(SPACE, out);
        }
        self.write(&new, sums, out, table);
        if self.has("left as marks") {
            let chain = judged.map(|found| found.chain).unwrap_or_default();
            chain.iter().for_each(|(addr, _, _)| depths[*addr] = 1);
        }
        new.file.len() as u64
    }
}
