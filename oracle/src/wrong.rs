// Wrong answers, to see that the comparisons notice them: the model, with one slip each. The first four of reading are
// those that document 01 asks to shut out.

use crate::answers::{
    place_number, Answers, At, Meaning, Record, INPUT_ABSENT, NODE_UNSOUND, RECORD, REFUSED, SOUND, SPACE, UNSOUND,
};
use crate::model::{self, Model, Rule, Unsound};

pub struct Wrong {
    pub slip: &'static str,
}

pub const SLIPS: &[&str] = &[
    // tables and numbers
    "an entry of COMMON_INPUTS is another",
    "an entry of COMMON_INPUTS_INV is another",
    "common_idx is used past entry 62",
    "pack_size gives 256 one byte",
    "pack_size gives 0 no byte",
    "unpack_uint takes the highest byte first",
    "unpack_uint takes one byte more",
    // packing
    "the packer copies nothing",
    "the packer writes beyond the node",
    "the packer spells common inputs out past entry 61",
    "a buffer exactly long enough is refused",
    "a buffer one byte short is taken",
    "a buffer too short is written before the refusal",
    "SPACE comes before RECORD",
    "a refused record's buffer is written",
    "257 transitions are taken",
    "unequal lists are taken",
    "the order of inputs is not tested",
    "F is not tested",
    "target F is taken",
    "target 15 is taken",
    "target 16 is refused",
    "a final output is taken where the node is not final",
    "only flag 1 means final",
    // reading
    "count byte 1 is one transition",
    "index entry 255 is absent among 256 transitions",
    "an absent byte stands after all inputs",
    "an absent byte stands one place low",
    "deltas are measured from the state byte",
    "the common table is used past entry 62",
    "transitions stand last first",
    "the root is not tested",
    "a node of neither is sound",
    "a node of neither is unsound at the root",
    "version 2 has no index",
    "version 1 has an index",
    "the index is not tested",
    "targets from 1 to 15 are sound",
    "the order of stored inputs is not tested",
    "an unsound node lacks the input",
    "a transition past the last is the last",
    "the answer is written for an unsound node",
    "the first byte is one too high",
    "the final output of a node with transitions is 0",
];

impl Wrong {
    pub fn slips(&self, slip: &str) -> bool {
        self.slip == slip
    }

    fn judge(&self, at: At) -> Option<Meaning> {
        let At { file, version, root, addr } = at;
        let index_moved = self.slips("version 2 has no index") && version == 2;
        let index_added = self.slips("version 1 has an index") && version == 1;
        let version = if index_moved {
            1
        } else if index_added {
            2
        } else {
            version
        };
        let root = if self.slips("the root is not tested") && addr > root { addr + 1 } else { root };
        let at = At { file, version, root, addr };
        let judged = match model::judge(at) {
            Err(Unsound::Useless) if self.slips("a node of neither is sound") => model::judge(At { root: addr, ..at }),
            Err(Unsound::TargetBelow16) if self.slips("targets from 1 to 15 are sound") => {
                Ok(Meaning { first: addr, is_final: false, final_output: 0, transitions: Vec::new() })
            }
            Err(Unsound::Order) if self.slips("the order of stored inputs is not tested") => {
                Ok(Meaning { first: addr, is_final: false, final_output: 0, transitions: Vec::new() })
            }
            Err(Unsound::EntryOfAbsent) if self.slips("the index is not tested") => {
                Ok(Meaning { first: addr, is_final: false, final_output: 0, transitions: Vec::new() })
            }
            judged => judged,
        };
        let mut node = judged.ok()?;
        let nothing = !node.is_final && node.transitions.is_empty();
        if self.slips("a node of neither is unsound at the root") && nothing {
            return None;
        }
        if self.slips("count byte 1 is one transition") && node.transitions.len() == 256 {
            node.transitions.truncate(1);
        }
        if self.slips("the common table is used past entry 62") && node.transitions.len() == 1 {
            // the 63rd is taken for the 64th
            node.transitions.iter_mut().filter(|t| t.inp == b'G').for_each(|t| t.inp = b'W');
        }
        if self.slips("deltas are measured from the state byte") {
            let size = addr - node.first;
            node.transitions.iter_mut().filter(|t| t.addr != 0).for_each(|t| t.addr += size);
        }
        if self.slips("transitions stand last first") {
            node.transitions.reverse();
        }
        if self.slips("the first byte is one too high") {
            node.first += 1;
        }
        if self.slips("the final output of a node with transitions is 0") && !node.transitions.is_empty() {
            node.final_output = 0;
        }
        Some(node)
    }
}

impl Answers for Wrong {
    fn pack_size(&self, n: u64) -> u8 {
        match n {
            256 if self.slips("pack_size gives 256 one byte") => 1,
            0 if self.slips("pack_size gives 0 no byte") => 0,
            _ => Model.pack_size(n),
        }
    }

    fn unpack_uint(&self, slice: &[u8], nbytes: usize) -> u64 {
        if self.slips("unpack_uint takes the highest byte first") {
            let reversed: Vec<u8> = slice[..nbytes].iter().rev().copied().collect();
            return Model.unpack_uint(&reversed, nbytes);
        }
        if self.slips("unpack_uint takes one byte more") && nbytes < slice.len().min(8) {
            return Model.unpack_uint(slice, nbytes + 1);
        }
        Model.unpack_uint(slice, nbytes)
    }

    fn common_inputs(&self, i: u8) -> u8 {
        let other = self.slips("an entry of COMMON_INPUTS is another") && i == 255;
        Model.common_inputs(if other { 254 } else { i })
    }

    fn common_inputs_inv(&self, i: u8) -> u8 {
        let other = self.slips("an entry of COMMON_INPUTS_INV is another") && i == 255;
        Model.common_inputs_inv(if other { 254 } else { i })
    }

    fn common_idx(&self, i: u8) -> u8 {
        if self.slips("common_idx is used past entry 62") && i == b'W' {
            return 64;
        }
        Model.common_idx(i)
    }

    fn compile(&self, record: &Record, first: usize, out: &mut [u8]) -> u64 {
        let mut record = record.clone();
        if self.slips("only flag 1 means final") && record.final_flag != 1 {
            record.final_flag = 0;
        }
        let taken = |rule: &Rule| match rule {
            Rule::TooMany => self.slips("257 transitions are taken"),
            Rule::Unequal => self.slips("unequal lists are taken"),
            Rule::Order => {
                self.slips("the order of inputs is not tested")
                    || self.slips("257 transitions are taken") && record.inputs.len() > 256
            }
            Rule::FirstByte => self.slips("F is not tested"),
            Rule::Target => {
                self.slips("target F is taken") && record.targets.contains(&first)
                    || self.slips("target 15 is taken") && record.targets.contains(&15)
            }
            Rule::FinalOutput => self.slips("a final output is taken where the node is not final"),
        };
        let broken = model::broken_rules(&record, first);
        if self.slips("target 16 is refused") && record.targets.contains(&16) {
            return REFUSED + RECORD;
        }
        if !broken.is_empty() {
            if broken.iter().all(taken) {
                return 1;
            }
            if self.slips("SPACE comes before RECORD") && out.is_empty() {
                return REFUSED + SPACE;
            }
            if self.slips("a refused record's buffer is written") && !out.is_empty() {
                out[0] ^= 1;
            }
            return REFUSED + RECORD;
        }
        let mut bytes = model::pack(&record, first);
        if self.slips("the packer spells common inputs out past entry 61") && record.inputs.contains(&b'G') {
            if let Some(state) = bytes.last_mut() {
                if *state >= 128 {
                    *state -= *state % 64;
                }
            }
        }
        if self.slips("a buffer exactly long enough is refused") && bytes.len() == out.len() {
            return REFUSED + SPACE;
        }
        if bytes.len() > out.len() {
            if self.slips("a buffer one byte short is taken") && bytes.len() == out.len() + 1 {
                return bytes.len() as u64;
            }
            if self.slips("a buffer too short is written before the refusal") && !out.is_empty() {
                out[0] ^= 1;
            }
            return REFUSED + SPACE;
        }
        if !self.slips("the packer copies nothing") {
            out[..bytes.len()].copy_from_slice(&bytes);
        }
        if self.slips("the packer writes beyond the node") && out.len() > bytes.len() {
            out[bytes.len()] ^= 1;
        }
        bytes.len() as u64
    }

    fn node(&self, at: At, out: &mut [u64]) -> u64 {
        match self.judge(at) {
            Some(node) => {
                if out.len() >= 4 {
                    out[0] = node.first as u64;
                    out[1] = node.is_final as u64;
                    out[2] = node.final_output;
                    out[3] = node.transitions.len() as u64;
                }
                SOUND
            }
            None => {
                if self.slips("the answer is written for an unsound node") {
                    out[0] = 0;
                }
                UNSOUND
            }
        }
    }

    fn transition(&self, at: At, i: usize, out: &mut [u64]) -> u64 {
        let node = match self.judge(at) {
            Some(node) => node,
            None => return 0,
        };
        let n = node.transitions.len();
        let i = if self.slips("a transition past the last is the last") && i == n && n > 0 { n - 1 } else { i };
        if i < n && out.len() >= 3 {
            let t = node.transitions[i];
            out[0] = u64::from(t.inp);
            out[1] = t.out;
            out[2] = t.addr as u64;
            1
        } else {
            0
        }
    }

    fn find_input(&self, at: At, b: u8) -> u64 {
        match self.judge(at) {
            Some(node) => match model::find_input(&node, b) {
                Ok(255) if self.slips("index entry 255 is absent among 256 transitions") => INPUT_ABSENT,
                Err(_) if self.slips("an absent byte stands after all inputs") => {
                    INPUT_ABSENT + node.transitions.len() as u64
                }
                Err(place) if self.slips("an absent byte stands one place low") && place > 0 => {
                    INPUT_ABSENT + place as u64 - 1
                }
                place => place_number(place),
            },
            None if self.slips("an unsound node lacks the input") => INPUT_ABSENT,
            None => NODE_UNSOUND,
        }
    }
}
