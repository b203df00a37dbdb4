// Conversion by document 02 (N7), in plain Rust: an admitted version 1 file packed again, node by node from the lowest up.

use std::collections::HashMap;

use crate::answers::{Meaning, Record, LARGE};
use crate::builder;
use crate::model::{self, FIRST_NODE};
use crate::model_file;

pub const EDITION: u64 = 15;

// The new file, and the table of new addresses, an entry for each byte of the old one.
#[derive(Debug)]
pub struct Converted {
    pub file: Vec<u8>,
    pub table: Vec<u32>,
}

pub fn vanishes(node: &Meaning) -> bool {
    node.is_final && node.transitions.is_empty() && node.final_output == 0
}

// A node's record, with each target replaced.
pub fn record(node: &Meaning, moved: &HashMap<usize, usize>) -> Record {
    Record {
        final_flag: node.is_final as u8,
        final_output: node.final_output,
        inputs: node.transitions.iter().map(|t| t.inp).collect(),
        outputs: node.transitions.iter().map(|t| t.out).collect(),
        targets: node.transitions.iter().map(|t| moved.get(&t.addr).copied().unwrap_or(0)).collect(),
    }
}

// The new file, or admission's refusal, then EDITION, then LARGE where it has more bytes than the limit.
pub fn convert(file: &[u8], limit: usize) -> Result<Converted, u64> {
    convert_with(file, limit, "")
}

// The same with a slip of the self-test (wrong_convert.rs).
pub fn convert_with(file: &[u8], limit: usize, slip: &str) -> Result<Converted, u64> {
    let found = model_file::admitted(file)?;
    if found.meta.version != 1 {
        return Err(EDITION);
    }
    let mut new = 2u64.to_le_bytes().to_vec();
    new.extend(&found.meta.ty.to_le_bytes());
    let mut moved = HashMap::new();
    let root_stays = match found.chain.first() {
        None => false,
        Some((_, node, _)) => !vanishes(node) || slip.ends_with("the root vanishes and the nodes stay"),
    };
    if root_stays {
        for (addr, node, _) in found.chain.iter().rev() {
            if vanishes(node) && !slip.ends_with("a node that vanishes is kept") {
                continue;
            }
            if slip.ends_with("unreached nodes are left out") && !found.reached.contains(addr) {
                continue;
            }
            assert!(new.len() >= FIRST_NODE);
            let mut new_record = record(node, &moved);
            if slip.ends_with("targets are not mapped") {
                // as far as the packer takes them
                for (target, t) in new_record.targets.iter_mut().zip(&node.transitions) {
                    *target = if t.addr < new.len() { t.addr } else { *target };
                }
            }
            let bytes = model::pack(&new_record, new.len());
            new.extend(bytes);
            moved.insert(*addr, new.len() - 1);
        }
    }
    let root = moved.get(&found.meta.root).copied().unwrap_or(0);
    let new = builder::whole(new, found.meta.len, root, 0);
    if new.len() > limit {
        return Err(LARGE);
    }
    let table = (0..file.len()).map(|a| moved.get(&a).copied().unwrap_or(0) as u32).collect();
    Ok(Converted { file: new, table })
}
