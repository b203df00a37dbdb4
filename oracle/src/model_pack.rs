// Packing a list by document 02 (N4), in plain Rust: the list, the nodes in the order in which they are finished, and the cells. The nodes are
// found by splitting the sorted pairs byte by byte; who stores them is handed in, so the Rust's `Registry` can do it too.

use std::collections::HashMap;

use crate::answers::{Record, LARGE, SPACE};
use crate::builder;
use crate::model;

pub const LIST: u64 = 13;
// Each working table has so many entries.
pub const TABLE: usize = 65_536;

pub type Pairs = Vec<(Vec<u8>, u64)>;
// An address and a hash.
pub type Cell = [u64; 2];
pub const EMPTY: Cell = [1, 0];

// One who packs a list: our library.
pub trait PackAnswers {
    // The file's length, with the file at the front of `out` and zeros after it, or REFUSED plus a refusal; the three tables are zeros
    // afterwards.
    fn pack(
        &self,
        limit: u32,
        list: &[u8],
        out: &mut [u8],
        cells: &mut [Cell],
        inputs: &mut [u8],
        leasts: &mut [u64],
        targets: &mut [usize],
    ) -> u64;
}

// ---- the list

// The bytes of a list of these pairs, in whatever order they stand.
pub fn list(pairs: &[(Vec<u8>, u64)]) -> Vec<u8> {
    let total: usize = pairs.iter().map(|(key, _)| key.len()).sum();
    let mut bytes = (pairs.len() as u32).to_le_bytes().to_vec();
    bytes.extend(&(total as u32).to_le_bytes());
    let mut end = 0;
    for (key, _) in pairs {
        end += key.len();
        bytes.extend(&(end as u32).to_le_bytes());
    }
    for (_, value) in pairs {
        bytes.extend(&value.to_le_bytes());
    }
    for (key, _) in pairs {
        bytes.extend(key);
    }
    bytes
}

// The pairs of a list, or LIST.
pub fn pairs(list: &[u8]) -> Result<Pairs, u64> {
    pairs_with(list, "")
}

// The same with a slip (wrong_pack.rs).
pub fn pairs_with(list: &[u8], slip: &str) -> Result<Pairs, u64> {
    let number = |at: usize, n: usize| model::number(&list[at..at + n]) as usize;
    if list.len() < 8 {
        return Err(LIST);
    }
    let (n, total) = (number(0, 4), number(4, 4));
    if list.len() != 8 + 12 * n + total {
        return Err(LIST);
    }
    let keys = &list[8 + 12 * n..];
    let (mut pairs, mut last) = (Pairs::new(), 0);
    for i in 0..n {
        let end = number(8 + 4 * i, 4);
        // an end past the total is one that falls, or a last end that is not the total
        if end < last || end > total || end - last > if slip == "a key of 256 bytes is taken" { 256 } else { 255 } {
            return Err(LIST);
        }
        pairs.push((keys[last..end].to_vec(), model::number(&list[8 + 4 * n + 8 * i..][..8])));
        last = end;
    }
    let ascend =
        pairs.windows(2).all(|two| two[0].0 < two[1].0 || slip == "equal keys are taken" && two[0].0 == two[1].0);
    if last == total && ascend {
        pairs.dedup_by(|one, other| one.0 == other.0);
        Ok(pairs)
    } else {
        Err(LIST)
    }
}

// ---- the nodes

// The address of the node below which these pairs stand, whose keys have their first `depth` bytes in common; outputs are counted from `base`.
fn node(
    pairs: &[(Vec<u8>, u64)],
    depth: usize,
    base: u64,
    slip: &str,
    store: &mut dyn FnMut(Record) -> usize,
) -> usize {
    let mut record =
        Record { final_flag: 0, final_output: 0, inputs: Vec::new(), outputs: Vec::new(), targets: Vec::new() };
    let mut rest = pairs;
    if let Some((key, value)) = rest.first() {
        if key.len() == depth {
            record.final_flag = 1;
            record.final_output = value - base;
            rest = &rest[1..];
        }
    }
    while let Some((key, _)) = rest.first() {
        let input = key[depth];
        let n = rest.iter().take_while(|(key, _)| key[depth] == input).count();
        let mut least = rest[..n].iter().map(|&(_, value)| value).min().expect("there is one");
        if slip == "outputs are not pushed" {
            least = base;
        }
        let target = node(&rest[..n], depth + 1, least, slip, store);
        record.inputs.push(input);
        record.outputs.push(least - base);
        record.targets.push(target);
        rest = &rest[n..];
    }
    store(record)
}

pub fn is_empty_final(record: &Record) -> bool {
    record.final_flag != 0 && record.inputs.is_empty() && record.final_output == 0
}

// The file of these pairs, whose nodes are put behind the bytes by the store, which answers each one's address.
pub fn file(pairs: &[(Vec<u8>, u64)], slip: &str, store: &mut dyn FnMut(Record, &mut Vec<u8>) -> usize) -> Vec<u8> {
    let mut file = 2u64.to_le_bytes().to_vec();
    file.extend(&0u64.to_le_bytes());
    let root = node(pairs, 0, 0, slip, &mut |record| store(record, &mut file));
    builder::whole(file, pairs.len() as u64, root, 0)
}

// ---- the cells

fn hash(record: &Record, slip: &str) -> u64 {
    let step = |h: u64, x: u64| (u128::from(h ^ x) * 1_099_511_628_211 % (1 << 64)) as u64;
    let mut h = step(14_695_981_039_346_656_037, u64::from(record.final_flag));
    if slip != "the final output is left out of the hash" {
        h = step(h, record.final_output);
    }
    for t in record.transitions() {
        h = step(step(step(h, u64::from(t.inp)), t.out), t.addr as u64);
    }
    h
}

// What the cells did.
#[derive(Clone, Copy, Debug, Default)]
pub struct Uses {
    pub first: usize,
    pub second: usize,
    // an equal hash, and another node
    pub unequal: usize,
    pub overwritten: usize,
}

pub struct Packed {
    pub file: Vec<u8>,
    pub cells: Vec<Cell>,
    // every stored node with its address
    pub nodes: Vec<(usize, Record)>,
    pub uses: Uses,
}

// The file, with so many cells, at least two.
pub fn packed(pairs: &[(Vec<u8>, u64)], n: usize, slip: &str) -> Packed {
    let mut cells = vec![EMPTY; n];
    let mut stored: HashMap<u64, Record> = HashMap::new();
    let mut uses = Uses::default();
    let mut store = |record: Record, file: &mut Vec<u8>| {
        if is_empty_final(&record) {
            return 0;
        }
        let own = hash(&record, slip);
        let mut row = 2 * (own % (n as u64 / 2)) as usize;
        if slip == "the row is by the number of cells" {
            row = ((own % n as u64) as usize).min(n - 2);
        }
        let mut matches = |cell: Cell| {
            if cell == EMPTY || cell[1] != own {
                return false;
            }
            let equal = stored[&cell[0]] == record || slip == "equal hashes are equal nodes";
            uses.unequal += !equal as usize;
            equal
        };
        if matches(cells[row]) {
            uses.first += 1;
        } else if matches(cells[row + 1]) {
            uses.second += 1;
            if slip == "the second cell stays second" {
                return cells[row + 1][0] as usize;
            }
            cells.swap(row, row + 1);
        } else {
            let bytes = model::pack(&record, file.len());
            file.extend(bytes);
            let addr = file.len() as u64 - 1;
            stored.insert(addr, record);
            uses.overwritten += (cells[row + 1] != EMPTY) as usize;
            cells[row + 1] = cells[row];
            cells[row] = [addr, own];
        }
        cells[row][0] as usize
    };
    let file = file(pairs, slip, &mut store);
    let mut nodes: Vec<_> = stored.into_iter().map(|(addr, record)| (addr as usize, record)).collect();
    nodes.sort_by_key(|&(addr, _)| addr);
    Packed { file, cells, nodes, uses }
}

// The file with its cells, or LIST, then SPACE, then LARGE.
pub fn pack(list: &[u8], room: usize, cells: usize, tables: bool, limit: usize) -> Result<Packed, u64> {
    pack_with(list, room, cells, tables, limit, "")
}

// The same with a slip.
pub fn pack_with(
    list: &[u8],
    room: usize,
    cells: usize,
    tables: bool,
    limit: usize,
    slip: &str,
) -> Result<Packed, u64> {
    let pairs = pairs_with(list, slip)?;
    if !tables || cells < 2 {
        return Err(SPACE);
    }
    let done = packed(&pairs, cells, slip);
    if slip == "LARGE comes before SPACE" && done.file.len() > limit {
        return Err(LARGE);
    }
    if done.file.len() > room {
        return Err(SPACE);
    }
    if done.file.len() > limit {
        return Err(LARGE);
    }
    Ok(done)
}
