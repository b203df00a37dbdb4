// A plain model of document 01 on whole files: "An opened file", "An admitted file", "A value for a key, a key for a value".
// It is written from the paper; a node is judged by model.rs. It answers for all bytes whatsoever.

use std::collections::{HashMap, HashSet};

use crate::answers::{
    At, FileAnswers, Meaning, Meta, Transition, COUNT, DEEP, HELD, KEY_REFUSED, LARGE, NODE, NOT_HELD, NO_CHECKSUM, NO_KEY,
    ROOT, SHORT, SPACE, SUM, VERSION,
};
use crate::model::{self, number, Model, FIRST_NODE, MAX_LEN};

// Header and trailer of versions 1 and 2.
pub const MIN_LEN: usize = 32;
// The longest path of an admitted file, and the longest key that a search by value finds.
pub const MAX_PATH: usize = 255;
pub const MAX_SUM: u128 = (1 << 64) - 1;

// ---- opening

// What the file says, or 1, 4, 2, 1 in version 3, 3, in this order. No bytes are a blank card (document 02, N3).
pub fn open(file: &[u8]) -> Result<Meta, u64> {
    let n = file.len();
    if n == 0 {
        return Ok(Meta { version: 0, ty: 0, len: 0, root: 0, checksum: None });
    }
    if n < MIN_LEN {
        return Err(SHORT);
    }
    if n > MAX_LEN {
        return Err(LARGE);
    }
    let version = number(&file[..8]);
    if version < 1 || version > 3 {
        return Err(VERSION);
    }
    // after the nodes: key count, root address, and in version 3 only a checksum
    let checksum_size = if version == 3 { 4 } else { 0 };
    if n < MIN_LEN + checksum_size {
        return Err(SHORT);
    }
    let (rest, checksum) = file.split_at(n - checksum_size);
    let (rest, root) = rest.split_at(rest.len() - 8);
    let (_, len) = rest.split_at(rest.len() - 8);
    let root = number(root);
    let right = if root == 0 {
        n == if version == 3 { 36 } else { 32 }
    } else {
        root >= 16 && u128::from(root) + if version == 3 { 21 } else { 17 } == n as u128
    };
    if !right {
        return Err(ROOT);
    }
    Ok(Meta {
        version,
        ty: number(&file[8..16]),
        len: number(len),
        root: root as usize,
        checksum: if version == 3 { Some(number(checksum) as u32) } else { None },
    })
}

pub fn judge(file: &[u8], meta: &Meta, addr: usize) -> Option<Meaning> {
    model::judge(At { file, version: meta.version, root: meta.root, addr }).ok()
}

// ---- admission

// The longest path from a node, its largest sum, and the number of keys from it, at most 2^128 - 1.
#[derive(Clone, Copy, Debug, Eq, PartialEq)]
pub struct Reach {
    pub longest: usize,
    pub largest: u128,
    pub keys: u128,
}

// An admitted file: the nodes of its chain, from the root down, with what they reach; and the addresses that a path from the
// root reaches, 0 left out.
pub struct Admitted {
    pub meta: Meta,
    pub chain: Vec<(usize, Meaning, Reach)>,
    pub reached: HashSet<usize>,
}

impl Admitted {
    // What the tables hold, from the root down: 1 plus the longest path, and the largest sum, of each reached node.
    pub fn entries(&self) -> Vec<(usize, u16, u64)> {
        let reached = self.chain.iter().filter(|(addr, _, _)| self.reached.contains(addr));
        reached.map(|(addr, _, r)| (*addr, 1 + r.longest as u16, r.largest as u64)).collect()
    }

    // The table of keys of a file of n bytes: the number of keys from each reached node; 19 where one is over 2^64 - 1.
    pub fn counts(&self, n: usize) -> Result<Vec<u64>, u64> {
        let mut counts = vec![0; n];
        for (addr, _, reach) in self.chain.iter().filter(|(addr, _, _)| self.reached.contains(addr)) {
            if reach.keys > MAX_SUM {
                return Err(COUNT);
            }
            counts[*addr] = reach.keys as u64;
        }
        Ok(counts)
    }
}

// The nodes from the root down: each F - 1 is the next one's address, until F is exactly 16. Root 0 has no chain.
pub fn chain(file: &[u8], meta: &Meta) -> Option<Vec<(usize, Meaning)>> {
    let mut nodes = Vec::new();
    let mut addr = meta.root;
    if addr == 0 {
        return Some(nodes);
    }
    loop {
        let node = judge(file, meta, addr)?;
        let first = node.first;
        nodes.push((addr, node));
        if first == FIRST_NODE {
            return Some(nodes);
        }
        addr = first - 1;
    }
}

// The addresses that are met by following every transition from the root, 0 left out.
pub fn reached(nodes: &HashMap<usize, &Meaning>, root: usize) -> HashSet<usize> {
    let mut met = HashSet::new();
    let mut to_meet = vec![root];
    while let Some(addr) = to_meet.pop() {
        if addr != 0 && met.insert(addr) {
            to_meet.extend(nodes[&addr].transitions.iter().map(|t| t.addr));
        }
    }
    met
}

// The file's nodes, or a refusal: opening's, then 5, decided over the whole file, then 6 and 7, each decided over all nodes that
// a path from the root reaches.
pub fn admitted(file: &[u8]) -> Result<Admitted, u64> {
    let meta = open(file)?;
    let nodes = chain(file, &meta).ok_or(NODE)?;
    let mut reach: HashMap<usize, Option<Reach>> = nodes.iter().map(|&(addr, _)| (addr, None)).collect();
    let on_chain = |t: &Transition| t.addr == 0 || reach.contains_key(&t.addr);
    if !nodes.iter().all(|(_, node)| node.transitions.iter().all(on_chain)) {
        return Err(NODE);
    }
    // a target lies below its node, so from the lowest node up each target is known
    for (addr, node) in nodes.iter().rev() {
        let mut here =
            Reach { longest: 0, largest: u128::from(node.final_output), keys: u128::from(node.is_final) };
        for t in &node.transitions {
            // address 0 is a final node with no transitions and output 0
            let there = match t.addr {
                0 => Reach { longest: 0, largest: 0, keys: 1 },
                target => reach[&target].expect("a target lies below its node"),
            };
            here.longest = here.longest.max(1 + there.longest);
            here.largest = here.largest.max(u128::from(t.out) + there.largest);
            here.keys = here.keys.saturating_add(there.keys);
        }
        reach.insert(*addr, Some(here));
    }
    let chain: Vec<_> =
        nodes.into_iter().map(|(addr, node)| (addr, node, reach[&addr].expect("every node was met"))).collect();
    let by_addr: HashMap<usize, &Meaning> = chain.iter().map(|(addr, node, _)| (*addr, node)).collect();
    let reached = reached(&by_addr, meta.root);
    let used = || chain.iter().filter(|(addr, _, _)| reached.contains(addr));
    if used().any(|(_, _, r)| r.longest > MAX_PATH) {
        return Err(DEEP);
    }
    if used().any(|(_, _, r)| r.largest > MAX_SUM) {
        return Err(SUM);
    }
    Ok(Admitted { meta, chain, reached })
}

// What admission writes into the tables of a file that it admits: at each reached node's address 1 plus the longest path, and
// the largest sum.
pub struct Entries {
    // from the lowest node up
    pub nodes: Vec<(u32, u16, u64)>,
    // how many nodes there are, reached or not
    pub all: usize,
    // all that the nodes say, added up
    pub said: u64,
}

// As `admitted`, and no node is kept: for files whose nodes would fill the memory.
pub fn entries(file: &[u8]) -> Result<Entries, u64> {
    let meta = open(file)?;
    let mut nodes: Vec<(u32, u16, u64)> = Vec::new();
    let mut addr = meta.root;
    while addr != FIRST_NODE - 1 && meta.root != 0 {
        let node = judge(file, &meta, addr).ok_or(NODE)?;
        nodes.push((addr as u32, 0, 0));
        addr = node.first - 1;
    }
    // from the root down: what leads to a node lies above it
    let place = |target: usize, nodes: &[(u32, u16, u64)]| {
        nodes
            .binary_search_by_key(&std::cmp::Reverse(target as u32), |node| std::cmp::Reverse(node.0))
            .map_err(|_| NODE)
    };
    let mut reached = vec![false; nodes.len()];
    if let Some(root) = reached.first_mut() {
        *root = true;
    }
    for i in 0..nodes.len() {
        for t in judge(file, &meta, nodes[i].0 as usize).expect("judged above").transitions {
            if t.addr != 0 {
                let target = place(t.addr, &nodes)?;
                reached[target] = reached[target] || reached[i];
            }
        }
    }
    nodes.reverse();
    reached.reverse();
    let (mut said, mut deep, mut heavy) = (0u64, false, false);
    for i in 0..nodes.len() {
        let node = judge(file, &meta, nodes[i].0 as usize).expect("judged above");
        said = said.wrapping_add(node.is_final as u64).wrapping_add(node.final_output);
        let mut here = Reach { longest: 0, largest: u128::from(node.final_output), keys: 0 };
        for t in &node.transitions {
            said = said.wrapping_add(u64::from(t.inp)).wrapping_add(t.out).wrapping_add(t.addr as u64);
            let there = match t.addr {
                0 => (0, 1, 0),
                target => nodes[nodes.binary_search_by_key(&(target as u32), |node| node.0).map_err(|_| NODE)?],
            };
            here.longest = here.longest.max(usize::from(there.1));
            here.largest = here.largest.max(u128::from(t.out) + u128::from(there.2));
        }
        deep = deep || reached[i] && here.longest > MAX_PATH;
        heavy = heavy || reached[i] && here.largest > MAX_SUM;
        // what does not fit is refused below
        nodes[i] = (nodes[i].0, 1 + here.longest.min(MAX_PATH) as u16, here.largest.min(MAX_SUM) as u64);
    }
    if deep {
        return Err(DEEP);
    }
    if heavy {
        return Err(SUM);
    }
    let all = nodes.len();
    let nodes = nodes.into_iter().zip(reached).filter(|(_, reached)| *reached).map(|(node, _)| node).collect();
    Ok(Entries { nodes, all, said })
}

// What admission leaves in the tables of a file of n bytes that opens, where they are long enough: 1 plus the longest path, and
// the largest sum, at the address of each reached node; 0 elsewhere, and everywhere after a refusal.
pub fn fill(n: usize, judged: &Result<Admitted, u64>, depths: &mut [u16], sums: &mut [u64]) {
    for i in 0..n {
        depths[i] = 0;
        sums[i] = 0;
    }
    if let Ok(admitted) = judged {
        for (addr, depth, sum) in admitted.entries() {
            depths[addr] = depth;
            sums[addr] = sum;
        }
    }
}

// What filling leaves in the table of keys of a file of n bytes that opens, where all three tables are long enough, and what it
// answers: after 5, 6 and 7 the table is as it was, after 19 it has zeros over the file's length.
pub fn fill_counts(n: usize, judged: &Result<Admitted, u64>, counts: &mut [u64]) -> u64 {
    match judged {
        Ok(admitted) => {
            let filled = admitted.counts(n);
            counts[..n].copy_from_slice(filled.as_ref().unwrap_or(&vec![0; n]));
            filled.err().unwrap_or(0)
        }
        Err(why) => *why,
    }
}

// What a node of an admitted file reaches, by following every path from it; nothing where there are more than `steps`
// transitions to follow.
pub fn reach_by_paths(nodes: &HashMap<usize, &Meaning>, addr: usize, steps: &mut usize) -> Option<Reach> {
    let mut found = Reach { longest: 0, largest: 0, keys: 0 };
    // the paths still to be followed: where they lead, their length and their sum
    let mut paths = vec![(addr, 0, 0)];
    while let Some((addr, length, sum)) = paths.pop() {
        let final_output = if addr == 0 { 0 } else { nodes[&addr].final_output };
        // each path that ends at a final node is a key
        found.keys += u128::from(addr == 0 || nodes[&addr].is_final);
        found.longest = found.longest.max(length);
        found.largest = found.largest.max(sum + u128::from(final_output));
        if addr != 0 {
            for t in &nodes[&addr].transitions {
                *steps = steps.checked_sub(1)?;
                paths.push((t.addr, length + 1, sum + u128::from(t.out)));
            }
        }
    }
    Some(found)
}

// Document 01's word, over the nodes that a path from the root reaches: every final output is 0, a final node's first output
// is at least 1, and each output plus its target's largest sum is below the next output.
pub fn numbered(admitted: &Admitted) -> bool {
    let nodes: HashMap<usize, (&Meaning, Reach)> = admitted.chain.iter().map(|(a, n, r)| (*a, (n, *r))).collect();
    for addr in &admitted.reached {
        let node = nodes[addr].0;
        if node.final_output != 0 || node.is_final && node.transitions.first().map_or(false, |t| t.out == 0) {
            return false;
        }
        for pair in node.transitions.windows(2) {
            let largest = if pair[0].addr == 0 { 0 } else { nodes[&pair[0].addr].1.largest };
            if u128::from(pair[0].out) + largest >= u128::from(pair[1].out) {
                return false;
            }
        }
    }
    true
}

// ---- a value for a key, a key for a value

#[derive(Clone, Debug, Eq, PartialEq)]
pub enum Answer<T> {
    Found(T),
    None,
    Refused(u64),
}

// Each node is judged as it is entered, the last included: 5 for the node, then 7 for the running sum up to it; at the end 7
// with the final output.
pub fn get(file: &[u8], key: &[u8]) -> Answer<u64> {
    let meta = match open(file) {
        Ok(meta) => meta,
        Err(why) => return Answer::Refused(why),
    };
    // no bytes have no node to enter
    if file.is_empty() {
        return Answer::None;
    }
    let (mut addr, mut sum, mut rest) = (meta.root, 0u128, key);
    loop {
        let node = match judge(file, &meta, addr) {
            Some(node) => node,
            None => return Answer::Refused(NODE),
        };
        if sum > MAX_SUM {
            return Answer::Refused(SUM);
        }
        let (b, more) = match rest.split_first() {
            Some((&b, more)) => (b, more),
            None if !node.is_final => return Answer::None,
            None => {
                let total = sum + u128::from(node.final_output);
                return if total > MAX_SUM { Answer::Refused(SUM) } else { Answer::Found(total as u64) };
            }
        };
        match node.transitions.iter().find(|t| t.inp == b) {
            Some(t) => {
                addr = t.addr;
                sum += u128::from(t.out);
                rest = more;
            }
            None => return Answer::None,
        }
    }
}

// 5 for each node entered; the last of the leading transitions whose output is not above what is left; 6 before a 256th byte.
// Final outputs are ignored.
pub fn get_key(file: &[u8], value: u64, space: usize) -> Answer<Vec<u8>> {
    let meta = match open(file) {
        Ok(meta) => meta,
        Err(why) => return Answer::Refused(why),
    };
    if space < MAX_PATH {
        return Answer::Refused(SPACE);
    }
    if file.is_empty() {
        return Answer::None;
    }
    let (mut addr, mut left, mut key) = (meta.root, value, Vec::new());
    loop {
        let node = match judge(file, &meta, addr) {
            Some(node) => node,
            None => return Answer::Refused(NODE),
        };
        if left == 0 && node.is_final {
            return Answer::Found(key);
        }
        let leading = node.transitions.iter().position(|t| t.out > left).unwrap_or(node.transitions.len());
        if leading == 0 {
            return Answer::None;
        }
        if key.len() == MAX_PATH {
            return Answer::Refused(DEEP);
        }
        let t = node.transitions[leading - 1];
        key.push(t.inp);
        left -= t.out;
        addr = t.addr;
    }
}

// ---- the model in our library's place

impl FileAnswers for Model {
    fn open(&self, file: &[u8], out: &mut [u64]) -> u64 {
        match open(file) {
            Ok(meta) => {
                if out.len() >= 5 {
                    let checksum = meta.checksum.map_or(NO_CHECKSUM, u64::from);
                    out[..5].copy_from_slice(&[meta.version, meta.ty, meta.len, meta.root as u64, checksum]);
                }
                0
            }
            Err(why) => why,
        }
    }

    fn admit(&self, file: &[u8], depths: &mut [u16], sums: &mut [u64]) -> u64 {
        let n = file.len();
        if let Err(why) = open(file) {
            return why;
        }
        if depths.len() < n || sums.len() < n {
            return SPACE;
        }
        let judged = admitted(file);
        fill(n, &judged, depths, sums);
        judged.err().unwrap_or(0)
    }

    fn count_keys(&self, file: &[u8], depths: &mut [u16], sums: &mut [u64], counts: &mut [u64]) -> u64 {
        let n = file.len();
        if let Err(why) = open(file) {
            return why;
        }
        if depths.len() < n || sums.len() < n || counts.len() < n {
            return SPACE;
        }
        let judged = admitted(file);
        fill(n, &judged, depths, sums);
        fill_counts(n, &judged, counts)
    }

    fn get(&self, file: &[u8], key: &[u8], out: &mut [u64]) -> u64 {
        match get(file, key) {
            Answer::Found(value) => {
                if let Some(place) = out.first_mut() {
                    *place = value;
                }
                HELD
            }
            Answer::None => NOT_HELD,
            Answer::Refused(why) => why,
        }
    }

    fn get_key(&self, file: &[u8], value: u64, key: &mut [u8]) -> u64 {
        match get_key(file, value, key.len()) {
            Answer::Found(found) => {
                key[..found.len()].copy_from_slice(&found);
                found.len() as u64
            }
            Answer::None => NO_KEY,
            Answer::Refused(why) => KEY_REFUSED + why,
        }
    }
}
