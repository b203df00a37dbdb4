// Files to compare on: built from keys with values, and chains of nodes in layouts that a builder would not choose.

use std::collections::{BTreeSet, HashMap};

use crate::answers::{Meaning, Record};
use crate::builder::{self, trailer_size, whole, Builder};
use crate::generate::{self, Targets};
use crate::given;
use crate::model::FIRST_NODE;
use crate::model_file::{self, Admitted};
use crate::prng::Prng;

// A file with keys to ask for: those it was built from, or none where it was not built from keys.
pub struct Made {
    pub file: Vec<u8>,
    pub keys: Vec<Vec<u8>>,
}

// ---- keys

// How the keys of a set look.
#[derive(Clone, Copy)]
pub enum Keys {
    Letters,
    Digits,
    AnyBytes,
    FewBytes,
    // each of some beginnings with each of some endings, so that nodes are shared
    Crossed,
    // many first bytes, so that the root has an index or all 256 transitions
    Wide,
    // up to 255 bytes
    Long,
}

pub const KEYS: [Keys; 7] =
    [Keys::Letters, Keys::Digits, Keys::AnyBytes, Keys::FewBytes, Keys::Crossed, Keys::Wide, Keys::Long];

fn string(prng: &mut Prng, least: usize, most: usize, of: &[u8]) -> Vec<u8> {
    let n = prng.between(least, most);
    (0..n).map(|_| if of.is_empty() { prng.byte() } else { prng.pick(of) }).collect()
}

// At most n keys of this kind, in ascending order; for some kinds more.
pub fn keys(prng: &mut Prng, kind: Keys, n: usize) -> Vec<Vec<u8>> {
    let mut keys = BTreeSet::new();
    match kind {
        Keys::Crossed => {
            let side = (1..).find(|i| i * i >= n).unwrap_or(1);
            let endings: Vec<_> = (0..side).map(|_| string(prng, 0, 4, b"aeinrst")).collect();
            for _ in 0..side {
                let beginning = string(prng, 0, 4, b"abcdeX\xff");
                for ending in &endings {
                    keys.insert([&beginning[..], &ending[..]].concat());
                }
            }
        }
        Keys::Wide => {
            let count = prng.pick(&[32, 33, 63, 64, 100, 255, 256]);
            let beginning = string(prng, 0, 2, b"ab");
            let endings: Vec<_> = (0..3).map(|_| string(prng, 0, 3, b"xyz")).collect();
            while keys.len() < count {
                let ending = &endings[prng.below(3)];
                keys.insert([&beginning[..], &[prng.byte()], &ending[..]].concat());
                if count == 256 {
                    for b in 0..=255 {
                        keys.insert([&beginning[..], &[b]].concat());
                    }
                }
            }
        }
        Keys::Long => {
            for _ in 0..n.min(3) {
                let most = prng.pick(&[40, 100, 255]);
                keys.insert(string(prng, most / 2, most, b"ab"));
            }
        }
        Keys::Letters | Keys::Digits | Keys::AnyBytes | Keys::FewBytes => {
            for _ in 0..n {
                keys.insert(match kind {
                    Keys::Letters => string(prng, 1, 6, b"abcde"),
                    Keys::Digits => string(prng, 1, 5, b"0123456789"),
                    Keys::AnyBytes => string(prng, 1, 4, b""),
                    _ => string(prng, 1, 8, &[0, 1, b'W', 254, 255]),
                });
            }
        }
    }
    if prng.one_in(4) {
        keys.insert(Vec::new());
    }
    keys.into_iter().collect()
}

// ---- values

// How the values of a set go on: 0, 1, 2, ..; ascending with gaps; all 0; small ones; any; close to 2^64 - 1.
#[derive(Clone, Copy)]
pub enum Values {
    Numbered,
    Ascending,
    Zero,
    Small,
    Any,
    High,
}

pub const VALUES: [Values; 6] =
    [Values::Numbered, Values::Ascending, Values::Zero, Values::Small, Values::Any, Values::High];

pub fn values(prng: &mut Prng, kind: Values, n: usize) -> Vec<u64> {
    let gap = prng.pick(&[2, 100, 70_000, 1 << 40]);
    let mut last = 0;
    (0..n as u64)
        .map(|i| match kind {
            Values::Numbered => i,
            Values::Ascending => {
                last += 1 + prng.next() % gap;
                last
            }
            Values::Zero => 0,
            Values::Small => prng.next() % 300,
            Values::Any => prng.next() >> prng.below(64),
            Values::High => u64::max_value() - prng.next() % 300,
        })
        .collect()
}

// ---- files built from keys

pub fn built_from(prng: &mut Prng, version: u64, keys: Vec<Vec<u8>>, values: &[u64]) -> Made {
    let mut builder = Builder::new(version, prng.next());
    if prng.one_in(6) {
        builder = builder.without_sharing();
    }
    for (key, &value) in keys.iter().zip(values) {
        builder.insert(key, value);
    }
    let checksum = prng.next() as u32;
    Made { file: builder.finish(checksum), keys }
}

// A file of at most so many keys, for some kinds of keys more. Few of them are shorter than a file can be.
pub fn built(prng: &mut Prng, most: usize) -> Made {
    let kind = if prng.one_in(12) { prng.pick(&KEYS) } else { prng.pick(&KEYS[..5]) };
    let n = prng.between(0, most);
    let keys = keys(prng, kind, n);
    let values_kind = prng.pick(&VALUES);
    let values = values(prng, values_kind, keys.len());
    let version = prng.pick(&[1, 2, 3]);
    built_from(prng, version, keys, &values)
}

// ---- chains of nodes

// A file whose nodes are random records in random layouts (`generate::any_layout`), each with targets among the nodes below
// it. Outputs take at most `size` bytes. Where `loose`, a target now and then is any address.
pub fn chained(prng: &mut Prng, version: u64, nodes: usize, size: usize, loose: bool) -> Made {
    let mut file = header(version, prng.next());
    grow(prng, version, &mut file, &mut vec![0], nodes, size, loose);
    let root = file.len() - 1;
    Made { file: builder::whole(file, prng.next(), root, prng.next() as u32), keys: Vec::new() }
}

// So many nodes more, each with targets among the addresses and the nodes before it; the last is the root.
fn grow(
    prng: &mut Prng,
    version: u64,
    file: &mut Vec<u8>,
    addrs: &mut Vec<usize>,
    nodes: usize,
    size: usize,
    loose: bool,
) {
    for i in 1..=nodes {
        let first = file.len();
        let is_root = i == nodes;
        let n = match prng.below(40) {
            0..=15 => 1,
            16..=34 => prng.between(0, 4),
            35..=37 => prng.between(0, 12),
            38 => prng.between(13, 40),
            _ => prng.pick(&generate::COUNTS),
        };
        // a node of neither is sound at the root alone
        let is_final = if n == 0 { !is_root || prng.one_in(5) } else { prng.below(5) < 2 };
        let mut record = generate::record(prng, n, is_final, size, Targets::Any, first);
        for target in &mut record.targets {
            if loose && prng.one_in(40) {
                continue;
            }
            *target = match prng.below(4) {
                0 => addrs[addrs.len() - 1],
                1 => 0,
                _ => prng.pick(addrs),
            };
        }
        file.extend(generate::any_layout(prng, &record, version, first).bytes);
        addrs.push(file.len() - 1);
    }
}

// The nodes of a file, from 16 to its root.
fn nodes_in(file: &[u8], version: u64) -> &[u8] {
    &file[FIRST_NODE..file.len() - trailer_size(version)]
}

// A chain of nodes put on top of one or two others, with few targets among those or none, so that most of what lies below is
// reached by no path; it may have paths over 255 and sums past 2^64 - 1. A delta is counted from its own node, so nodes mean the
// same wherever they stand.
pub fn unused(prng: &mut Prng) -> Vec<u8> {
    let version = prng.pick(&[1, 2, 3]);
    let mut below = Vec::new();
    for _ in 0..prng.between(1, 2) {
        let loose = prng.one_in(8);
        let (some, long) = (prng.between(1, 6), prng.between(250, 262));
        let file = match prng.below(8) {
            0 => path_over(prng, version, &[0, 0, 0x40], long, 0, false),
            1 | 2 => path_over(prng, version, &[0, 0, 0x40], some, 8, true),
            _ => chained(prng, version, some, 8, loose).file,
        };
        below.extend(nodes_in(&file, version));
    }
    let lower = file_of(version, &below);
    let mut addrs = vec![0];
    // alone it may be shorter than a file can be, and its nodes may be unsound
    let chain = model_file::open(&lower).ok().and_then(|meta| model_file::chain(&lower, &meta));
    if let Some(chain) = chain {
        let leads = prng.pick(&[0, 0, 1, 3]);
        addrs.extend((0..leads).map(|_| chain[prng.below(chain.len())].0));
    }
    let mut file = header(version, 0);
    file.extend(below);
    let (nodes, size) = (prng.between(1, 4), prng.between(0, 8));
    let loose = prng.one_in(8);
    grow(prng, version, &mut file, &mut addrs, nodes, size, loose);
    let root = file.len() - 1;
    builder::whole(file, prng.next(), root, prng.next() as u32)
}

pub fn header(version: u64, ty: u64) -> Vec<u8> {
    let mut file = version.to_le_bytes().to_vec();
    file.extend(&ty.to_le_bytes());
    file
}

// These nodes, the last of which is the root, in a file of this version.
pub fn file_of(version: u64, nodes: &[u8]) -> Vec<u8> {
    let mut file = header(version, 0);
    file.extend(nodes);
    let root = file.len() - 1;
    builder::whole(file, 0, root, 0)
}

// A chain of n nodes with one transition each, to the node before it, over the nodes given: a path that is n longer. Outputs
// take at most `size` bytes, and final nodes come only where `finals`.
pub fn path_over(prng: &mut Prng, version: u64, nodes: &[u8], n: usize, size: usize, finals: bool) -> Vec<u8> {
    let mut file = header(version, 0);
    file.extend(nodes);
    for _ in 0..n {
        let first = file.len();
        let is_final = finals && prng.one_in(4);
        let target = if first == FIRST_NODE { 0 } else { first - 1 };
        let mut record = generate::record(prng, 1, is_final, size, Targets::Before, first);
        record.targets = vec![target];
        file.extend(generate::any_layout(prng, &record, version, first).bytes);
    }
    let root = file.len() - 1;
    builder::whole(file, prng.next(), root, prng.next() as u32)
}

// ---- files of each size, and damage

// A file of a few dozen to a few hundred bytes.
pub fn small(prng: &mut Prng) -> Made {
    match prng.below(20) {
        0..=7 => built(prng, 12),
        8..=17 => {
            let (version, nodes) = (prng.pick(&[1, 2, 3]), prng.between(1, 9));
            // sums of outputs under 8 bytes always fit
            let size = if prng.one_in(2) { prng.between(0, 7) } else { prng.between(0, 8) };
            let loose = prng.one_in(8);
            chained(prng, version, nodes, size, loose)
        }
        _ => {
            let (version, n, size) = (prng.pick(&[1, 2, 3]), prng.between(1, 20), prng.between(0, 8));
            let file = path_over(prng, version, &[0, 0, 0x40], n, size, true);
            Made { file, keys: Vec::new() }
        }
    }
}

// A file of some thousand bytes.
pub fn medium(prng: &mut Prng) -> Made {
    match prng.below(4) {
        0 | 1 => {
            let kind = prng.pick(&KEYS);
            let n = prng.between(100, 700);
            let keys = keys(prng, kind, n);
            let values_kind = prng.pick(&VALUES);
            let values = values(prng, values_kind, keys.len());
            let version = prng.pick(&[1, 2, 3]);
            built_from(prng, version, keys, &values)
        }
        _ => {
            let (version, nodes, size) = (prng.pick(&[1, 2, 3]), prng.between(40, 120), prng.between(0, 7));
            chained(prng, version, nodes, size, false)
        }
    }
}

// Another byte, often one close by or with one bit changed.
pub fn damage(prng: &mut Prng, b: u8) -> u8 {
    match prng.below(5) {
        0 => b.wrapping_add(1),
        1 => b.wrapping_sub(1),
        2 => b ^ 1 << prng.below(8),
        3 => prng.pick(&[0, 1, 16, 0x40, 0x80, 255]),
        _ => prng.byte(),
    }
}

// ---- keys to ask for

pub const KINDS: [&str; 8] = [
    "a held key, or one that leads far",
    "one byte changed",
    "a part from its beginning",
    "some bytes more",
    "256 bytes and more",
    "256 bytes and more, nowhere near",
    "any bytes",
    "the empty key",
];

// A key of one of these kinds, from one that leads far into the file.
pub fn variant(prng: &mut Prng, kind: usize, key: &[u8]) -> Vec<u8> {
    let mut key = key.to_vec();
    match kind {
        1 if !key.is_empty() => {
            let i = prng.below(key.len());
            key[i] = damage(prng, key[i]);
        }
        2 => key.truncate(prng.below(key.len() + 1)),
        3 => {
            for _ in 0..prng.between(1, 3) {
                key.push(prng.byte());
            }
        }
        4 => {
            while key.len() < 256 + prng.below(50) {
                key.push(prng.byte());
            }
        }
        5 => {
            key = vec![0; prng.between(256, 400)];
            prng.fill(&mut key);
        }
        6 => {
            key = vec![0; prng.between(1, 5)];
            prng.fill(&mut key);
        }
        7 => key.clear(),
        _ => {}
    }
    key
}

// The nodes of an admitted file by their addresses.
pub fn nodes_of(found: &Admitted) -> HashMap<usize, &Meaning> {
    found.chain.iter().map(|(addr, node, _)| (*addr, node)).collect()
}

// The bytes on a path from the root, to a final node if `to_final`, else to any; and its sum without a final output.
pub fn path(prng: &mut Prng, nodes: &HashMap<usize, &Meaning>, root: usize, to_final: bool) -> (Vec<u8>, u64) {
    let (mut key, mut sum, mut addr) = (Vec::new(), 0u64, root);
    while addr != 0 {
        let node = nodes[&addr];
        let may_end = node.is_final || !to_final;
        if node.transitions.is_empty() || may_end && prng.one_in(4) {
            break;
        }
        let t = node.transitions[prng.below(node.transitions.len())];
        key.push(t.inp);
        sum = sum.wrapping_add(t.out);
        addr = t.addr;
    }
    (key, sum)
}

// ---- large sets

const SYLLABLES: [&str; 48] = [
    "a", "al", "an", "ar", "ba", "be", "bo", "bra", "ca", "ce", "chi", "co", "da", "de", "di", "do", "e", "en", "er",
    "fa", "fi", "ga", "gle", "ha", "he", "i", "in", "ing", "ka", "la", "le", "li", "lo", "ma", "me", "mi", "na", "ne",
    "ni", "o", "on", "ra", "re", "ri", "sa", "se", "ta", "tion",
];

// A word-like key. First letters are of both cases, digits and some above ASCII, so that a root has more than 32 transitions.
pub fn word(prng: &mut Prng) -> Vec<u8> {
    let mut word: Vec<u8> = Vec::new();
    for _ in 0..prng.between(2, 5) {
        word.extend(prng.pick(&SYLLABLES).as_bytes());
    }
    match prng.below(8) {
        0 => word[0] = word[0].to_ascii_uppercase(),
        1 => word.insert(0, prng.pick(b"0123456789")),
        2 => word.splice(0..0, prng.pick(&["é", "ö", "ü", "ß"]).bytes()).for_each(drop),
        _ => {}
    }
    if prng.one_in(5) {
        word.push(b's');
    }
    word
}

// Keys in ascending order, without doubles: somewhat fewer than so many.
pub fn distinct(n: usize, mut key: impl FnMut() -> Vec<u8>) -> Vec<Vec<u8>> {
    let mut keys: Vec<_> = (0..n).map(|_| key()).collect();
    keys.sort();
    keys.dedup();
    keys
}

// A file of this length, 16 MiB or somewhat more: words with ascending values, and final nodes that no path reaches.
pub fn dense(prng: &mut Prng, len: usize) -> Vec<u8> {
    let words = distinct(1_600_000, || {
        let mut key = word(prng);
        // a tail that is seldom shared
        key.extend((0..prng.between(1, 6)).map(|_| prng.pick(b"abcdefghijklmnopqrstuvwxyz0123456789")));
        key
    });
    let mut builder = Builder::new(3, 0);
    let mut value = 0;
    for key in &words {
        if builder.size() > len - 65_536 {
            break;
        }
        value += 1 + prng.next() % 1_000;
        builder.insert(key, value);
    }
    assert!(builder.size() > len - 65_536, "there are keys enough");
    builder.finish_at(len, 0)
}

// A file of this length, in which the nodes of `part` stand again and again: a delta is counted from its own node, so they
// mean the same wherever they stand. Above each part a node leads to the roots of all so far; the last such node is the root.
pub fn repeated(part: &[u8], len: usize) -> Vec<u8> {
    let nodes = &part[FIRST_NODE..part.len() - trailer_size(3)];
    let end = len - trailer_size(3);
    let mut file = part[..FIRST_NODE].to_vec();
    file.reserve_exact(len - file.len());
    let mut record = Record::default();
    loop {
        file.extend(nodes);
        record.inputs.push(record.inputs.len() as u8);
        record.outputs.push(record.outputs.len() as u64 * 1_000_000_000);
        record.targets.push(file.len() - 1);
        let pack = |first| given::pack(&record, first).expect("the Rust packs a record that breaks no rule");
        let size = pack(file.len()).len();
        // room for the next nodes and the node that leads to them, which grows with each
        if file.len() + size + nodes.len() + 1_024 <= end {
            let node = pack(file.len());
            file.extend(node);
            continue;
        }
        let size = pack(end - size).len();
        let mut room = end - size - file.len();
        while room > 0 {
            // 3 bytes, or 4 with a final output of 7
            let node: &[u8] = if room % 3 == 0 { &[0, 0, 0x40] } else { &[7, 1, 0, 0x40] };
            file.extend(node);
            room -= node.len();
        }
        let root = pack(file.len());
        assert_eq!(root.len(), size, "the root's deltas are as wide a little farther up");
        file.extend(root);
        let root = file.len() - 1;
        return whole(file, 0, root, 0);
    }
}
