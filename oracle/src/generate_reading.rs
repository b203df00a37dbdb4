// Bounds to read between, the strings of a file, and readings that no start gave.

use crate::answers::{Bound, Kind, Level, Reading, BOUND_BYTES, BOUND_KINDS, LEVELS};
use crate::generate_file::{nodes_of, path, variant};
use crate::model_file::{judge, open, Admitted};
use crate::prng::Prng;

// ---- the strings of a file

// A string on a path from the root, with its value where it is a held key.
pub struct Spelled {
    pub bytes: Vec<u8>,
    pub value: Option<u64>,
}

// Every string on a path from the root, ascending, the empty one first; nothing where there are more than so many. In an
// admitted file each of them begins a held key, but for the empty one where no key is held.
pub fn strings(found: &Admitted, most: usize) -> Option<Vec<Spelled>> {
    let nodes = nodes_of(found);
    let mut spelled = Vec::new();
    let mut to_spell = vec![(found.meta.root, Vec::new(), 0u64)];
    while let Some((addr, bytes, sum)) = to_spell.pop() {
        if spelled.len() == most {
            return None;
        }
        let value = match nodes.get(&addr) {
            Some(node) => {
                for t in node.transitions.iter().rev() {
                    to_spell.push((t.addr, [&bytes[..], &[t.inp]].concat(), sum + t.out));
                }
                if node.is_final {
                    Some(sum + node.final_output)
                } else {
                    None
                }
            }
            // address 0
            None => Some(sum),
        };
        spelled.push(Spelled { bytes, value });
    }
    Some(spelled)
}

// Strings to take bounds from, ascending: all of the file's, or some of many.
pub fn some_strings(prng: &mut Prng, found: &Admitted, all: Option<&[Spelled]>) -> Vec<Vec<u8>> {
    if let Some(all) = all {
        return all.iter().map(|s| s.bytes.clone()).collect();
    }
    let nodes = nodes_of(found);
    let mut some: Vec<_> = (0..60)
        .map(|_| {
            let to_final = !prng.one_in(3);
            path(prng, &nodes, found.meta.root, to_final).0
        })
        .collect();
    some.sort();
    some
}

// ---- bounds

pub const BOUNDS: [&str; 11] = [
    "bounds: a string of the file",
    "bounds: one byte changed",
    "bounds: a part from its beginning",
    "bounds: some bytes more",
    "bounds: 256 bytes and more",
    "bounds: any bytes",
    "bounds: the empty string",
    "bounds: 255 bytes",
    "bounds: the last byte one more or less",
    "bounds: a zero byte more",
    "bounds: unbounded",
];

// A bound near a string, and the place of its name.
fn bound(prng: &mut Prng, near: &[u8]) -> (Bound, usize) {
    let mut kind = prng.pick(&[Kind::Included, Kind::Excluded]);
    let name = match prng.below(40) {
        0..=14 => 0,
        15..=17 => 1,
        18..=20 => 2,
        21..=23 => 3,
        24 => 4,
        25 => 5,
        26 => 6,
        27 | 28 => 7,
        29..=31 => 8,
        32 | 33 => 9,
        _ => 10,
    };
    let bytes = match name {
        0..=4 => variant(prng, name, near),
        5 => variant(prng, 6, near),
        6 => Vec::new(),
        7 => {
            let mut bytes = near.to_vec();
            let fill = prng.pick(&[0, b'a', 255]);
            bytes.resize(BOUND_BYTES, fill);
            bytes
        }
        8 => {
            let mut bytes = near.to_vec();
            let by = prng.pick(&[1, 255]);
            bytes.iter_mut().rev().take(1).for_each(|b| *b = b.wrapping_add(by));
            bytes
        }
        9 => [near, &[0]].concat(),
        _ => {
            // bytes that carry no meaning, of any number
            kind = Kind::Unbounded;
            let mut bytes = near.to_vec();
            bytes.resize(prng.pick(&[0, 1, 255, 256, 300]), 1);
            bytes
        }
    };
    (Bound { kind, bytes }, name)
}

// Two bounds near two strings out of these, often with few strings between them, and the places of their names.
pub fn bounds(prng: &mut Prng, strings: &[Vec<u8>]) -> ((Bound, usize), (Bound, usize)) {
    let n = strings.len();
    let i = prng.below(n);
    let j = match prng.below(8) {
        0..=4 => (i + prng.between(1, 8)).min(n - 1),
        5 => i.saturating_sub(prng.below(4)),
        _ => prng.below(n),
    };
    let lower = bound(prng, &strings[i]);
    let upper = bound(prng, &strings[j]);
    if prng.one_in(16) {
        // the same bytes, in each pair of kinds
        let kind = prng.pick(&BOUND_KINDS);
        let same = (Bound { kind, bytes: lower.0.bytes.clone() }, lower.1);
        return (lower, same);
    }
    (lower, upper)
}

// ---- readings that no start gave

const COUNTS: [usize; 9] = [0, 1, 2, 255, 256, 257, 300, 1 << 32, usize::max_value()];
const BOUND_COUNTS: [usize; 8] = [0, 1, 254, 255, 256, 257, 1 << 32, usize::max_value()];
const TOP: u64 = u64::max_value();

// A number, often at a limit.
fn number(prng: &mut Prng) -> u64 {
    match prng.below(6) {
        0 => 0,
        1 => TOP,
        2 => TOP - 1,
        3 => prng.next() % 4,
        4 => TOP - prng.next() % 300,
        _ => prng.next() >> prng.below(64),
    }
}

fn level(prng: &mut Prng, addrs: &[usize], len: usize) -> Level {
    Level {
        addr: match prng.below(12) {
            0 => prng.below(len + 3) as u32,
            1 => prng.pick(&[0, 15, 16, 1 << 24, u32::max_value()]),
            2 => prng.next() as u32,
            _ => prng.pick(addrs) as u32,
        },
        inp: prng.byte(),
        place: match prng.below(8) {
            0..=2 => 0,
            3 | 4 => prng.below(4) as u16,
            5 => prng.pick(&[31, 32, 63, 254, 255, 256, 257, u16::max_value()]),
            _ => prng.below(300) as u16,
        },
        sum: if prng.one_in(2) { prng.next() % 300 } else { number(prng) },
    }
}

// So many levels of a file, of which a number from the last on is used up.
fn levels(prng: &mut Prng, addrs: &[usize], len: usize, n: usize) -> Vec<Level> {
    let mut levels: Vec<_> = (0..n).map(|_| level(prng, addrs, len)).collect();
    if prng.one_in(2) {
        // all at nodes, so that many of them are looked at
        levels.iter_mut().for_each(|level| level.addr = prng.pick(addrs) as u32);
    }
    if prng.one_in(3) {
        let used_up = prng.below(n + 1);
        levels.iter_mut().rev().take(used_up).for_each(|level| level.place = 256);
    }
    levels
}

impl Reading {
    // States so many levels, and has those that there is room for.
    fn state_levels(&mut self, prng: &mut Prng, addrs: &[usize], len: usize, n: usize) {
        let room = n.min(LEVELS);
        if self.levels.len() > room {
            self.levels.truncate(room);
        }
        let more = levels(prng, addrs, len, room - self.levels.len());
        self.levels.extend(more);
        self.level_count = n;
    }

    fn state_bound(&mut self, prng: &mut Prng, kind: Kind, n: usize) {
        let room = if kind == Kind::Unbounded { 0 } else { n.min(BOUND_BYTES) };
        let fill = prng.pick(&[0, b'a', 255]);
        self.bound.resize(room, fill);
        self.kind = kind;
        self.bound_len = n;
    }
}

// The addresses of the nodes from the root down, as far as they are sound, and 0.
pub fn addresses(file: &[u8]) -> Vec<usize> {
    let mut addrs = vec![0];
    if let Ok(meta) = open(file) {
        let mut addr = meta.root;
        while let Some(node) = judge(file, &meta, addr) {
            if addr == 0 {
                break;
            }
            addrs.push(addr);
            addr = node.first - 1;
        }
    }
    addrs
}

// A reading of nothing, whose number of keys to come stands in the way of none.
pub fn blank(file: &[u8]) -> Reading {
    Reading {
        file_len: file.len(),
        kind: Kind::Unbounded,
        bound_len: 0,
        bound: Vec::new(),
        pending: None,
        total: 0,
        keys: TOP,
        level_count: 0,
        levels: Vec::new(),
    }
}

// A reading for a file, from the one given or from nothing, with some of what it says changed. `addrs` are addresses of nodes.
pub fn made(prng: &mut Prng, file: &[u8], addrs: &[usize], given: Option<&Reading>) -> Reading {
    let len = file.len();
    let mut reading = match given {
        Some(given) => given.clone(),
        None => {
            let mut reading = blank(file);
            let n = if prng.one_in(3) { prng.pick(&COUNTS) } else { prng.between(0, 6) };
            reading.state_levels(prng, addrs, len, n);
            let kind = prng.pick(&BOUND_KINDS);
            let n = prng.below(5);
            reading.state_bound(prng, kind, n);
            reading
        }
    };
    for _ in 0..prng.below(4) {
        match prng.below(15) {
            0 => {
                reading.file_len = prng.pick(&[len + 1, len.saturating_sub(1), 0, usize::max_value(), len + (1 << 32)])
            }
            1 => {
                let n = if prng.one_in(3) { prng.pick(&BOUND_COUNTS) } else { prng.below(6) };
                let kind = prng.pick(&BOUND_KINDS);
                reading.state_bound(prng, kind, n);
            }
            2 => {
                reading.bound.iter_mut().for_each(|b| *b = prng.byte());
            }
            3 => reading.pending = Some(number(prng)),
            4 => reading.pending = None,
            5 | 6 => reading.total = number(prng),
            14 => reading.keys = prng.pick(&[0, 0, 1, TOP]),
            7 => {
                let n = prng.pick(&COUNTS);
                reading.state_levels(prng, addrs, len, n);
            }
            8 => {
                let n = prng.below(reading.levels.len() + 2);
                reading.state_levels(prng, addrs, len, n);
            }
            9 => {
                // one level to follow above many
                let n = prng.pick(&[254, 255, 256]);
                reading.state_levels(prng, addrs, len, n);
                let last = &mut reading.levels[n - 1];
                last.addr = prng.pick(addrs) as u32;
                last.place = 0;
            }
            _ => {
                if !reading.levels.is_empty() {
                    let i = if prng.one_in(2) { reading.levels.len() - 1 } else { prng.below(reading.levels.len()) };
                    let other = level(prng, addrs, len);
                    let here = &mut reading.levels[i];
                    match prng.below(4) {
                        0 => here.addr = other.addr,
                        1 => here.inp = other.inp,
                        2 => here.place = other.place,
                        _ => here.sum = other.sum,
                    }
                }
            }
        }
    }
    reading
}

// Every combination of what a reading states at its limits, on levels that are all at the address given.
pub fn at_limits(file: &[u8], addr: usize) -> Vec<Reading> {
    let mut readings = Vec::new();
    for &level_count in &[0, 1, 255, 256, 257, usize::max_value()] {
        for &place in &[0, 256] {
            for &bound_len in &[0, 255, 256, usize::max_value()] {
                for &kind in &BOUND_KINDS {
                    for &total in &[0, TOP - 1, TOP] {
                        for &pending in &[None, Some(TOP)] {
                            for &more in &[0, 1] {
                                let mut reading = blank(file);
                                let level = Level { addr: addr as u32, inp: b'a', place, sum: 0 };
                                reading.levels = vec![level; level_count.min(LEVELS)];
                                reading.level_count = level_count;
                                reading.kind = kind;
                                reading.bound_len = bound_len;
                                let room = if kind == Kind::Unbounded { 0 } else { bound_len.min(BOUND_BYTES) };
                                reading.bound = vec![b'a'; room];
                                reading.total = total;
                                reading.keys = [TOP, 0, 1][readings.len() % 3];
                                reading.pending = pending;
                                reading.file_len += more;
                                readings.push(reading);
                            }
                        }
                    }
                }
            }
        }
    }
    readings
}
