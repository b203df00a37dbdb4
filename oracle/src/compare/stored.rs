// Nodes that the packer would not write so: unusual and sound ones, damaged ones, and other addresses, roots and lengths.

use super::reading::UNSOUND_NAMES;
use super::{describe_at, same, Checked, Run, DAMAGED, DELTA_SIZES, OUTPUT_SIZES, UNUSUAL};
use crate::answers::{At, Meaning};
use crate::generate;
use crate::model::{self, Form, INDEX_ABOVE};

const DAMAGES: [&str; 12] = [
    "one byte of the node",
    "one of the last three bytes",
    "the sizes byte",
    "an input",
    "an index entry",
    "a delta",
    "a root below the address",
    "another address",
    "a file cut short",
    "bytes below 16",
    "the root of nothing",
    "any bytes",
];

// A stored node at each of these F: final, final output and transitions, or nothing where it is unsound. It is the root.
struct Row {
    name: &'static str,
    bytes: &'static [u8],
    firsts: &'static [usize],
    node: Option<(bool, u64, &'static [(u8, u64, usize)])>,
}

const UP: &[usize] = &[16, 17, 40, 300];

const ROWS: &[Row] = &[
    Row { name: "next-at-16", bytes: &[0xc5], firsts: &[16], node: None },
    Row { name: "next-at-17", bytes: &[0xc5], firsts: &[17], node: Some((false, 0, &[(b'a', 0, 16)])) },
    Row { name: "next-input-byte", bytes: &[0xff, 0xc0], firsts: &[19], node: Some((false, 0, &[(255, 0, 18)])) },
    Row { name: "next-common-spelled", bytes: b"a\xc0", firsts: &[19], node: Some((false, 0, &[(b'a', 0, 18)])) },
    Row { name: "delta-is-first", bytes: &[0x10, 0x10, 0x85], firsts: &[16], node: Some((false, 0, &[(b'a', 0, 0)])) },
    Row { name: "delta-above-first", bytes: &[0x11, 0x10, 0x85], firsts: &[16], node: None },
    Row { name: "target-15", bytes: &[0x01, 0x10, 0x85], firsts: &[16], node: None },
    Row { name: "target-1", bytes: &[0x0f, 0x10, 0x85], firsts: &[16], node: None },
    Row { name: "target-16", bytes: &[0x01, 0x10, 0x85], firsts: &[17], node: Some((false, 0, &[(b'a', 0, 16)])) },
    Row { name: "one-wide-zeros", bytes: &[0, 0, 0, 0x21, 0x85], firsts: UP, node: Some((false, 0, &[(b'a', 0, 0)])) },
    Row { name: "one-no-delta", bytes: &[0x07, 0x01, 0x85], firsts: UP, node: None },
    Row { name: "one-last-common", bytes: &[0, 0x10, 0xbf], firsts: UP, node: Some((false, 0, &[(b'G', 0, 0)])) },
    Row { name: "any-one", bytes: &[0, b'a', 0x10, 0x01], firsts: UP, node: Some((false, 0, &[(b'a', 0, 0)])) },
    Row {
        name: "any-one-final",
        bytes: &[7, 9, 0, b'a', 0x11, 0x41],
        firsts: UP,
        node: Some((true, 7, &[(b'a', 9, 0)])),
    },
    Row {
        name: "any-two-by-count-byte",
        bytes: &[0, 0, b'b', b'a', 0x10, 2, 0x40],
        firsts: UP,
        node: Some((true, 0, &[(b'a', 0, 0), (b'b', 0, 0)])),
    },
    Row { name: "final-of-nothing", bytes: &[0, 0, 0x40], firsts: UP, node: Some((true, 0, &[])) },
    Row { name: "final-of-nothing-delta-size-8", bytes: &[0x80, 0, 0x40], firsts: UP, node: Some((true, 0, &[])) },
    Row { name: "final-of-nothing-delta-size-9", bytes: &[0x90, 0, 0x40], firsts: UP, node: None },
    Row { name: "final-output-wide", bytes: &[7, 0, 0x02, 0, 0x40], firsts: UP, node: Some((true, 7, &[])) },
    Row { name: "root-of-nothing", bytes: &[0, 0, 0], firsts: UP, node: Some((false, 0, &[])) },
    Row { name: "root-of-nothing-output-size-8", bytes: &[0x08, 0, 0], firsts: UP, node: Some((false, 0, &[])) },
    Row { name: "inputs-equal", bytes: &[0, 0, b'a', b'a', 0x10, 0x02], firsts: UP, node: None },
    Row { name: "inputs-descend", bytes: &[0, 0, b'a', b'b', 0x10, 0x02], firsts: UP, node: None },
    Row { name: "count-byte-1-is-256", bytes: &[0, b'a', 0x10, 1, 0x00], firsts: &[16, 300], node: None },
];

impl<'a> Run<'a> {
    // Nodes that the packer would not write so, and that are sound.
    pub fn unusual(&mut self) -> Checked {
        self.unusual_rows()?;
        for _ in 0..UNUSUAL / self.one_in {
            let version = self.prng.pick(&[1, 1, 2, 2, 3, 3, 3, 0, 4]);
            let (stored, meaning, file, addr) = self.stored_node(version, 0);
            let root = match self.prng.below(3) {
                0 => addr + self.prng.below(100),
                _ => addr,
            };
            let useful = meaning.is_final || !meaning.transitions.is_empty() || root == addr;
            let at = At { file: &file, version, root, addr };
            self.read(at, if useful { Some(&meaning) } else { None }, true)?;
            for &(there, what) in &[
                (stored.wide_output, "outputs wider than needed"),
                (stored.wide_delta, "deltas wider than needed"),
                (stored.one_as_any, "one transition in the form for any"),
                (stored.count_byte_below_64, "a count byte below 64"),
                (stored.delta_is_first, "a delta of F, for target 0"),
                (stored.index_not_255, "an index entry of an absent byte below 255"),
                (stored.common_input_spelled, "a common input spelled out"),
                (stored.delta_size_of_none, "a delta size without transitions"),
                (stored.form == Form::Any && stored.count > INDEX_ABOVE && version < 2, "no index in version 1"),
                (meaning.is_final && stored.count == 0 && meaning.final_output == 0, "a stored final node of nothing"),
                (version == 1, "version 1"),
                (version == 2, "version 2"),
                (version == 3, "version 3"),
            ] {
                if there {
                    self.count(what);
                }
            }
            if stored.form != Form::Next {
                self.count(OUTPUT_SIZES[stored.output_size]);
                self.count(DELTA_SIZES[stored.delta_size]);
            }
        }
        self.require(
            &[
                "outputs wider than needed",
                "deltas wider than needed",
                "one transition in the form for any",
                "a count byte below 64",
                "a delta of F, for target 0",
                "an index entry of an absent byte below 255",
                "a common input spelled out",
                "a delta size without transitions",
                "no index in version 1",
                "a stored final node of nothing",
                "version 1",
                "version 2",
                "version 3",
            ],
            100,
        )?;
        self.require(&OUTPUT_SIZES, 100)?;
        self.require(&DELTA_SIZES, 100)
    }

    // A record of at least so many transitions in some layout, in a file with other bytes around it.
    fn stored_node(&mut self, version: u64, least: usize) -> (generate::Stored, Meaning, Vec<u8>, usize) {
        let prng = &mut self.prng;
        let first = match prng.below(4) {
            0 => prng.between(16, 20),
            1 => prng.between(16, 60),
            _ => prng.between(16, 700),
        };
        let record = generate::small_record(prng, first, least);
        let stored = generate::any_layout(prng, &record, version, first);
        let mut file = vec![0; first + stored.bytes.len() + prng.below(20)];
        if prng.one_in(2) {
            prng.fill(&mut file);
        }
        let addr = first + stored.bytes.len() - 1;
        file[first..=addr].copy_from_slice(&stored.bytes);
        (stored, Meaning::of_record(&record, first), file, addr)
    }

    // Small nodes written by hand, each with what it means, at F = 16 and, where it leads nowhere but 0, farther up.
    fn unusual_rows(&mut self) -> Checked {
        for row in ROWS {
            for &version in &[1, 2, 3] {
                for &first in row.firsts {
                    let mut file = vec![0; first];
                    file.extend(row.bytes);
                    let addr = file.len() - 1;
                    // one more byte after the root
                    file.push(0xc1);
                    let at = At { file: &file, version, root: addr, addr };
                    let judged = model::judge(at);
                    let input = || format!("row \"{}\", {}", row.name, describe_at(at));
                    let read = judged.as_ref().ok().map(|node| {
                        let ts: Vec<_> = node.transitions.iter().map(|t| (t.inp, t.out, t.addr)).collect();
                        (node.is_final, node.final_output, ts)
                    });
                    let want = row.node.map(|(is_final, output, ts)| (is_final, output, ts.to_vec()));
                    same("a row", input, ("row", want), ("model", read))?;
                    self.read(at, None, true)?;
                    self.count("rows by hand");
                }
            }
        }
        Ok(())
    }

    // ---- damaged nodes

    pub fn damaged(&mut self) -> Checked {
        for _ in 0..DAMAGED / self.one_in {
            let kind = self.prng.below(DAMAGES.len());
            let mut version = self.prng.pick(&[1, 1, 1, 2, 2, 2, 3, 3, 3, 3, 3, 0, 4, u64::max_value()]);
            let least = match DAMAGES[kind] {
                "an index entry" => {
                    version = version.max(2);
                    INDEX_ABOVE + 1
                }
                "an input" => 2,
                "a delta" => 1,
                _ => 0,
            };
            let (stored, meaning, mut file, mut addr) = self.stored_node(version, least);
            let prng = &mut self.prng;
            let first = meaning.first;
            let mut root = match prng.below(4) {
                0 | 1 => addr,
                2 => addr + prng.below(100),
                _ => usize::max_value(),
            };
            match DAMAGES[kind] {
                "one byte of the node" => {
                    let i = prng.between(first, addr);
                    file[i] ^= prng.between(1, 255) as u8;
                }
                "one of the last three bytes" => {
                    let i = addr - prng.below(stored.bytes.len().min(3));
                    file[i] = match prng.below(3) {
                        0 => prng.byte(),
                        1 => file[i].wrapping_add(1),
                        _ => file[i] ^ (1 << prng.below(8)),
                    };
                }
                "the sizes byte" => {
                    let i = first + stored.sizes_at;
                    let wide = prng.between(0, 15) as u8;
                    file[i] = match prng.below(4) {
                        0 => file[i] / 16 * 16 + wide,
                        1 => wide * 16 + file[i] % 16,
                        2 => file[i] % 16,
                        _ => prng.byte(),
                    };
                }
                "an input" => {
                    let inputs = first + stored.inputs_at;
                    let (i, j) = (prng.below(stored.count), prng.below(stored.count));
                    match prng.below(3) {
                        0 => file[inputs + i] = file[inputs + j],
                        1 => file.swap(inputs + i, inputs + j),
                        _ => file[inputs + i] = file[inputs + i].wrapping_add(1),
                    }
                }
                "an index entry" => {
                    let i = first + stored.index_at + prng.below(256);
                    file[i] = match prng.below(5) {
                        0 => file[i].wrapping_add(1),
                        1 => file[i].wrapping_sub(1),
                        2 => stored.count as u8,
                        3 => 255,
                        _ => prng.byte(),
                    };
                }
                "a delta" if stored.form != Form::Next => {
                    let i = first + stored.deltas_at + prng.below(stored.count) * stored.delta_size;
                    // targets 16, 15, 1, 0, below 0, 17 to F - 1; and any delta
                    let f = first as u64;
                    let delta = match prng.below(8) {
                        0 => f - 16,
                        1 => f - 15,
                        2 => f - 1,
                        3 => f,
                        4 => f + 1,
                        5 => 1,
                        6 => prng.next() % (f + 20),
                        _ => prng.next(),
                    };
                    file[i..i + stored.delta_size].copy_from_slice(&delta.to_le_bytes()[..stored.delta_size]);
                }
                "a root below the address" => root = prng.below(addr),
                "another address" => {
                    addr = match prng.below(6) {
                        0 => addr - 1,
                        1 => addr + 1,
                        2 => prng.below(20),
                        3 => prng.below(file.len()),
                        4 => file.len() + prng.below(3),
                        _ => usize::max_value() - prng.below(3),
                    }
                }
                "a file cut short" => {
                    let len = if prng.one_in(2) { addr } else { prng.below(addr) };
                    file.truncate(len);
                }
                "bytes below 16" => {
                    // the node moved down, so that its first byte is below 16
                    let down = first - prng.below(16);
                    file.drain(..down);
                    addr -= down;
                    root = root.saturating_sub(down);
                }
                "the root of nothing" => {
                    // neither final nor leading on, at the root or below it
                    let sizes = prng.between(0, 8) * 16 + prng.between(0, 8);
                    file.truncate(first);
                    file.extend(&[sizes as u8, 0, 0]);
                    addr = file.len() - 1;
                    root = addr + prng.pick(&[0, 0, 1, 7]);
                }
                "any bytes" => {
                    prng.fill(&mut file);
                    addr = prng.below(file.len());
                }
                _ => {}
            }
            self.count(DAMAGES[kind]);
            self.read(At { file: &file, version, root, addr }, None, true)?;
        }
        self.require(&DAMAGES, 1_000)?;
        self.require(&["nodes sound", "nodes unsound"], 20_000)?;
        self.require(&UNSOUND_NAMES, 1_000)
    }
}
