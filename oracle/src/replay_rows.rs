// The rows by hand of the replay list of nodes: document 01's rows that are only run, limits, and bad input, each with its name and
// the answer that it wants. Writing a row holds the wanted answer to the model, and to the Rust where it answers.

use crate::answers::{Meaning, Record, Transition, RECORD, SPACE};
use crate::model::{self, MAX_LEN};
use crate::replay::{Stored, ROOM};
use crate::replay_list::List;

// A record: final with this output or not, the inputs, the outputs and the targets.
fn record(final_output: Option<u64>, inputs: &[u8], outputs: &[u64], targets: &[usize]) -> Record {
    Record {
        final_flag: final_output.is_some() as u8,
        final_output: final_output.unwrap_or(0),
        inputs: inputs.to_vec(),
        outputs: outputs.to_vec(),
        targets: targets.to_vec(),
    }
}

fn one(inp: u8, out: u64, target: usize) -> Record {
    record(None, &[inp], &[out], &[target])
}

// a to 0 with the output 0, and b to 16 with the output 5.
fn two(final_output: Option<u64>) -> Record {
    record(final_output, b"ab", &[0, 5], &[0, 16])
}

// Where a node of many transitions stands: above each of its targets.
const MANY: usize = 300;

// n ascending inputs with as many bytes before them as after them; every third transition leads to 0.
fn many(n: usize) -> Record {
    let start = (256 - n) / 2;
    Record {
        inputs: (0..n).map(|i| (start + i) as u8).collect(),
        outputs: (0..n).map(|i| 3 * i as u64).collect(),
        targets: (0..n).map(|i| if i % 3 == 0 { 0 } else { 16 + i }).collect(),
        ..Record::default()
    }
}

// ---- nodes of many transitions

// Packed, read in versions 3 and 2, and without the index in version 1. Each read finds every byte at its place or not at all.
fn counts(list: &mut List) {
    let rows: [(usize, usize, [u8; 3]); 7] = [
        (0, 3, [0, 0, 0]),
        (32, 130, [0x70, 0x21, 0x20]),
        (33, 390, [0xff, 0x21, 0x21]),
        (63, 510, [0xff, 0x21, 0x3f]),
        (64, 515, [0x21, 0x40, 0x00]),
        (255, 1534, [0x22, 0xff, 0x00]),
        (256, 1539, [0x22, 0x01, 0x00]),
    ];
    for &(n, len, last) in &rows {
        let bytes = model::pack(&many(n), MANY);
        assert!(bytes.len() == len && bytes.ends_with(&last));
        list.back(&format!("transitions-{}", n), &many(n), MANY);
        if n > model::INDEX_ABOVE {
            let shorter = model::pack_in(&many(n), MANY, 1);
            list.read(&Stored::root(&shorter, MANY, [1, 1]), Some(&Meaning::of_record(&many(n), MANY)));
        }
    }
}

// A node of 33 transitions, the inputs 111 to 143, with one index entry changed.
fn index_entries(list: &mut List) {
    for &(name, b, entry, sound) in &[
        ("index-as-packed", 0, 255, true),
        ("index-absent-at-count", 0, 33, true),
        ("index-absent-below-count", 0, 32, false),
        ("index-input-at-next-place", 111, 1, false),
        ("index-input-absent", 143, 255, false),
    ] {
        let mut bytes = model::pack(&many(33), MANY);
        // the index stands before the sizes byte and the state
        let index = bytes.len() - 258;
        bytes[index + b] = entry;
        let meaning = Meaning::of_record(&many(33), MANY);
        list.node(name, &many(33), MANY);
        list.read(&Stored::root(&bytes, MANY, [3, 3]), if sound { Some(&meaning) } else { None });
    }
}

// ---- packed and read back

// A row of packing and reading back: the name, the record, F, and the bytes.
fn back(list: &mut List, name: &str, record: &Record, first: usize, bytes: &[u8]) {
    assert_eq!(model::pack(record, first), bytes);
    list.back(name, record, first);
}

// A final node whose outputs are the least and the largest of their size.
fn output_sizes(list: &mut List) {
    for size in 0..=8 {
        let low = if size == 0 { 0 } else { 256u64.pow(size - 1) };
        let high = if size == 0 { 0 } else { u64::max_value() >> (64 - 8 * size) };
        let mut bytes = Vec::new();
        for n in &[low, high, low] {
            bytes.extend(&n.to_le_bytes()[..size as usize]);
        }
        bytes.extend(&[0, 0, b'b', b'a', 0x10 + size as u8, 0x42]);
        let outputs = record(Some(low), b"ab", &[low, high], &[0, 0]);
        back(list, &format!("output-size-{}", size), &outputs, 16, &bytes);
    }
}

fn packed_deltas(list: &mut List) {
    back(list, "delta-0", &one(b'a', 0, 0), 16, &[0, 0x10, 0x85]);
    back(list, "delta-255", &one(b'a', 0, 16), 271, &[0xff, 0x10, 0x85]);
    back(list, "delta-256", &one(b'a', 0, 16), 272, &[0, 1, 0x20, 0x85]);
    back(list, "delta-65535", &one(b'a', 0, 16), 65_551, &[0xff, 0xff, 0x20, 0x85]);
    back(list, "delta-65536", &one(b'a', 0, 16), 65_552, &[0, 0, 1, 0x30, 0x85]);
}

// H and G are the 62nd and the 63rd common input, and the last that the state byte keeps; W is the 64th.
fn inputs(list: &mut List) {
    back(list, "input-0-form-10", &one(0, 0, 0), 16, &[0, 0x10, 0, 0x80]);
    back(list, "input-H-form-10", &one(b'H', 0, 0), 16, &[0, 0x10, 0xbe]);
    back(list, "input-G-form-10", &one(b'G', 0, 0), 16, &[0, 0x10, 0xbf]);
    back(list, "input-W-form-10", &one(b'W', 0, 0), 16, &[0, 0x10, b'W', 0x80]);
    back(list, "input-255-form-10", &one(255, 0, 0), 16, &[0, 0x10, 255, 0x80]);
    back(list, "input-0-form-11", &one(0, 0, 16), 17, &[0, 0xc0]);
    back(list, "input-H-form-11", &one(b'H', 0, 16), 17, &[0xfe]);
    back(list, "input-G-form-11", &one(b'G', 0, 16), 17, &[0xff]);
    back(list, "input-W-form-11", &one(b'W', 0, 16), 17, &[b'W', 0xc0]);
    back(list, "input-255-form-11", &one(255, 0, 16), 17, &[255, 0xc0]);
}

// ---- stored nodes

// What a row wants: F, the final output of a final node, and the transitions; or nothing where the node is not sound.
type Wanted<'t> = Option<(usize, Option<u64>, &'t [(u8, u64, usize)])>;

// A row in version 3: the node at an address of a file of zeros that ends with these bytes, which stand from a place on.
fn judge_at(list: &mut List, name: &str, bytes: &[u8], laid: usize, root: usize, addr: usize, wanted: Wanted) {
    let (first, final_output, transitions) = wanted.unwrap_or((0, None, &[]));
    let transitions: Vec<_> = transitions.iter().map(|&(inp, out, addr)| Transition { inp, out, addr }).collect();
    let record = Record {
        final_flag: final_output.is_some() as u8,
        final_output: final_output.unwrap_or(0),
        inputs: transitions.iter().map(|t| t.inp).collect(),
        outputs: transitions.iter().map(|t| t.out).collect(),
        targets: transitions.iter().map(|t| t.addr).collect(),
    };
    let meaning = Meaning::of_record(&record, first);
    list.node(name, &record, first);
    list.read(&Stored { bytes, laid, versions: [3, 3], root, addr }, wanted.map(|_| &meaning));
}

// The same, where the bytes are the root.
fn judge(list: &mut List, name: &str, bytes: &[u8], first: usize, wanted: Wanted) {
    let addr = first + bytes.len() - 1;
    judge_at(list, name, bytes, first, addr, addr, wanted);
}

// Every delta size by hand, a/0 to 16: larger than the packer would choose, and sound.
fn wide_deltas(list: &mut List) {
    for size in 1..=8u8 {
        let mut bytes = vec![0; usize::from(size)];
        bytes[0] = 16;
        bytes.extend(&[16 * size, 0x85]);
        judge(list, &format!("delta-size-{}", size), &bytes, 32, Some((32, None, &[(b'a', 0, 16)])));
    }
    judge(list, "delta-size-8-high-byte", b"\x10\0\0\0\0\0\0\x01\x80\x85", 32, None);
}

// The node of most rows below: a/0 to 0 and b/0 to 16, from 20 to 25.
const TWO: &[u8] = b"\x04\0ba\x10\x02";
const TO_16: Wanted = Some((20, None, &[(b'a', 0, 0), (b'b', 0, 16)]));

fn addresses(list: &mut List) {
    let most = usize::max_value();
    judge(list, "two-transitions", TWO, 20, TO_16);
    judge_at(list, "root-above", TWO, 20, 1000, 25, TO_16);
    judge_at(list, "address-0", TWO, 20, 25, 0, Some((0, Some(0), &[])));
    judge_at(list, "address-1", TWO, 20, 25, 1, None);
    judge_at(list, "address-15", TWO, 20, 25, 15, None);
    judge_at(list, "address-past-root", TWO, 20, 24, 25, None);
    judge_at(list, "address-past-file", TWO, 20, 1000, 26, None);
    judge_at(list, "address-largest", TWO, 20, most, most, None);
}

fn first_bytes(list: &mut List) {
    judge(list, "first-byte-16", b"\0\0ba\x10\x02", 16, Some((16, None, &[(b'a', 0, 0), (b'b', 0, 0)])));
    judge(list, "first-byte-15", b"\0\0ba\x10\x02", 15, None);
    judge(list, "first-byte-below-0", b"\x11\x3f", 20, None);
    judge(list, "next-at-17", b"\xc1", 17, Some((17, None, &[(b't', 0, 16)])));
    judge(list, "next-at-16", b"\xc1", 16, None);
}

fn sizes(list: &mut List) {
    judge(list, "delta-size-9", b"\0\0\0\0\0\0\0\0\0a\x90\x01", 20, None);
    judge(list, "output-size-9", b"\0\0\0\0\0\0\0\0\0\0a\x19\x01", 20, None);
    judge(list, "delta-size-0", b"a\0\x01", 20, None);
    judge(list, "delta-size-0-form-10", b"\0\x85", 20, None);
    judge(list, "delta-size-9-form-10", b"\0\0\0\0\0\0\0\0\0\x90\x85", 20, None);
    judge(list, "delta-size-0-no-transitions", b"\0\0\x40", 20, Some((20, Some(0), &[])));
}

fn orders_and_targets(list: &mut List) {
    judge(list, "inputs-equal", b"\x04\0aa\x10\x02", 20, None);
    judge(list, "inputs-descending", b"\x04\0ab\x10\x02", 20, None);
    judge(list, "target-16", TWO, 20, TO_16);
    judge(list, "target-15", b"\x05\0ba\x10\x02", 20, None);
    judge(list, "target-1", b"\x13\0ba\x10\x02", 20, None);
    judge(list, "target-0-by-delta", b"\x14\0ba\x10\x02", 20, Some((20, None, &[(b'a', 0, 0), (b'b', 0, 0)])));
    judge(list, "target-below-0", b"\x15\0ba\x10\x02", 20, None);
    judge(list, "target-15-form-10", b"\x05\x10\x85", 20, None);
}

fn useful(list: &mut List) {
    judge(list, "nothing-as-root", b"\0\0\0", 20, Some((20, None, &[])));
    judge_at(list, "nothing-below-root", b"\0\0\0", 20, 1000, 22, None);
    judge_at(list, "final-below-root", b"\x07\x01\0\x40", 20, 1000, 23, Some((20, Some(7), &[])));
}

fn count_bytes(list: &mut List) {
    judge(list, "count-byte-2", b"\x04\0ba\x10\x02\0", 20, TO_16);
    judge(list, "count-byte-1-is-not-one", b"\x04a\x10\x01\0", 20, None);
}

// ---- packing

// A row of packing: the name, the record, F, the room, and the bytes or the refusal.
fn pack(list: &mut List, name: &str, record: &Record, first: usize, room: usize, wanted: Result<&[u8], u64>) {
    list.node(name, record, first);
    let answer = list.pack(record, first, room);
    assert_eq!(answer.as_deref().map_err(|why| *why), wanted, "{}", name);
}

// Document 01's packing rows, and rooms at their limits.
fn rooms(list: &mut List) {
    let none = |final_output| record(final_output, &[], &[], &[]);
    pack(list, "form-11-room-1", &one(b'a', 0, 18), 19, 1, Ok(b"\xc5"));
    pack(list, "form-11-room-0", &one(b'a', 0, 18), 19, 0, Err(SPACE));
    pack(list, "form-11-input-room-2", &one(b'W', 0, 18), 19, 2, Ok(b"W\xc0"));
    pack(list, "form-11-input-room-1", &one(b'W', 0, 18), 19, 1, Err(SPACE));
    pack(list, "form-10-room-3", &one(b'a', 0, 0), 16, 3, Ok(b"\0\x10\x85"));
    pack(list, "form-10-room-2", &one(b'a', 0, 0), 16, 2, Err(SPACE));
    pack(list, "form-10-input-room-6", &one(b'W', 300, 0), 16, 6, Ok(b"\x2c\x01\0\x12W\x80"));
    pack(list, "form-10-input-room-5", &one(b'W', 300, 0), 16, 5, Err(SPACE));
    pack(list, "final-7-room-4", &none(Some(7)), 16, 4, Ok(b"\x07\x01\0\x40"));
    pack(list, "final-7-room-3", &none(Some(7)), 16, 3, Err(SPACE));
    pack(list, "final-0-room-0", &none(Some(0)), 16, 0, Ok(b""));
    pack(list, "not-final-room-3", &none(None), 16, 3, Ok(b"\0\0\0"));
    pack(list, "not-final-room-2", &none(None), 16, 2, Err(SPACE));
    pack(list, "any-room-8", &two(None), 20, 8, Ok(b"\x05\0\x04\0ba\x11\x02"));
    pack(list, "any-room-7", &two(None), 20, 7, Err(SPACE));
    pack(list, "transitions-33-room-exact", &many(33), MANY, 390, Ok(&model::pack(&many(33), MANY)));
    pack(list, "transitions-33-room-short", &many(33), MANY, 389, Err(SPACE));
    pack(list, "transitions-256-room-exact", &many(256), MANY, 1539, Ok(&model::pack(&many(256), MANY)));
    pack(list, "transitions-256-room-short", &many(256), MANY, 1538, Err(SPACE));
}

// Each rule of RECORD, broken and at its limit.
fn records(list: &mut List) {
    let not_final = Record { final_output: 9, ..two(None) };
    let far = b"\x05\0\xf0\xff\xff\0\0\0ba\x31\x02";
    pack(list, "record-right", &two(None), 20, ROOM, Ok(b"\x05\0\x04\0ba\x11\x02"));
    pack(list, "record-final", &two(Some(9)), 20, ROOM, Ok(b"\x09\x05\0\x04\0ba\x11\x42"));
    pack(list, "record-final-output-not-final", &not_final, 20, ROOM, Err(RECORD));
    pack(list, "record-first-17", &two(None), 17, ROOM, Ok(b"\x05\0\x01\0ba\x11\x02"));
    pack(list, "record-first-16777216", &two(None), 16_777_216, ROOM, Ok(far));
    pack(list, "record-first-16777217", &two(None), 16_777_217, ROOM, Ok(b"\x05\0\xf1\xff\xff\0\0\0ba\x31\x02"));
    pack(list, "record-first-4294967295", &two(None), MAX_LEN, ROOM, Ok(b"\x05\0\xef\xff\xff\xff\0\0\0\0ba\x41\x02"));
    pack(list, "record-first-4294967296", &two(None), MAX_LEN + 1, ROOM, Err(RECORD));
    pack(list, "record-before-space", &two(None), MAX_LEN + 1, 0, Err(RECORD));
    pack(list, "record-first-16", &one(b'a', 0, 0), 16, ROOM, Ok(b"\0\x10\x85"));
    pack(list, "record-first-15", &one(b'a', 0, 0), 15, ROOM, Err(RECORD));
    pack(list, "record-target-16", &one(b'a', 0, 16), 20, ROOM, Ok(b"\x04\x10\x85"));
    pack(list, "record-target-15", &one(b'a', 0, 15), 20, ROOM, Err(RECORD));
    pack(list, "record-target-1", &one(b'a', 0, 1), 20, ROOM, Err(RECORD));
    pack(list, "record-target-19", &one(b'a', 0, 19), 20, ROOM, Ok(b"\xc5"));
    pack(list, "record-target-20", &one(b'a', 0, 20), 20, ROOM, Err(RECORD));
}

fn record_lists(list: &mut List) {
    let refused = |list: &mut List, name, inputs: &[u8], outputs: &[u64], targets: &[usize]| {
        pack(list, name, &record(None, inputs, outputs, targets), 20, ROOM, Err(RECORD));
    };
    refused(list, "record-inputs-equal", b"aa", &[0, 5], &[0, 16]);
    refused(list, "record-inputs-descending", b"ba", &[0, 5], &[0, 16]);
    refused(list, "record-transitions-257", &[0; 257], &[0; 257], &[0; 257]);
    refused(list, "record-outputs-short", b"ab", &[0], &[0, 16]);
    refused(list, "record-outputs-long", b"ab", &[0, 5, 0], &[0, 16]);
    refused(list, "record-targets-short", b"ab", &[0, 5], &[0]);
    refused(list, "record-targets-long", b"ab", &[0, 5], &[0, 16, 0]);
}

pub fn put(list: &mut List) {
    counts(list);
    index_entries(list);
    output_sizes(list);
    packed_deltas(list);
    wide_deltas(list);
    inputs(list);
    addresses(list);
    first_bytes(list);
    sizes(list);
    orders_and_targets(list);
    useful(list);
    count_bytes(list);
    rooms(list);
    records(list);
    record_lists(list);
}
