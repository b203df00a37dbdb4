// Records and stored nodes to compare on: random ones, and those at each boundary.

use crate::answers::Record;
use crate::model::{self, Form, FIRST_NODE, INDEX_ABOVE};
use crate::prng::Prng;

// The transition counts around each change of layout: none, one, the index, the count byte, 256.
pub const COUNTS: [usize; 14] = [0, 1, 2, 3, 31, 32, 33, 62, 63, 64, 65, 254, 255, 256];

// The largest F of the records that are made by the thousand: each F farther up would be a page of its own, so those of up
// to 4 GiB come by the hundred (compare/long.rs).
pub const FAR: usize = 16_777_216;

// The first bytes around each change of a delta's size: a target of 16 is then 255, 256, .. bytes below.
pub const FIRSTS: [usize; 14] = [16, 17, 18, 19, 32, 271, 272, 273, 65_551, 65_552, 65_553, 1_000_000, FAR - 1, FAR];

// Inputs at the ends of the byte and of the common ones: H, G and W are the 62nd, 63rd and 64th, and only the first 63
// are written into the state byte; t and e are the first two.
pub const INPUTS: [u8; 9] = [0, 1, b't', b'e', b'H', b'G', b'W', 254, 255];

// Where a record's transitions lead.
#[derive(Clone, Copy)]
pub enum Targets {
    Zero,
    Before,
    Lowest,
    // the farthest delta takes exactly this many bytes, where F allows it
    Size(usize),
    Any,
}

pub const TARGETS: [Targets; 7] = [
    Targets::Zero,
    Targets::Before,
    Targets::Lowest,
    Targets::Size(1),
    Targets::Size(2),
    Targets::Size(3),
    Targets::Any,
];

// The largest number of this many bytes.
pub fn largest(size: usize) -> u64 {
    if size == 8 {
        u64::max_value()
    } else {
        (1 << (8 * size)) - 1
    }
}

// A number that takes exactly this many bytes, often the least or the largest; 0 for no bytes.
pub fn number_of_size(prng: &mut Prng, size: usize) -> u64 {
    if size == 0 {
        return 0;
    }
    let low = if size == 1 { 1 } else { largest(size - 1) + 1 };
    let high = largest(size);
    match prng.below(5) {
        0 => low,
        1 => low + 1,
        2 => high,
        _ => low + prng.next() % (high - low).max(1),
    }
}

// n inputs in ascending order, with those of INPUTS and letters more often than others.
fn inputs(prng: &mut Prng, n: usize) -> Vec<u8> {
    let mut chosen = [false; 256];
    let mut count = 0;
    while count < n {
        let b = match prng.below(4) {
            0 if count < INPUTS.len() => prng.pick(&INPUTS),
            1 if count < 20 => prng.between(usize::from(b'a'), usize::from(b'z')) as u8,
            _ => prng.byte(),
        };
        if !chosen[usize::from(b)] {
            chosen[usize::from(b)] = true;
            count += 1;
        }
    }
    (0..=255).filter(|&b| chosen[usize::from(b)]).collect()
}

fn target_at(prng: &mut Prng, first: usize, targets: Targets) -> usize {
    let farthest = first - FIRST_NODE;
    if farthest == 0 {
        return 0;
    }
    match targets {
        Targets::Zero => 0,
        Targets::Before => first - 1,
        Targets::Lowest => FIRST_NODE,
        Targets::Size(size) => first - (number_of_size(prng, size) as usize).min(farthest),
        Targets::Any => match prng.below(8) {
            0 => 0,
            1 => first - 1,
            2 => FIRST_NODE,
            _ => {
                let size = prng.between(1, 3);
                first - (number_of_size(prng, size) as usize).min(farthest)
            }
        },
    }
}

// A record that breaks no rule: n transitions, outputs that take up to `size` bytes (none of them where that is 0),
// and targets of this kind.
pub fn record(prng: &mut Prng, n: usize, is_final: bool, size: usize, targets: Targets, first: usize) -> Record {
    let mut record = Record { inputs: inputs(prng, n), ..Record::default() };
    for _ in 0..n {
        let size = prng.between(0, size);
        record.outputs.push(number_of_size(prng, size));
    }
    if is_final {
        // any flag but 0 means final
        record.final_flag = if prng.one_in(4) { prng.byte().max(1) } else { 1 };
        let size = prng.between(0, size);
        record.final_output = number_of_size(prng, size);
    }
    // one of them has the full size
    let places = n + is_final as usize;
    if places > 0 {
        match prng.below(places) {
            i if i < n => record.outputs[i] = number_of_size(prng, size),
            _ => record.final_output = number_of_size(prng, size),
        }
    }
    for _ in 0..n {
        // the others are no farther than the one of this size
        let targets = match targets {
            Targets::Size(size) => Targets::Size(prng.between(1, size)),
            other => other,
        };
        record.targets.push(target_at(prng, first, targets));
    }
    if n > 0 {
        let i = prng.below(n);
        record.targets[i] = target_at(prng, first, targets);
    }
    record
}

// A transition count: mostly a few, since a node's cost grows with it.
fn any_count(prng: &mut Prng) -> usize {
    match prng.below(100) {
        0..=64 => prng.between(0, 3),
        65..=84 => prng.between(4, 12),
        85..=93 => prng.between(13, 33),
        94..=96 => prng.between(34, 66),
        97..=98 => prng.pick(&COUNTS),
        _ => prng.between(67, 256),
    }
}

fn any_first(prng: &mut Prng) -> usize {
    match prng.below(8) {
        0 => prng.pick(&FIRSTS),
        1 | 2 => prng.between(16, 40),
        3 | 4 => prng.between(16, 600),
        5 => prng.between(16, 70_000),
        _ => prng.between(16, FAR),
    }
}

// A random record that breaks no rule, and its F.
pub fn any_record(prng: &mut Prng) -> (Record, usize) {
    let first = any_first(prng);
    if prng.one_in(8) {
        // the forms 11 and 10, which other records seldom have
        let (size, targets) = (prng.between(0, 8), prng.pick(&TARGETS));
        let size = if prng.one_in(2) { 0 } else { size };
        return (record(prng, 1, false, size, targets, first), first);
    }
    let (n, is_final) = (any_count(prng), prng.one_in(2));
    let size = if prng.one_in(3) { 0 } else { prng.between(0, 8) };
    let targets = if prng.one_in(2) { Targets::Any } else { prng.pick(&TARGETS) };
    (record(prng, n, is_final, size, targets, first), first)
}

// A record for a file of a few hundred bytes, with at least so many transitions.
pub fn small_record(prng: &mut Prng, first: usize, least: usize) -> Record {
    let n = match prng.below(20) {
        0..=11 => prng.between(least, least + 3),
        12..=15 => prng.between(least, least + 20),
        16..=17 => prng.between(least, least + 40),
        18 => prng.pick(&COUNTS).max(least),
        _ => prng.between(least, 256),
    };
    let is_final = prng.one_in(2);
    let size = if prng.one_in(3) { 0 } else { prng.between(0, 8) };
    let targets = if prng.one_in(2) { Targets::Any } else { prng.pick(&TARGETS) };
    record(prng, n, is_final, size, targets, first)
}

// ---- stored nodes that the packer need not have written

// A stored node with the places of its parts, counted from F.
pub struct Stored {
    pub bytes: Vec<u8>,
    pub outputs_at: usize,
    pub deltas_at: usize,
    pub inputs_at: usize,
    pub index_at: usize,
    pub sizes_at: usize,
    pub output_size: usize,
    pub delta_size: usize,
    pub count: usize,
    pub form: Form,
    // what is unusual in it
    pub wide_output: bool,
    pub wide_delta: bool,
    pub one_as_any: bool,
    pub count_byte_below_64: bool,
    pub delta_is_first: bool,
    pub index_not_255: bool,
    pub common_input_spelled: bool,
    pub delta_size_of_none: bool,
}

// The record in some layout that document 01 allows at F in this version: sizes larger than needed, one transition in the
// form for many, a count byte below 64, a delta of F for target 0, index entries of absent bytes from the count up,
// a common input spelled out. (OPEN-POINTS: "Unusual and sound".)
pub fn any_layout(prng: &mut Prng, record: &Record, version: u64, first: usize) -> Stored {
    let count = record.inputs.len();
    let (least_output, least_delta) = model::sizes_of(record, first);
    let may_be_next = !record.is_final()
        && count == 1
        && record.outputs[0] == 0
        && first > FIRST_NODE
        && record.targets[0] == first - 1;
    let may_be_one = !record.is_final() && count == 1;
    let form = match prng.below(3) {
        0 if may_be_next => Form::Next,
        1 if may_be_one => Form::One,
        _ => Form::Any,
    };
    let mut s = Stored {
        bytes: Vec::new(),
        outputs_at: 0,
        deltas_at: 0,
        inputs_at: 0,
        index_at: 0,
        sizes_at: 0,
        output_size: if prng.one_in(2) { least_output } else { prng.between(least_output, 8) },
        delta_size: if prng.one_in(2) { least_delta } else { prng.between(least_delta, 8) },
        count,
        form,
        wide_output: false,
        wide_delta: false,
        one_as_any: form == Form::Any && may_be_one,
        count_byte_below_64: false,
        delta_is_first: false,
        index_not_255: false,
        common_input_spelled: false,
        delta_size_of_none: false,
    };
    if form != Form::Next {
        s.wide_output = s.output_size > least_output;
        s.wide_delta = count > 0 && s.delta_size > least_delta;
        s.delta_size_of_none = count == 0 && s.delta_size > 0;
        let mut deltas: Vec<u64> = record.targets.iter().map(|&t| model::delta_of(t, first)).collect();
        for d in &mut deltas {
            if *d == 0 && first as u64 <= largest(s.delta_size) && prng.one_in(3) {
                *d = first as u64;
                s.delta_is_first = true;
            }
        }
        if record.is_final() {
            s.bytes.extend(&record.final_output.to_le_bytes()[..s.output_size]);
        }
        s.outputs_at = s.bytes.len();
        for out in record.outputs.iter().rev() {
            s.bytes.extend(&out.to_le_bytes()[..s.output_size]);
        }
        s.deltas_at = s.bytes.len();
        for delta in deltas.iter().rev() {
            s.bytes.extend(&delta.to_le_bytes()[..s.delta_size]);
        }
    }
    s.inputs_at = s.bytes.len();
    if form == Form::Any {
        s.bytes.extend(record.inputs.iter().rev());
        s.index_at = s.bytes.len();
        if version >= 2 && count > INDEX_ABOVE {
            for b in 0..=255 {
                let entry = match record.inputs.iter().position(|&input| input == b) {
                    Some(place) => place as u8,
                    None if prng.one_in(2) => 255,
                    None => prng.between(count, 255) as u8,
                };
                let present = record.inputs.binary_search(&b).is_ok();
                s.index_not_255 |= !present && entry != 255;
                s.bytes.push(entry);
            }
        }
        s.sizes_at = s.bytes.len();
        s.bytes.push((s.delta_size * 16 + s.output_size) as u8);
        let state = if record.is_final() { 64 } else { 0 };
        match count {
            // a count byte of 1 would mean 256
            2..=63 if prng.one_in(3) => {
                s.count_byte_below_64 = true;
                s.bytes.extend(&[count as u8, state]);
            }
            1..=63 => s.bytes.push(state + count as u8),
            256 => s.bytes.extend(&[1, state]),
            _ => s.bytes.extend(&[count as u8, state]),
        }
    } else {
        s.index_at = s.bytes.len();
        s.sizes_at = s.bytes.len();
        if form == Form::One {
            s.bytes.push((s.delta_size * 16 + s.output_size) as u8);
        }
        let state = if form == Form::Next { 192 } else { 128 };
        let c = model::common_idx(record.inputs[0]);
        if c == 0 || prng.one_in(3) {
            s.common_input_spelled = c != 0;
            s.bytes.extend(&[record.inputs[0], state]);
        } else {
            s.bytes.push(state + c);
        }
    }
    s
}
