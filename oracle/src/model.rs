// A plain model of document 01, "A packed or read node" and RECORD, written from the paper and not from the Rust.
// Only the table COMMON_INPUTS_INV is the Rust's, since the paper names it and does not print it.
// It answers for every argument whatsoever, so it is what our library is held to where the Rust panics.

use crate::answers::{
    place_number, Answers, At, Meaning, Place, Record, Transition, NODE_UNSOUND, RECORD, REFUSED, SOUND, SPACE, UNSOUND,
};
use crate::given;

// The first byte that a node may take, and the largest F of a record.
pub const FIRST_NODE: usize = 16;
pub const MAX_LEN: usize = 4_294_967_295;
pub const MAX_TRANS: usize = 256;
// With more transitions than this a node has an index, in versions 2 and 3.
pub const INDEX_ABOVE: usize = 32;

// ---- stored numbers

// Lowest byte first.
pub fn number(bytes: &[u8]) -> u64 {
    bytes.iter().rev().fold(0, |n, &b| n * 256 + u64::from(b))
}

// The least count of bytes, 1 at least, that holds n.
pub fn size_of(n: u64) -> usize {
    let mut size = 1;
    let mut rest = n / 256;
    while rest > 0 {
        size += 1;
        rest /= 256;
    }
    size
}

// n in this many bytes, lowest first.
fn put(into: &mut Vec<u8>, n: u64, size: usize) {
    let mut rest = n;
    for _ in 0..size {
        into.push((rest % 256) as u8);
        rest /= 256;
    }
}

// ---- common inputs

// The input that the low six bits c stand for, where c is not 0.
fn common_input(c: u8) -> u8 {
    given::common_inputs_inv(c - 1)
}

// The low six bits for an input: 1 plus its place in the table, or 0 where that is past entry 62.
pub fn common_idx(input: u8) -> u8 {
    (1..=63).find(|&c| common_input(c) == input).unwrap_or(0)
}

// ---- reading

#[derive(Clone, Copy, Debug, Eq, Hash, Ord, PartialEq, PartialOrd)]
pub enum Unsound {
    // the address is not in the file, or it is past the root, or the first byte is below 16
    PastFile,
    PastRoot,
    Below16,
    // a size above 8, or deltas of no bytes
    OutputSize,
    DeltaSize,
    NoDelta,
    // an input that is not above the one before it
    Order,
    // the entry of an input is not its place, or the entry of an absent byte is below the count
    EntryOfInput,
    EntryOfAbsent,
    // a delta above F, or a target from 1 to 15
    DeltaBeyond,
    TargetBelow16,
    // neither final nor with a transition, and not the root
    Useless,
}

impl Unsound {
    pub const ALL: [Unsound; 12] = [
        Unsound::PastFile,
        Unsound::PastRoot,
        Unsound::Below16,
        Unsound::OutputSize,
        Unsound::DeltaSize,
        Unsound::NoDelta,
        Unsound::Order,
        Unsound::EntryOfInput,
        Unsound::EntryOfAbsent,
        Unsound::DeltaBeyond,
        Unsound::TargetBelow16,
        Unsound::Useless,
    ];
}

// How many bytes each part of a node takes, from F up.
struct Shape {
    is_final: bool,
    count: usize,
    // the bytes of one output and of one delta
    output_size: usize,
    delta_size: usize,
    // whether deltas are stored; the form 11 leads to F - 1 without
    stores_deltas: bool,
    // the inputs above the deltas; with one transition the input stands elsewhere
    stored_inputs: usize,
    index: usize,
    // sizes byte, count or input byte, state byte
    head: usize,
    // the input of the forms 11 and 10
    input: u8,
}

impl Shape {
    // The shape that the bytes up to the state byte at `addr` give. There are two bytes below it.
    fn of(file: &[u8], version: u64, addr: usize) -> Shape {
        let state = file[addr];
        let c = state % 64;
        // the byte below the state belongs to the node where c is 0: an input or a count
        let extra = if c == 0 { 1 } else { 0 };
        let below_state = file[addr - 1];
        let sizes = file[addr - 1 - extra];
        let (delta_size, output_size) = (usize::from(sizes / 16), usize::from(sizes % 16));
        let input = if c == 0 { below_state } else { common_input(c) };
        match state / 64 {
            3 => Shape {
                is_final: false,
                count: 1,
                output_size: 0,
                delta_size: 0,
                stores_deltas: false,
                stored_inputs: 0,
                index: 0,
                head: extra + 1,
                input,
            },
            2 => Shape {
                is_final: false,
                count: 1,
                output_size,
                delta_size,
                stores_deltas: true,
                stored_inputs: 0,
                index: 0,
                head: 1 + extra + 1,
                input,
            },
            top => {
                let count = match (c, below_state) {
                    (0, 1) => 256,
                    (0, n) => usize::from(n),
                    (n, _) => usize::from(n),
                };
                Shape {
                    is_final: top == 1,
                    count,
                    output_size,
                    delta_size,
                    stores_deltas: true,
                    stored_inputs: count,
                    index: if version >= 2 && count > INDEX_ABOVE { 256 } else { 0 },
                    head: 1 + extra + 1,
                    input,
                }
            }
        }
    }

    fn final_output_size(&self) -> usize {
        if self.is_final {
            self.output_size
        } else {
            0
        }
    }

    fn size(&self) -> usize {
        self.final_output_size()
            + self.count * self.output_size
            + self.count * self.delta_size
            + self.stored_inputs
            + self.index
            + self.head
    }
}

// A part of the file that is read from F up.
struct Upward<'f> {
    rest: &'f [u8],
}

impl<'f> Upward<'f> {
    fn take(&mut self, n: usize) -> &'f [u8] {
        let (part, rest) = self.rest.split_at(n);
        self.rest = rest;
        part
    }

    // Numbers of this size, which stand last transition first.
    fn numbers(&mut self, count: usize, size: usize) -> Vec<u64> {
        let mut numbers: Vec<u64> = (0..count).map(|_| number(self.take(size))).collect();
        numbers.reverse();
        numbers
    }
}

// The node at an address of a file: its meaning, or a condition of document 01 that it breaks.
pub fn judge(at: At) -> Result<Meaning, Unsound> {
    let At { file, version, root, addr } = at;
    if addr == 0 {
        // no bytes, no node
        if file.is_empty() {
            return Err(Unsound::PastFile);
        }
        return Ok(Meaning { first: 0, is_final: true, final_output: 0, transitions: Vec::new() });
    }
    if addr >= file.len() {
        return Err(Unsound::PastFile);
    }
    if addr > root {
        return Err(Unsound::PastRoot);
    }
    if addr < FIRST_NODE {
        return Err(Unsound::Below16);
    }
    let shape = Shape::of(file, version, addr);
    if addr + 1 < FIRST_NODE + shape.size() {
        return Err(Unsound::Below16);
    }
    let first = addr + 1 - shape.size();

    if shape.output_size > 8 {
        return Err(Unsound::OutputSize);
    }
    if shape.delta_size > 8 {
        return Err(Unsound::DeltaSize);
    }
    if shape.stores_deltas && shape.count > 0 && shape.delta_size == 0 {
        return Err(Unsound::NoDelta);
    }

    let mut upward = Upward { rest: &file[first..=addr] };
    let final_output = number(upward.take(shape.final_output_size()));
    let outputs = upward.numbers(shape.count, shape.output_size);
    let deltas = upward.numbers(shape.count, shape.delta_size);
    let mut inputs = upward.take(shape.stored_inputs).to_vec();
    inputs.reverse();
    let index = upward.take(shape.index);
    if shape.stored_inputs < shape.count {
        inputs = vec![shape.input];
    }

    if inputs.windows(2).any(|pair| pair[0] >= pair[1]) {
        return Err(Unsound::Order);
    }

    if !index.is_empty() {
        let mut places = [None; 256];
        for (place, &input) in inputs.iter().enumerate() {
            places[usize::from(input)] = Some(place);
        }
        for (&entry, &place) in index.iter().zip(&places) {
            match place {
                Some(place) if usize::from(entry) != place => return Err(Unsound::EntryOfInput),
                None if usize::from(entry) < shape.count => return Err(Unsound::EntryOfAbsent),
                _ => {}
            }
        }
    }

    let mut targets = Vec::new();
    for &delta in &deltas {
        let target = if !shape.stores_deltas {
            first - 1
        } else if delta == 0 {
            0
        } else if delta > first as u64 {
            return Err(Unsound::DeltaBeyond);
        } else {
            first - delta as usize
        };
        // a target other than 0 lies from 16 to F - 1; a delta of at least 1 keeps it below F
        if target != 0 && target < FIRST_NODE {
            return Err(Unsound::TargetBelow16);
        }
        targets.push(target);
    }

    if !shape.is_final && shape.count == 0 && addr != root {
        return Err(Unsound::Useless);
    }

    let transitions =
        (0..shape.count).map(|i| Transition { inp: inputs[i], out: outputs[i], addr: targets[i] }).collect();
    Ok(Meaning { first, is_final: shape.is_final, final_output, transitions })
}

// The place of b among the inputs, or how many of them are smaller.
pub fn find_input(node: &Meaning, b: u8) -> Place {
    let smaller = node.transitions.iter().filter(|t| t.inp < b).count();
    node.transitions.iter().position(|t| t.inp == b).ok_or(smaller)
}

// ---- packing

#[derive(Clone, Copy, Debug, Eq, Hash, Ord, PartialEq, PartialOrd)]
pub enum Rule {
    TooMany,
    Unequal,
    Order,
    FirstByte,
    Target,
    FinalOutput,
}

impl Rule {
    pub const ALL: [Rule; 6] =
        [Rule::TooMany, Rule::Unequal, Rule::Order, Rule::FirstByte, Rule::Target, Rule::FinalOutput];
}

// The rules of RECORD that this record breaks, for a node whose first byte is to stand at `first`.
pub fn broken_rules(record: &Record, first: usize) -> Vec<Rule> {
    let count = record.inputs.len();
    let breaks = |rule: &Rule| match rule {
        Rule::TooMany => count > MAX_TRANS,
        Rule::Unequal => record.outputs.len() != count || record.targets.len() != count,
        Rule::Order => record.inputs.windows(2).any(|pair| pair[0] >= pair[1]),
        Rule::FirstByte => first < FIRST_NODE || first > MAX_LEN,
        Rule::Target => record.targets.iter().any(|&t| t != 0 && (t < FIRST_NODE || t >= first)),
        Rule::FinalOutput => !record.is_final() && record.final_output != 0,
    };
    Rule::ALL.iter().copied().filter(breaks).collect()
}

// How a record is stored.
#[derive(Clone, Copy, Debug, Eq, Hash, Ord, PartialEq, PartialOrd)]
pub enum Form {
    Empty,
    Next,
    One,
    Any,
}

pub fn form_of(record: &Record, first: usize) -> Form {
    let count = record.inputs.len();
    if record.is_final() && count == 0 && record.final_output == 0 {
        Form::Empty
    } else if record.is_final() || count != 1 {
        Form::Any
    // below F = 16 there is no node to lead to
    } else if record.outputs[0] == 0 && first > FIRST_NODE && record.targets[0] == first - 1 {
        Form::Next
    } else {
        Form::One
    }
}

// The sizes of an output and of a delta in a record's node of the form 10, 00 or 01.
pub fn sizes_of(record: &Record, first: usize) -> (usize, usize) {
    let largest_output = record.outputs.iter().copied().max().unwrap_or(0).max(record.final_output);
    let output_size = if largest_output == 0 { 0 } else { size_of(largest_output) };
    let delta_size = record.targets.iter().map(|&t| size_of(delta_of(t, first))).max().unwrap_or(0);
    (output_size, delta_size)
}

pub fn delta_of(target: usize, first: usize) -> u64 {
    if target == 0 {
        0
    } else {
        (first - target) as u64
    }
}

// The node's bytes from F up, in version 3. The record breaks no rule.
pub fn pack(record: &Record, first: usize) -> Vec<u8> {
    pack_in(record, first, 3)
}

// The node's bytes from F up, in this version: version 1 has no index.
pub fn pack_in(record: &Record, first: usize, version: u64) -> Vec<u8> {
    let count = record.inputs.len();
    let (output_size, delta_size) = sizes_of(record, first);
    let sizes = (delta_size * 16 + output_size) as u8;
    let mut bytes = Vec::new();
    match form_of(record, first) {
        Form::Empty => {}
        form @ Form::Next | form @ Form::One => {
            if form == Form::One {
                put(&mut bytes, record.outputs[0], output_size);
                put(&mut bytes, delta_of(record.targets[0], first), delta_size);
                bytes.push(sizes);
            }
            let c = common_idx(record.inputs[0]);
            if c == 0 {
                bytes.push(record.inputs[0]);
            }
            bytes.push(if form == Form::Next { 192 } else { 128 } + c);
        }
        Form::Any => {
            if record.is_final() {
                put(&mut bytes, record.final_output, output_size);
            }
            for t in record.transitions().rev() {
                put(&mut bytes, t.out, output_size);
            }
            for t in record.transitions().rev() {
                put(&mut bytes, delta_of(t.addr, first), delta_size);
            }
            bytes.extend(record.inputs.iter().rev());
            if version >= 2 && count > INDEX_ABOVE {
                for b in 0..=255 {
                    // an absent byte has 255
                    let place = record.inputs.iter().position(|&input| input == b);
                    bytes.push(place.map_or(255, |place| place as u8));
                }
            }
            bytes.push(sizes);
            let state = if record.is_final() { 64 } else { 0 };
            match count {
                1..=63 => bytes.push(state + count as u8),
                // 1 stands for 256
                256 => bytes.extend_from_slice(&[1, state]),
                _ => bytes.extend_from_slice(&[count as u8, state]),
            }
        }
    }
    bytes
}

// ---- the model in our library's place

pub struct Model;

impl Answers for Model {
    fn pack_size(&self, n: u64) -> u8 {
        size_of(n) as u8
    }

    fn unpack_uint(&self, slice: &[u8], nbytes: usize) -> u64 {
        number(&slice[..nbytes])
    }

    fn common_inputs(&self, i: u8) -> u8 {
        (0..=255).find(|&place| given::common_inputs_inv(place) == i).expect("the table has every byte")
    }

    fn common_inputs_inv(&self, i: u8) -> u8 {
        given::common_inputs_inv(i)
    }

    fn common_idx(&self, i: u8) -> u8 {
        common_idx(i)
    }

    fn compile(&self, record: &Record, first: usize, out: &mut [u8]) -> u64 {
        if !broken_rules(record, first).is_empty() {
            return REFUSED + RECORD;
        }
        let bytes = pack(record, first);
        if bytes.len() > out.len() {
            return REFUSED + SPACE;
        }
        out[..bytes.len()].copy_from_slice(&bytes);
        bytes.len() as u64
    }

    fn node(&self, at: At, out: &mut [u64]) -> u64 {
        let node = match judge(at) {
            Ok(node) => node,
            Err(_) => return UNSOUND,
        };
        if out.len() >= 4 {
            out[0] = node.first as u64;
            out[1] = node.is_final as u64;
            out[2] = node.final_output;
            out[3] = node.transitions.len() as u64;
        }
        SOUND
    }

    fn transition(&self, at: At, i: usize, out: &mut [u64]) -> u64 {
        match judge(at) {
            Ok(node) if i < node.transitions.len() && out.len() >= 3 => {
                let t = node.transitions[i];
                out[0] = u64::from(t.inp);
                out[1] = t.out;
                out[2] = t.addr as u64;
                1
            }
            _ => 0,
        }
    }

    fn find_input(&self, at: At, b: u8) -> u64 {
        match judge(at) {
            Ok(node) => place_number(find_input(&node, b)),
            Err(_) => NODE_UNSOUND,
        }
    }
}
