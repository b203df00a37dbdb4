// The replay list of nodes, for a program that replays it with no Rust at hand: records with the bytes that the Rust packs them
// to and that are read back, and the rows by hand (replay_rows.rs). crates/replay_node/README.md has its layout.

use crate::answers::{Answers, At, Meaning, Record, REFUSED};
use crate::generate::{self, COUNTS, FIRSTS, TARGETS};
use crate::given;
use crate::model::{self, Form, Model};
use crate::prng::Prng;
use crate::replay_list::{List, FILE};
use crate::replay_rows;

// The kinds of record beside the node.
const PACK: u8 = 2;
const READ: u8 = 3;

// The bytes of a name, and the file that the program reads nodes in: room for the largest node at F 65,553, where deltas first
// take 3 bytes.
const NAME: usize = 32;
const SPACE: usize = 69_632;
// What a packing answers beside a length. A refusal is added to it.
pub const PACK_REFUSED: u64 = 10_000;
// A room that every node fits in.
pub const ROOM: usize = 4_096;

// The document's own examples (bench table): input, output and target of a node with one transition, and F.
const ONE: [(u8, u64, usize, usize); 4] = [(b'a', 0, 18, 19), (b'a', 0, 0, 16), (b'G', 0, 0, 16), (b'W', 300, 0, 16)];

fn records() -> Vec<(Record, usize)> {
    let mut prng = Prng::new(3);
    let mut records = Vec::new();
    for &(inp, out, target, first) in &ONE {
        let record = Record { inputs: vec![inp], outputs: vec![out], targets: vec![target], ..Record::default() };
        records.push((record, first));
    }
    for &(final_flag, final_output) in &[(1, 7), (1, 0), (0, 0)] {
        records.push((Record { final_flag, final_output, ..Record::default() }, 16));
    }
    // the bytes at the ends of the common inputs, in the forms 11 and 10
    for &b in &generate::INPUTS {
        for &target in &[0, 99] {
            let record = Record { inputs: vec![b], outputs: vec![0], targets: vec![target], ..Record::default() };
            records.push((record, 100));
        }
    }
    // the form 11, at other F
    for &first in FIRSTS.iter().skip(1) {
        let b = prng.byte();
        let record = Record { inputs: vec![b], outputs: vec![0], targets: vec![first - 1], ..Record::default() };
        records.push((record, first));
    }
    // each count: many records of a few transitions, a few of many
    for &n in &COUNTS {
        let each = match n {
            0..=3 => 8,
            4..=40 => 1,
            _ => 0,
        };
        for &is_final in &[false, true] {
            for size in 0..=8 {
                for _ in 0..each {
                    let (first, targets) = (prng.pick(&FIRSTS), prng.pick(&TARGETS));
                    records.push((generate::record(&mut prng, n, is_final, size, targets, first), first));
                }
            }
            if each == 0 {
                for &size in &[0, 2] {
                    let (first, targets) = (prng.pick(&FIRSTS), prng.pick(&TARGETS));
                    records.push((generate::record(&mut prng, n, is_final, size, targets, first), first));
                }
            }
        }
    }
    // one of the largest node there is
    records.push((generate::record(&mut prng, 256, true, 8, generate::Targets::Lowest, FIRSTS[13]), FIRSTS[13]));
    for (record, _) in &mut records {
        record.final_flag = record.is_final() as u8;
    }
    records
}

// Where a stored node is asked for: the bytes and where they are laid in a file of zeros that ends with them, two versions, the
// root and the address.
pub struct Stored<'b> {
    pub bytes: &'b [u8],
    pub laid: usize,
    pub versions: [u64; 2],
    pub root: usize,
    pub addr: usize,
}

impl<'b> Stored<'b> {
    // The node as the root of a file that ends with it.
    pub fn root(bytes: &'b [u8], first: usize, versions: [u64; 2]) -> Stored<'b> {
        let addr = if bytes.is_empty() { 0 } else { first + bytes.len() - 1 };
        Stored { bytes, laid: first, versions, root: addr, addr }
    }
}

impl List {
    // The node that the records after it are about.
    pub fn node(&mut self, name: &str, record: &Record, first: usize) {
        assert!(name.len() <= NAME);
        let n = record.inputs.len();
        let mut part = format!("{:width$}", name, width = NAME).into_bytes();
        part.extend(&(n as u16).to_le_bytes());
        part.push(record.is_final() as u8);
        part.extend(&record.final_output.to_le_bytes());
        part.extend(&(first as u64).to_le_bytes());
        part.extend(&record.inputs);
        // a list of another length is said by the packing; what it has more is 0
        for i in 0..n {
            part.extend(&record.outputs.get(i).copied().unwrap_or(0).to_le_bytes());
        }
        for i in 0..n {
            part.extend(&(record.targets.get(i).copied().unwrap_or(0) as u32).to_le_bytes());
        }
        self.put(FILE, 0, 0, 0, &part);
        self.count("nodes");
    }

    // The node packed into so much room. The answer is the model's, and the Rust's bytes where no rule is broken.
    pub fn pack(&mut self, record: &Record, first: usize, room: usize) -> Result<Vec<u8>, u64> {
        let mut out = vec![0; room];
        let number = Model.compile(record, first, &mut out);
        let answer = if number >= REFUSED { Err(number - REFUSED) } else { Ok(out[..number as usize].to_vec()) };
        if model::broken_rules(record, first).is_empty() {
            let bytes = given::pack(record, first).expect("the Rust packs a record that breaks no rule");
            assert!(answer.as_ref().map_or(bytes.len() > room, |packed| *packed == bytes));
        }
        let mut part = (record.outputs.len() as u16).to_le_bytes().to_vec();
        part.extend(&(record.targets.len() as u16).to_le_bytes());
        part.extend(answer.iter().flatten());
        let number = answer.as_ref().map_or_else(|why| PACK_REFUSED + why, |bytes| bytes.len() as u64);
        self.put(PACK, number, room as u64, 0, &part);
        self.count("packed");
        answer
    }

    // What is stored, judged and read: this meaning by the model and by the Rust, or not sound by the model.
    pub fn read(&mut self, stored: &Stored, wanted: Option<&Meaning>) {
        let mut file = vec![0; stored.laid];
        file.extend(stored.bytes);
        assert!(file.len() <= SPACE);
        for &version in &stored.versions {
            let at = At { file: &file, version, root: stored.root, addr: stored.addr };
            assert_eq!(model::judge(at).ok().as_ref(), wanted);
            if wanted.is_some() {
                assert_eq!(given::read(at).map(|(meaning, _)| meaning).as_ref(), wanted);
            }
        }
        let mut part = Vec::new();
        for &n in &[stored.laid, stored.root, stored.addr] {
            part.extend(&(n as u64).to_le_bytes());
        }
        part.extend(stored.bytes);
        self.put(READ, stored.versions[0], wanted.is_some() as u64, stored.versions[1], &part);
        self.count(if wanted.is_some() { "read: sound" } else { "read: not sound" });
    }

    // A record that breaks no rule: packed, and read back where the file has room for it, in version 1 where it has no index and
    // in versions 2 and 3.
    pub fn back(&mut self, name: &str, record: &Record, first: usize) {
        self.node(name, record, first);
        let bytes = self.pack(record, first, ROOM).expect("it breaks no rule, and there is room");
        self.count(match model::form_of(record, first) {
            Form::Empty => "packed to no bytes",
            Form::Next => "packed in the form 11",
            Form::One => "packed in the form 10",
            Form::Any => "packed in the forms 00 and 01",
        });
        if record.inputs.len() > model::INDEX_ABOVE {
            self.count("packed with an index");
        }
        if first + bytes.len() > SPACE {
            return;
        }
        // a node of no bytes is at address 0, and its F is 0
        let meaning = Meaning::of_record(record, if bytes.is_empty() { 0 } else { first });
        if bytes.is_empty() {
            self.node(name, record, 0);
        }
        self.read(&Stored::root(&bytes, first, [2, 3]), Some(&meaning));
        if record.inputs.len() <= model::INDEX_ABOVE {
            self.read(&Stored::root(&bytes, first, [1, 1]), Some(&meaning));
        }
    }
}

// The list, and how many records of each kind and form it has.
pub fn list() -> (Vec<u8>, Vec<(&'static str, usize)>) {
    let mut list = List::default();
    for (i, (record, first)) in records().iter().enumerate() {
        list.back(&format!("recorded-{}", i + 1), record, *first);
    }
    replay_rows::put(&mut list);
    list.finish()
}
