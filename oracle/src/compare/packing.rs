// Records packed by each and read back, and records refused.

use super::{
    describe_at, describe_record, same, Checked, Difference, Run, DELTA_SIZES, OUTPUT_SIZES, RECORDS, REFUSED_RECORDS,
};
use crate::answers::{At, Meaning, Record, RECORD, REFUSED, SPACE};
use crate::generate::{self, Targets, COUNTS, FAR, FIRSTS, TARGETS};
use crate::given;
use crate::model::{self, Form, Rule, FIRST_NODE, INDEX_ABOVE, MAX_LEN};

// In the order of `Rule::ALL`.
const RULE_NAMES: [&str; 6] = [
    "over 256 transitions",
    "unequal lists",
    "inputs not strictly ascending",
    "F outside 16 to 4,294,967,295",
    "target neither 0 nor 16 to F - 1",
    "not final with final output",
];

impl<'a> Run<'a> {
    pub fn packing(&mut self) -> Checked {
        // one file for every F: zeros, but for the node that is being compared
        let mut space = vec![0; FAR + 8192];
        for &n in &COUNTS {
            for &is_final in &[false, true] {
                for size in 0..=8 {
                    if n > 40 {
                        for _ in 0..6 {
                            let (first, targets) = (self.prng.pick(&FIRSTS), self.prng.pick(&TARGETS));
                            self.packed_record(n, is_final, size, targets, first, &mut space)?;
                        }
                        continue;
                    }
                    for &first in &FIRSTS {
                        for &targets in &TARGETS {
                            self.packed_record(n, is_final, size, targets, first, &mut space)?;
                        }
                    }
                }
            }
        }
        // each input of one transition, in both forms
        for b in 0..=255 {
            for &target in &[0, 99] {
                let record = Record { inputs: vec![b], outputs: vec![0], targets: vec![target], ..Record::default() };
                self.packed(&record, 100, &mut space)?;
            }
        }
        for _ in 0..RECORDS / self.one_in {
            let (record, first) = generate::any_record(&mut self.prng);
            self.packed(&record, first, &mut space)?;
        }
        self.require(&["records"], 200_000)?;
        self.require(
            &[
                "form: no bytes",
                "form: one transition to the node before (11)",
                "form: one transition to the node before (11), input byte",
                "form: one transition (10)",
                "form: one transition (10), input byte",
                "form: any transitions (00)",
                "form: any transitions, final (01)",
                "form: any transitions, count byte",
                "form: any transitions, index",
                "form: any transitions, 256 of them",
                "form: any transitions, none",
                "F is 16",
                "F is 16,777,216",
                "target 0",
                "target F - 1",
                "target 16",
                "common input: 62nd",
                "common input: 63rd",
                "common input: 64th",
                "input 0",
                "input 255",
                "read back in version 1",
                "read back in version 2",
                "read back in version 3",
            ],
            100,
        )?;
        self.require(&OUTPUT_SIZES, 100)?;
        self.require(&DELTA_SIZES[..=3], 100)?;
        if self.ours.is_some() {
            self.require(&["buffer one byte short", "buffer exactly long enough"], 1_000)?;
        }
        Ok(())
    }

    fn packed_record(
        &mut self,
        n: usize,
        is_final: bool,
        size: usize,
        targets: Targets,
        first: usize,
        space: &mut [u8],
    ) -> Checked {
        if self.one_in > 1 && !self.prng.one_in(20) {
            return Ok(());
        }
        let record = generate::record(&mut self.prng, n, is_final, size, targets, first);
        self.packed(&record, first, space)
    }

    // A record that breaks no rule: packed by each, and read back at F.
    pub fn packed(&mut self, record: &Record, first: usize, space: &mut [u8]) -> Checked {
        let input = || describe_record(record, first);
        same("a rule of RECORD", input, ("made to break", Vec::new()), ("breaks", model::broken_rules(record, first)))?;
        let bytes = match given::pack(record, first) {
            Some(bytes) => bytes,
            None => {
                return Err(Difference {
                    what: "the Rust panics on a record that breaks no rule".to_string(),
                    input: input(),
                    answers: Vec::new(),
                })
            }
        };
        same("packed bytes", input, ("the Rust", &bytes), ("model", &model::pack(record, first)))?;
        self.count_forms(record, first, &bytes);

        if let Some(ours) = self.ours {
            // the buffer's other bytes stay as given
            let slack = self.prng.below(4);
            let mut given_buffer = vec![0; bytes.len() + slack];
            self.prng.fill(&mut given_buffer);
            let mut buffer = given_buffer.clone();
            let answer = ours.compile(record, first, &mut buffer);
            same("the length of a packed node", input, ("the Rust", bytes.len() as u64), ("ours", answer))?;
            same("packed bytes", input, ("the Rust", &bytes[..]), ("ours", &buffer[..bytes.len()]))?;
            let rest = (&given_buffer[bytes.len()..], &buffer[bytes.len()..]);
            same("the buffer beyond the node", input, ("as given", rest.0), ("ours", rest.1))?;

            if !bytes.is_empty() {
                // one byte short, or any number of bytes
                let room = if self.prng.one_in(4) { self.prng.below(bytes.len()) } else { bytes.len() - 1 };
                let mut buffer = given_buffer[..room].to_vec();
                let input = || format!("a buffer of {} bytes, {}", room, describe_record(record, first));
                let answer = ours.compile(record, first, &mut buffer);
                same("a buffer too short", input, ("model", REFUSED + SPACE), ("ours", answer))?;
                same("a buffer too short", input, ("as given", &given_buffer[..room]), ("ours", &buffer[..]))?;
                self.count(if room + 1 == bytes.len() { "buffer one byte short" } else { "buffer shorter" });
            }
            if slack == 0 {
                self.count("buffer exactly long enough");
            }
        }

        self.read_back(record, first, &bytes, space)
    }

    fn read_back(&mut self, record: &Record, first: usize, bytes: &[u8], space: &mut [u8]) -> Checked {
        let end = first + bytes.len();
        let tail = self.prng.below(4);
        space[first..end].copy_from_slice(bytes);
        self.prng.fill(&mut space[end..end + tail]);
        // the record that packs to nothing is the node at address 0
        let (addr, meaning) = if bytes.is_empty() {
            (0, Meaning::of_record(record, 0))
        } else {
            (end - 1, Meaning::of_record(record, first))
        };
        let file = &space[..end + tail];
        // every byte is looked up in one version at least
        let (whole, all) = (self.prng.between(2, 3) as u64, self.prng.one_in(4));
        for &version in &[1, 2, 3] {
            // version 1 has no index, so such a node reads otherwise there
            if version == 1 && record.inputs.len() > INDEX_ABOVE {
                continue;
            }
            let root = match self.prng.below(4) {
                0 | 1 => addr,
                2 => addr + self.prng.below(8),
                _ => usize::max_value(),
            };
            let at = At { file, version, root, addr };
            let useful = record.is_final() || !record.inputs.is_empty() || root == addr;
            self.read(at, if useful { Some(&meaning) } else { None }, all || version == whole)?;
            self.count(match version {
                1 => "read back in version 1",
                2 => "read back in version 2",
                _ => "read back in version 3",
            });
            if useful && !bytes.is_empty() {
                // the Rust's own name for the form that the model says
                let state = match model::form_of(record, first) {
                    Form::Empty => "EF",
                    Form::Next => "OTN",
                    Form::One => "OT",
                    Form::Any => "AT",
                };
                same("the form", || describe_at(at), ("the Rust", given::state(at)), ("model", state))?;
            }
        }
        for b in &mut space[first..end + tail] {
            *b = 0;
        }
        Ok(())
    }

    fn count_forms(&mut self, record: &Record, first: usize, bytes: &[u8]) {
        self.count("records");
        let n = record.inputs.len();
        let spelled = n == 1 && model::common_idx(record.inputs[0]) == 0;
        let form = model::form_of(record, first);
        match form {
            Form::Empty => self.count("form: no bytes"),
            Form::Next if spelled => self.count("form: one transition to the node before (11), input byte"),
            Form::Next => self.count("form: one transition to the node before (11)"),
            Form::One if spelled => self.count("form: one transition (10), input byte"),
            Form::One => self.count("form: one transition (10)"),
            Form::Any => {
                self.count(if record.is_final() {
                    "form: any transitions, final (01)"
                } else {
                    "form: any transitions (00)"
                });
                if n == 0 {
                    self.count("form: any transitions, none");
                }
                if n == 0 || n > 63 {
                    self.count("form: any transitions, count byte");
                }
                if n > INDEX_ABOVE {
                    self.count("form: any transitions, index");
                }
                if n == 256 {
                    self.count("form: any transitions, 256 of them");
                }
            }
        }
        if form == Form::One || form == Form::Any {
            // the sizes byte stands below the state, and below a count or an input
            let sizes = bytes[bytes.len() - if bytes[bytes.len() - 1] % 64 == 0 { 3 } else { 2 }];
            self.count(OUTPUT_SIZES[usize::from(sizes % 16)]);
            self.count(DELTA_SIZES[usize::from(sizes / 16)]);
        }
        if first == FIRST_NODE {
            self.count("F is 16");
        }
        if first == FAR {
            self.count("F is 16,777,216");
        }
        if record.targets.contains(&0) {
            self.count("target 0");
        }
        if first > FIRST_NODE && record.targets.contains(&(first - 1)) {
            self.count("target F - 1");
        }
        if record.targets.contains(&FIRST_NODE) {
            self.count("target 16");
        }
        for &b in &record.inputs {
            match b {
                b'H' => self.count("common input: 62nd"),
                b'G' => self.count("common input: 63rd"),
                b'W' => self.count("common input: 64th"),
                0 => self.count("input 0"),
                255 => self.count("input 255"),
                _ => {}
            }
        }
    }

    // ---- records refused

    // Records that break one rule of RECORD each.
    pub fn refused(&mut self) -> Checked {
        for &rule in &Rule::ALL {
            for _ in 0..REFUSED_RECORDS / self.one_in {
                let (record, first) = self.broken_record(rule);
                let broken = model::broken_rules(&record, first);
                let input = || describe_record(&record, first);
                // bytes cannot ascend strictly over more than 256 places
                let expected = if rule == Rule::TooMany { vec![rule, Rule::Order] } else { vec![rule] };
                same("a rule of RECORD", input, ("made to break", expected), ("breaks", broken))?;
                self.count(RULE_NAMES[Rule::ALL.iter().position(|&r| r == rule).expect("listed")]);
                let ours = match self.ours {
                    Some(ours) => ours,
                    None => continue,
                };
                // RECORD comes before SPACE
                let room = if self.prng.one_in(2) { self.prng.below(8) } else { 4096 };
                let mut given_buffer = vec![0; room];
                self.prng.fill(&mut given_buffer[..room.min(64)]);
                let mut buffer = given_buffer.clone();
                let input = || format!("a buffer of {} bytes, {}", room, describe_record(&record, first));
                let answer = ours.compile(&record, first, &mut buffer);
                same("a record that breaks a rule", input, ("model", REFUSED + RECORD), ("ours", answer))?;
                same("the buffer of a refused record", input, ("as given", &given_buffer), ("ours", &buffer))?;
            }
        }
        self.require(&RULE_NAMES, 1_000)
    }

    fn broken_record(&mut self, rule: Rule) -> (Record, usize) {
        let prng = &mut self.prng;
        let mut first = match prng.below(4) {
            0 => prng.between(17, 40),
            1 => prng.between(17, 1_000),
            2 => MAX_LEN,
            _ => prng.between(17, FAR),
        };
        let mut record = generate::small_record(prng, first, 0);
        let n = record.inputs.len();
        match rule {
            Rule::TooMany => {
                let n = prng.between(257, 300);
                record.inputs = (0..n).map(|i| i as u8).collect();
                record.outputs = vec![0; n];
                record.targets = vec![0; n];
            }
            Rule::Unequal => match prng.below(6) {
                0 => record.outputs.push(prng.next()),
                1 => record.targets.push(0),
                2 if n > 0 => drop(record.outputs.pop()),
                3 if n > 0 => drop(record.targets.pop()),
                4 if n > 0 => drop(record.inputs.pop()),
                _ => {
                    record.outputs.push(0);
                    record.targets.push(0);
                }
            },
            Rule::Order => {
                // two neighbours out of order or equal, also at either end
                if n < 2 {
                    record.inputs = vec![b'b', b'c'];
                    record.outputs = vec![0, 0];
                    record.targets = vec![0, 0];
                }
                let n = record.inputs.len();
                let i = match prng.below(3) {
                    0 => 0,
                    1 => n - 2,
                    _ => prng.below(n - 1),
                };
                match prng.below(3) {
                    0 => record.inputs.swap(i, i + 1),
                    1 => record.inputs[i + 1] = record.inputs[i],
                    _ => record.inputs[i] = record.inputs[i + 1],
                }
            }
            Rule::FirstByte => {
                let low = prng.one_in(2);
                first = if low {
                    if prng.one_in(4) {
                        15
                    } else {
                        prng.below(16)
                    }
                } else {
                    match prng.below(4) {
                        0 => MAX_LEN + 1,
                        1 => usize::max_value(),
                        2 => prng.between(MAX_LEN + 1, 1 << 33),
                        _ => MAX_LEN + 1 + prng.below(1_000),
                    }
                };
                if low {
                    // no target but 0 is below such an F
                    record.targets = vec![0; n];
                }
            }
            Rule::Target => {
                if n == 0 {
                    record.inputs = vec![prng.byte()];
                    record.outputs = vec![0];
                    record.targets = vec![0];
                }
                let i = prng.below(record.targets.len());
                record.targets[i] = match prng.below(6) {
                    0 => 1,
                    1 => 15,
                    2 => prng.between(1, 15),
                    3 => first,
                    4 => first + 1 + prng.below(1_000),
                    _ => usize::max_value(),
                };
            }
            Rule::FinalOutput => {
                record.final_flag = 0;
                let size = prng.between(1, 8);
                record.final_output = generate::number_of_size(prng, size);
            }
        }
        (record, first)
    }
}
