// Lookup by key and by value, by each: on admitted files held to the Rust and to the model, on damaged ones to the model.

use std::collections::HashMap;

use super::{describe_file, hex, same, smallest, Checked, Difference, Run, LOOKUPS, LOOKUPS_DAMAGED};
use crate::answers::{
    FileAnswers, Meaning, DEEP, HELD, KEY_REFUSED, LARGE, NODE, NOT_HELD, NO_KEY, ROOT, SHORT, SPACE, SUM, VERSION,
};
use crate::generate_file::{self, damage, file_of, medium, nodes_of, path, small, variant, Keys, Made, Values, KINDS};
use crate::given_file::{self, Opened};
use crate::hand_made::{d, final_sums, path_to, root_0, sums, two_outputs, unsound_after_sum};
use crate::model::{INDEX_ABOVE, MAX_LEN};
use crate::model_file::{self, Admitted, Answer, MAX_PATH};
use crate::prng::Prng;
use crate::sparse::Zeros;

// ---- one lookup

fn describe_key(file: &[u8], key: &[u8]) -> String {
    format!("the {}-byte key {}, {}", key.len(), hex(key), describe_file(file))
}

// The key's value by the model and by ours, and by the Rust where it is given.
pub fn got(
    ours: Option<&dyn FileAnswers>,
    rust: Option<&Opened>,
    file: &[u8],
    key: &[u8],
    keep: u64,
) -> Result<Answer<u64>, Difference> {
    let input = || describe_key(file, key);
    let want = model_file::get(file, key);
    if let Some(rust) = rust {
        let said = match want {
            Answer::Found(value) => Some(Some(value)),
            Answer::None => Some(None),
            // an admitted file refuses nothing
            Answer::Refused(_) => None,
        };
        same("the value of a key", input, ("the Rust", rust.get(key)), ("model", said))?;
    }
    if let Some(ours) = ours {
        let places = (keep % 3) as usize;
        let mut out = vec![keep; places];
        let mut left = vec![keep; places];
        let number = match want {
            Answer::Found(value) => {
                if let Some(place) = left.first_mut() {
                    *place = value;
                }
                HELD
            }
            Answer::None => NOT_HELD,
            Answer::Refused(why) => why,
        };
        same("a lookup by key", input, ("model", number), ("ours", ours.get(file, key, &mut out)))?;
        same("the value of a key, and a place beyond", input, ("model", left), ("ours", out))?;
    }
    Ok(want)
}

// A key for a value by the model and by ours, in a buffer of so many bytes, and by the Rust where it is given.
pub fn got_key(
    ours: Option<&dyn FileAnswers>,
    rust: Option<&Opened>,
    file: &[u8],
    value: u64,
    space: usize,
    keep: u64,
) -> Result<Answer<Vec<u8>>, Difference> {
    let input = || format!("the value {}, a buffer of {} bytes, {}", value, space, describe_file(file));
    let want = model_file::get_key(file, value, space);
    if let (Some(rust), true) = (rust, space >= MAX_PATH) {
        let said = match &want {
            Answer::Found(key) => Some(Some(key.clone())),
            Answer::None => Some(None),
            Answer::Refused(_) => None,
        };
        same("a key for a value", input, ("the Rust", rust.get_key(value)), ("model", said))?;
    }
    if let Some(ours) = ours {
        let mut buffer = vec![0; space];
        Prng::new(keep).fill(&mut buffer);
        let mut left = buffer.clone();
        let number = match &want {
            Answer::Found(key) => {
                left[..key.len()].copy_from_slice(key);
                key.len() as u64
            }
            Answer::None => NO_KEY,
            Answer::Refused(why) => KEY_REFUSED + why,
        };
        same("a search by value", input, ("model", number), ("ours", ours.get_key(file, value, &mut buffer)))?;
        same("the key buffer", input, ("model", left), ("ours", buffer))?;
    }
    Ok(want)
}

// ---- rows by hand

// What the Rust says on a row: the same, or on a file that is not admitted something else. Overflow is checked here; where it
// is not, sums wrap.
#[derive(Clone, Debug, PartialEq)]
enum Rust<T> {
    Same,
    Panics,
    None,
    Found(T),
}

fn rust_on<T>(want: &Answer<T>, said: Option<Option<T>>) -> Rust<T>
where
    T: PartialEq,
{
    match (want, said) {
        (_, None) => Rust::Panics,
        (Answer::None, Some(None)) => Rust::Same,
        (Answer::Found(value), Some(Some(other))) if *value == other => Rust::Same,
        (_, Some(None)) => Rust::None,
        (_, Some(Some(other))) => Rust::Found(other),
    }
}

struct KeyRow {
    name: &'static str,
    file: fn() -> Vec<u8>,
    key: &'static [u8],
    want: Answer<u64>,
    rust: Rust<u64>,
}

const KEY_ROWS: &[KeyRow] = &[
    KeyRow { name: "D-a", file: d, key: b"a", want: Answer::Found(1), rust: Rust::Same },
    KeyRow { name: "D-at", file: d, key: b"at", want: Answer::Found(3), rust: Rust::Same },
    KeyRow { name: "D-e", file: d, key: b"e", want: Answer::Found(4), rust: Rust::Same },
    KeyRow { name: "D-empty", file: d, key: b"", want: Answer::None, rust: Rust::Same },
    KeyRow { name: "D-att", file: d, key: b"att", want: Answer::None, rust: Rust::Same },
    KeyRow { name: "D-b", file: d, key: b"b", want: Answer::None, rust: Rust::Same },
    KeyRow { name: "root-0-empty", file: root_0, key: b"", want: Answer::Found(0), rust: Rust::Same },
    KeyRow { name: "root-0-a", file: root_0, key: b"a", want: Answer::None, rust: Rust::Same },
    KeyRow { name: "root-of-nothing", file: || file_of(3, &[0, 0, 0]), key: b"", want: Answer::None, rust: Rust::Same },
    KeyRow {
        name: "sum-exact",
        file: || sums(1, u64::max_value() - 1),
        key: b"aa",
        want: Answer::Found(u64::max_value()),
        rust: Rust::Same,
    },
    KeyRow {
        name: "sum-one-more",
        file: || sums(1, u64::max_value()),
        key: b"aa",
        want: Answer::Refused(SUM),
        rust: Rust::Panics,
    },
    KeyRow {
        name: "final-sum-exact",
        file: || final_sums(1, u64::max_value() - 1),
        key: b"a",
        want: Answer::Found(u64::max_value()),
        rust: Rust::Same,
    },
    KeyRow {
        name: "final-sum-one-more",
        file: || final_sums(1, u64::max_value()),
        key: b"a",
        want: Answer::Refused(SUM),
        rust: Rust::Panics,
    },
    // the running sum passes the limit on the way to an unsound node: 5 for the node comes first
    KeyRow {
        name: "unsound-after-sum",
        file: unsound_after_sum,
        key: b"aa",
        want: Answer::Refused(NODE),
        rust: Rust::Panics,
    },
    KeyRow {
        name: "unsound-after-sum-longer",
        file: unsound_after_sum,
        key: b"aaa",
        want: Answer::Refused(NODE),
        rust: Rust::Panics,
    },
    KeyRow { name: "unsound-not-entered", file: unsound_after_sum, key: b"a", want: Answer::None, rust: Rust::Same },
    KeyRow {
        name: "unsound-root",
        file: || file_of(3, &[0xc1]),
        key: b"",
        want: Answer::Refused(NODE),
        rust: Rust::None,
    },
];

struct ValueRow {
    name: &'static str,
    file: fn() -> Vec<u8>,
    value: u64,
    want: fn() -> Answer<Vec<u8>>,
    rust: fn() -> Rust<Vec<u8>>,
}

const VALUE_ROWS: &[ValueRow] = &[
    ValueRow { name: "D-0", file: d, value: 0, want: || Answer::None, rust: || Rust::Same },
    ValueRow { name: "D-1", file: d, value: 1, want: || Answer::Found(b"a".to_vec()), rust: || Rust::Same },
    ValueRow { name: "D-2", file: d, value: 2, want: || Answer::None, rust: || Rust::Same },
    ValueRow { name: "D-3", file: d, value: 3, want: || Answer::Found(b"at".to_vec()), rust: || Rust::Same },
    ValueRow { name: "D-4", file: d, value: 4, want: || Answer::Found(b"e".to_vec()), rust: || Rust::Same },
    ValueRow { name: "D-5", file: d, value: 5, want: || Answer::None, rust: || Rust::Same },
    ValueRow { name: "root-0", file: root_0, value: 0, want: || Answer::Found(Vec::new()), rust: || Rust::Same },
    ValueRow { name: "root-0-1", file: root_0, value: 1, want: || Answer::None, rust: || Rust::Same },
    ValueRow {
        name: "root-of-nothing",
        file: || file_of(3, &[0, 0, 0]),
        value: 0,
        want: || Answer::None,
        rust: || Rust::Same,
    },
    // final outputs are ignored: "a" has the value 6, and is found for 5
    ValueRow {
        name: "final-output",
        file: || final_sums(1, 5),
        value: 5,
        want: || Answer::Found(b"a".to_vec()),
        rust: || Rust::Same,
    },
    ValueRow {
        name: "final-output-added",
        file: || final_sums(1, 5),
        value: 6,
        want: || Answer::None,
        rust: || Rust::Same,
    },
    // outputs 5 and 1: the leading one does not fit, so the other is not tried
    ValueRow {
        name: "leading-above",
        file: || two_outputs(5, 1),
        value: 1,
        want: || Answer::None,
        rust: || Rust::Same,
    },
    ValueRow {
        name: "last-fitting",
        file: || two_outputs(1, 1),
        value: 1,
        want: || Answer::Found(b"e".to_vec()),
        rust: || Rust::Same,
    },
    ValueRow {
        name: "last-fitting-first",
        file: || two_outputs(1, 2),
        value: 1,
        want: || Answer::Found(b"a".to_vec()),
        rust: || Rust::Same,
    },
    ValueRow {
        name: "key-of-255",
        file: || path_to(&[0, 0, 0x40], 255),
        value: 0,
        want: || Answer::Found(vec![b'a'; 255]),
        rust: || Rust::Same,
    },
    ValueRow {
        name: "key-of-256",
        file: || path_to(&[0, 0, 0x40], 256),
        value: 0,
        want: || Answer::Refused(DEEP),
        rust: || Rust::Found(vec![b'a'; 256]),
    },
    ValueRow {
        name: "none-at-255",
        file: || path_to(&[0, 0, 0x40], 255),
        value: 1,
        want: || Answer::None,
        rust: || Rust::Same,
    },
    // 6 comes before the 256th byte's target is judged
    ValueRow {
        name: "deep-before-unsound",
        file: || path_to(&[0xc1], 256),
        value: 0,
        want: || Answer::Refused(DEEP),
        rust: || Rust::None,
    },
    ValueRow {
        name: "unsound-at-255",
        file: || path_to(&[0xc1], 255),
        value: 0,
        want: || Answer::Refused(NODE),
        rust: || Rust::None,
    },
    ValueRow {
        name: "unsound-root",
        file: || file_of(3, &[0xc1]),
        value: 0,
        want: || Answer::Refused(NODE),
        rust: || Rust::None,
    },
];

impl<'a> Run<'a> {
    fn lookup_rows(&mut self) -> Checked {
        for row in KEY_ROWS {
            let file = (row.file)();
            let input = || format!("row \"{}\", {}", row.name, describe_key(&file, row.key));
            same("a row", input, ("row", &row.want), ("model", &got(self.ours_file, None, &file, row.key, 1)?))?;
            let rust = given_file::open(&file).expect("the Rust opens the files of rows");
            same(
                "a row, by the Rust",
                input,
                ("row", &row.rust),
                ("the Rust", &rust_on(&row.want, rust.get(row.key))),
            )?;
            self.count("rows by hand");
            if row.rust != Rust::Same {
                self.count("rows on which the Rust says something else");
            }
        }
        for row in VALUE_ROWS {
            let file = (row.file)();
            let input = || format!("row \"{}\", the value {}, {}", row.name, row.value, describe_file(&file));
            let found = got_key(self.ours_file, None, &file, row.value, MAX_PATH, 1)?;
            same("a row", input, ("row", &(row.want)()), ("model", &found))?;
            let rust = given_file::open(&file).expect("the Rust opens the files of rows");
            let said = rust_on(&found, rust.get_key(row.value));
            self.count("rows by hand");
            if said != Rust::Same {
                self.count("rows on which the Rust says something else");
            }
            same("a row, by the Rust", input, ("row", (row.rust)()), ("the Rust", said))?;
        }
        Ok(())
    }

    // ---- admitted files

    pub fn lookup(&mut self) -> Checked {
        self.prng = Prng::new(6);
        self.lookup_rows()?;
        let mut done = 0;
        let mut i = 0;
        while done < LOOKUPS / self.one_in {
            i += 1;
            let prng = &mut self.prng;
            let made = match i % 40 {
                0 => {
                    // all 256 transitions, in each version, numbered in turn
                    let keys = generate_file::keys(prng, Keys::Wide, 0);
                    let kind = if i % 80 == 0 { Values::Numbered } else { prng.pick(&generate_file::VALUES) };
                    let values = generate_file::values(prng, kind, keys.len());
                    let version = prng.pick(&[1, 2, 3]);
                    generate_file::built_from(prng, version, keys, &values)
                }
                1 | 2 => medium(prng),
                3 => Made { file: generate_file::unused(prng), keys: Vec::new() },
                _ => small(prng),
            };
            let found = match model_file::admitted(&made.file) {
                // the Rust opens none under 36 bytes
                Ok(found) if made.file.len() >= given_file::LEAST => found,
                _ => continue,
            };
            let asked = if made.file.len() > 1_000 { 1_200 } else { 250 };
            self.lookups_in(&made.file, &found, &made.keys, asked)?;
            done += asked;
        }
        self.lookup_space()?;
        self.require(&["lookups by key"], 1_000_000)?;
        self.require(&["lookups by value"], 200_000)?;
        self.require(&KINDS, 20_000)?;
        self.require(&["by key: held", "by key: none"], 200_000)?;
        self.require(&["by value: a key", "by value: none"], 30_000)?;
        self.require(
            &[
                "files: version 1",
                "files: version 2",
                "files: version 3",
                "files: a node shared",
                "files: a node with an index",
                "files: 256 transitions",
                "files: numbered",
                "files: not numbered",
                "files: with a final output",
                "files: unused nodes",
            ],
            50,
        )
    }

    // So many lookups by key, and a fifth of that by value.
    fn lookups_in(&mut self, file: &[u8], found: &Admitted, held: &[Vec<u8>], asked: usize) -> Checked {
        let rust = given_file::open(file).expect("the Rust opens an admitted file");
        let nodes = nodes_of(found);
        let root = found.meta.root;
        let numbered = model_file::numbered(found);
        self.count_file(found, numbered);
        let ours = self.ours_file;
        for i in 0..asked {
            let prng = &mut self.prng;
            let key = if i % 2 == 0 && !held.is_empty() {
                held[prng.below(held.len())].clone()
            } else {
                let to_final = !prng.one_in(4);
                path(prng, &nodes, root, to_final).0
            };
            let kind = match prng.below(30) {
                0..=14 => 0,
                15..=18 => 1,
                19..=21 => 2,
                22..=24 => 3,
                25 => 4,
                26 => 5,
                27 | 28 => 6,
                _ => 7,
            };
            let key = variant(prng, kind, &key);
            let keep = prng.next();
            let answer = got(ours, Some(&rust), file, &key, keep)?;
            self.count("lookups by key");
            self.count(KINDS[kind]);
            self.count(if answer == Answer::None { "by key: none" } else { "by key: held" });

            if i % 5 == 0 {
                self.lookup_by_value(file, &rust, &nodes, root, numbered, &answer)?;
            }
        }
        Ok(())
    }

    fn lookup_by_value(
        &mut self,
        file: &[u8],
        rust: &Opened,
        nodes: &HashMap<usize, &Meaning>,
        root: usize,
        numbered: bool,
        answer: &Answer<u64>,
    ) -> Checked {
        let ours = self.ours_file;
        let prng = &mut self.prng;
        let value = match (answer, prng.below(8)) {
            (Answer::Found(value), 0..=3) => *value,
            (Answer::Found(value), 4) => value.wrapping_add(1),
            (Answer::Found(value), 5) => value.wrapping_sub(1),
            (_, 6) => prng.pick(&[0, 1, u64::max_value(), 1 << 32]),
            (_, 7) => prng.next() >> prng.below(64),
            _ => path(prng, nodes, root, true).1,
        };
        let (space, keep) = (MAX_PATH + prng.pick(&[0, 0, 1, 45]), prng.next());
        let answer = got_key(ours, Some(rust), file, value, space, keep)?;
        if let (Answer::Found(key), true) = (&answer, numbered) {
            let input = || format!("the value {}, {}", value, describe_file(file));
            same(
                "a found key's value",
                input,
                ("asked for", Answer::Found(value)),
                ("model", model_file::get(file, key)),
            )?;
        }
        self.count("lookups by value");
        self.count(if answer == Answer::None { "by value: none" } else { "by value: a key" });
        if numbered {
            self.count("lookups by value, numbered");
        }
        Ok(())
    }

    pub fn count_file(&mut self, found: &Admitted, numbered: bool) {
        let mut targets: Vec<usize> =
            found.chain.iter().flat_map(|(_, node, _)| node.transitions.iter().map(|t| t.addr)).collect();
        targets.sort();
        self.count("files");
        for &(there, what) in &[
            (found.meta.version == 1, "files: version 1"),
            (found.meta.version == 2, "files: version 2"),
            (found.meta.version == 3, "files: version 3"),
            (targets.windows(2).any(|t| t[0] == t[1] && t[0] != 0), "files: a node shared"),
            (
                found.meta.version > 1 && found.chain.iter().any(|(_, node, _)| node.transitions.len() > INDEX_ABOVE),
                "files: a node with an index",
            ),
            (found.chain.iter().any(|(_, node, _)| node.transitions.len() == 256), "files: 256 transitions"),
            (found.chain.iter().any(|(_, node, _)| node.final_output != 0), "files: with a final output"),
            (found.reached.len() < found.chain.len(), "files: unused nodes"),
            (numbered, "files: numbered"),
            (!numbered, "files: not numbered"),
        ] {
            if there {
                self.count(what);
            }
        }
    }

    // Key buffers around 255 bytes, on a file that opens and on one that does not.
    fn lookup_space(&mut self) -> Checked {
        for nodes in &[&[0, 0x10, 0x85][..], &[0, 0, 0x40, 1, 0x10, 0x85], &[0xc1]] {
            let file = file_of(3, nodes);
            for space in 0..300 {
                got_key(self.ours_file, None, &file, 0, space, 1)?;
                got_key(self.ours_file, None, &file[..35], 0, space, 1)?;
                self.count("key buffers of each length from 0 to 299");
            }
        }
        Ok(())
    }

    // ---- damaged files

    pub fn lookup_damaged(&mut self) -> Checked {
        self.prng = Prng::new(7);
        let mut done = 0;
        while done < LOOKUPS_DAMAGED / self.one_in {
            let (file, held) = self.to_damage();
            let leading = self.leading(&file, held);
            for _ in 0..8 {
                let damaged = self.damaged_file(&file);
                for _ in 0..4 {
                    let key = leading[self.prng.below(leading.len())].clone();
                    self.damaged_lookup(&damaged, &key)?;
                }
                done += 4;
            }
        }
        let mut large = Zeros::new(MAX_LEN + 1);
        large[0] = 3;
        for i in 0..120 {
            self.damaged_lookup(&large, &vec![b'a'; i])?;
        }
        self.require(&["lookups by key"], 200_000)?;
        self.require(&["lookups by value"], 100_000)?;
        self.require(&["by key: held", "by key: none", "by value: a key", "by value: none"], 5_000)?;
        for &why in &[SHORT, VERSION, ROOT, LARGE, NODE, SUM] {
            self.require(&[BY_KEY[why as usize - 1]], 100)?;
        }
        for &why in &[SHORT, VERSION, ROOT, LARGE, NODE, DEEP, SPACE] {
            self.require(&[BY_VALUE[why as usize - 1]], 100)?;
        }
        Ok(())
    }

    // A file to damage, some with paths over 255 or with sums that do not fit, and keys that it was built from.
    pub fn to_damage(&mut self) -> (Vec<u8>, Vec<Vec<u8>>) {
        let kind = self.prng.below(12);
        let prng = &mut self.prng;
        match kind {
            0 => {
                // a path over 255 that any value of its sum follows
                let (version, n) = (prng.pick(&[1, 2, 3]), prng.between(250, 262));
                let size = prng.pick(&[0, 0, 0, 1, 7]);
                let finals = prng.one_in(4);
                let made = generate_file::path_over(prng, version, &[0, 0, 0x40], n, size, finals);
                (made, Vec::new())
            }
            1 | 2 => {
                // outputs of 8 bytes, whose sums often do not fit
                let (version, nodes) = (prng.pick(&[1, 2, 3]), prng.between(2, 9));
                let loose = prng.one_in(3);
                (generate_file::chained(prng, version, nodes, 8, loose).file, Vec::new())
            }
            3 => {
                let made = medium(prng);
                (made.file, made.keys)
            }
            _ => {
                let made = small(prng);
                (made.file, made.keys)
            }
        }
    }

    // Keys that lead far: those held, and bytes on paths as far as the nodes are sound.
    pub fn leading(&mut self, file: &[u8], mut held: Vec<Vec<u8>>) -> Vec<Vec<u8>> {
        let prng = &mut self.prng;
        if let Ok(found) = model_file::admitted(file) {
            let nodes = nodes_of(&found);
            for _ in 0..6 {
                held.push(path(prng, &nodes, found.meta.root, true).0);
            }
        } else if let Ok(meta) = model_file::open(file) {
            for _ in 0..6 {
                let (mut key, mut addr) = (Vec::new(), meta.root);
                while let Ok(node) =
                    crate::model::judge(crate::answers::At { file, version: meta.version, root: meta.root, addr })
                {
                    if node.transitions.is_empty() || prng.one_in(300) {
                        break;
                    }
                    let t = node.transitions[prng.below(node.transitions.len())];
                    key.push(t.inp);
                    addr = t.addr;
                }
                held.push(key);
            }
        }
        held.push(Vec::new());
        held
    }

    // The file as it is, with a byte of its nodes changed, with some bytes changed, or with another length.
    pub fn damaged_file(&mut self, file: &[u8]) -> Vec<u8> {
        let prng = &mut self.prng;
        let mut file = file.to_vec();
        let n = file.len();
        match prng.below(16) {
            0 | 1 => {}
            2 => file.truncate(prng.below(n)),
            3 => file.push(prng.byte()),
            4 => file[0] = prng.pick(&[0, 1, 2, 3, 4]),
            5..=7 => {
                for _ in 0..prng.between(2, 5) {
                    let i = prng.below(n);
                    file[i] = damage(prng, file[i]);
                }
            }
            _ => {
                let i = prng.between(16.min(n - 1), n.saturating_sub(17).max(16.min(n - 1)));
                file[i] = damage(prng, file[i]);
            }
        }
        file
    }

    fn damaged_lookup(&mut self, file: &[u8], key: &[u8]) -> Checked {
        let ours = self.ours_file;
        let prng = &mut self.prng;
        let kind = if prng.one_in(3) { prng.below(KINDS.len()) } else { 0 };
        let key = variant(prng, kind, key);
        let keep = prng.next();
        let answer = smallest(file, |file| got(ours, None, file, &key, keep))?;
        self.count("lookups by key");
        self.count(match answer {
            Answer::Found(_) => "by key: held",
            Answer::None => "by key: none",
            Answer::Refused(why) => BY_KEY[why as usize - 1],
        });
        // nothing to hold it to: the Rust judges no node and no sum
        let rust = given_file::open(file);
        if let (Answer::Refused(why), Some(rust)) = (&answer, &rust) {
            match (*why, rust.get(&key)) {
                (NODE, Some(_)) => self.count("by key, refused: 5 NODE, where the Rust answers"),
                (NODE, None) => self.count("by key, refused: 5 NODE, where the Rust panics"),
                (SUM, Some(_)) => self.count("by key, refused: 7 SUM, where the Rust answers"),
                (SUM, None) => self.count("by key, refused: 7 SUM, where the Rust panics"),
                _ => {}
            }
        }

        let prng = &mut self.prng;
        if prng.one_in(2) || matches!(answer, Answer::Refused(LARGE)) {
            let value = match (&answer, prng.below(4)) {
                (Answer::Found(value), 0) => *value,
                (_, 1) => prng.next() >> prng.below(64),
                (_, 2) => u64::max_value(),
                _ => prng.next() % 4,
            };
            let space = if prng.one_in(8) { prng.below(256) } else { MAX_PATH + prng.below(3) };
            let answer = smallest(file, |file| got_key(ours, None, file, value, space, keep))?;
            self.count("lookups by value");
            self.count(match answer {
                Answer::Found(_) => "by value: a key",
                Answer::None => "by value: none",
                Answer::Refused(why) => BY_VALUE[why as usize - 1],
            });
            if let (Answer::Refused(why), Some(rust)) = (&answer, &rust) {
                match (*why, rust.get_key(value)) {
                    (NODE, Some(_)) => self.count("by value, refused: 5 NODE, where the Rust answers"),
                    (NODE, None) => self.count("by value, refused: 5 NODE, where the Rust panics"),
                    (DEEP, Some(Some(_))) => self.count("by value, refused: 6 DEEP, where the Rust finds a key"),
                    (DEEP, Some(None)) => self.count("by value, refused: 6 DEEP, where the Rust finds none"),
                    (DEEP, None) => self.count("by value, refused: 6 DEEP, where the Rust panics"),
                    _ => {}
                }
            }
        }
        Ok(())
    }
}

// In the order of their numbers.
const BY_KEY: [&str; 8] = [
    "by key, refused: 1 SHORT",
    "by key, refused: 2 VERSION",
    "by key, refused: 3 ROOT",
    "by key, refused: 4 LARGE",
    "by key, refused: 5 NODE",
    "by key, refused: 6 DEEP",
    "by key, refused: 7 SUM",
    "by key, refused: 8 SPACE",
];
const BY_VALUE: [&str; 8] = [
    "by value, refused: 1 SHORT",
    "by value, refused: 2 VERSION",
    "by value, refused: 3 ROOT",
    "by value, refused: 4 LARGE",
    "by value, refused: 5 NODE",
    "by value, refused: 6 DEEP",
    "by value, refused: 7 SUM",
    "by value, refused: 8 SPACE",
];
