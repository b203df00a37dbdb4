// Conversion (document 02, N7), by the model, by ours, and what the Rust says of both files: opening, every node, the bytes of every node,
// and the pairs of a stream.

use std::collections::HashMap;

use super::{describe_file, same, smallest, Checked, Difference, Run, CONVERSIONS};
use crate::answers::{ConvertAnswers, FileAnswers, LARGE, NODE, REFUSED, SPACE};
use crate::generate_file::{self, file_of, header, medium, path_over, small};
use crate::given;
use crate::given_file;
use crate::model::MAX_LEN;
use crate::model_convert::{self, vanishes, EDITION};
use crate::model_file;

// How many pairs of a stream are compared: chains of nodes hold many keys.
const PAIRS: usize = 300;

// What a conversion was given beside the file: the lengths of its four buffers, what stands in them, and the limit.
#[derive(Clone, Copy)]
struct Lent {
    depths: usize,
    sums: usize,
    // beside the new file's length, and the old one's
    out: isize,
    table: isize,
    keep: u64,
    limit: u32,
}

// What was seen, for the counts.
struct Seen {
    answer: u64,
    vanished: bool,
    root_vanished: bool,
    unused: bool,
    wider: bool,
    pairs: usize,
}

fn describe_lent(file: &[u8], lent: Lent) -> String {
    format!(
        "tables of {} and {} entries, output and table {} and {} beside what is needed, limit {}, {}",
        lent.depths,
        lent.sums,
        lent.out,
        lent.table,
        lent.limit,
        describe_file(file)
    )
}

fn length(n: usize, beside: isize) -> usize {
    (n as isize + beside).max(0) as usize
}

fn converted(
    ours: Option<&dyn ConvertAnswers>,
    ours_file: Option<&dyn FileAnswers>,
    file: &[u8],
    lent: Lent,
) -> Result<Seen, Difference> {
    let input = || describe_lent(file, lent);
    let limit = lent.limit as usize;
    let wanted = model_convert::convert(file, limit);
    let whole = model_convert::convert(file, MAX_LEN);
    let out_len = length(whole.as_ref().map(|new| new.file.len()).unwrap_or(64), lent.out);
    let table_len = length(file.len(), lent.table);
    let (mut depths, mut sums) = (vec![lent.keep as u16; lent.depths], vec![lent.keep; lent.sums]);
    let (mut out, mut table) = (vec![lent.keep as u8; out_len], vec![lent.keep as u32; table_len]);
    let answer = if model_file::open(file).is_err() {
        REFUSED + wanted.as_ref().err().copied().expect("a file that does not open is refused")
    } else if lent.depths < file.len() || lent.sums < file.len() {
        REFUSED + SPACE
    } else {
        model_file::fill(file.len(), &model_file::admitted(file), &mut depths, &mut sums);
        match &wanted {
            Err(why) => REFUSED + why,
            Ok(new) if out.len() < new.file.len() || table.len() < file.len() => REFUSED + SPACE,
            Ok(new) => {
                out[..new.file.len()].copy_from_slice(&new.file);
                table[..new.table.len()].copy_from_slice(&new.table);
                new.file.len() as u64
            }
        }
    };
    if let Some(ours) = ours {
        let (mut our_depths, mut our_sums) = (vec![lent.keep as u16; lent.depths], vec![lent.keep; lent.sums]);
        let (mut our_out, mut our_table) = (vec![lent.keep as u8; out_len], vec![lent.keep as u32; table_len]);
        let said = ours.convert(file, lent.limit, &mut our_depths, &mut our_sums, &mut our_out, &mut our_table);
        same("a conversion", input, ("model", answer), ("ours", said))?;
        same("the new file", input, ("model", out), ("ours", our_out))?;
        same("the table of new addresses", input, ("model", table), ("ours", our_table))?;
        same("the table of paths", input, ("model", depths), ("ours", our_depths))?;
        same("the table of sums", input, ("model", sums), ("ours", our_sums))?;
    }
    let mut seen = Seen { answer, vanished: false, root_vanished: false, unused: false, wider: false, pairs: 0 };
    if let Ok(new) = whole {
        read_again(ours_file, file, &new, &mut seen).map_err(|mut difference| {
            difference.input = input();
            difference
        })?;
    }
    Ok(seen)
}

// The old file and the new one, by the Rust where it opens both, and by our own lookups.
fn read_again(
    ours_file: Option<&dyn FileAnswers>,
    file: &[u8],
    new: &model_convert::Converted,
    seen: &mut Seen,
) -> Checked {
    let none = String::new;
    let old = model_file::admitted(file).expect("what is converted is admitted");
    let again = match model_file::admitted(&new.file) {
        Ok(again) => again,
        Err(why) => return same("a converted file is admitted", none, ("model", 0), ("model", why)),
    };
    same("type and count", none, ("old", (old.meta.ty, old.meta.len)), ("new", (again.meta.ty, again.meta.len)))?;
    seen.vanished = old.chain.iter().any(|(_, node, _)| vanishes(node));
    seen.root_vanished = old.chain.first().map_or(true, |(_, node, _)| vanishes(node));
    seen.unused = old.chain.len() > old.reached.len();
    seen.wider = new.file.len() > file.len();
    if file.len() < given_file::LEAST || new.file.len() < given_file::LEAST {
        return Ok(());
    }
    let (before, after) = (given_file::open(file), given_file::open(&new.file));
    let (before, after) =
        (before.expect("the Rust opens an admitted file"), after.expect("and what it is converted to"));
    let chain = after.chain().expect("the Rust reads the nodes of an admitted file");
    let moved: HashMap<usize, usize> = new.table.iter().enumerate().map(|(a, &to)| (a, to as usize)).collect();
    let kept: Vec<_> = old.chain.iter().filter(|(_, node, _)| !vanishes(node)).collect();
    same("the number of nodes", none, ("old", kept.len()), ("the Rust", chain.len()))?;
    for ((addr, node, _), (to, read)) in kept.iter().zip(&chain) {
        let record = model_convert::record(node, &moved);
        same("a new address", none, ("table", moved[addr]), ("the Rust", *to))?;
        same(
            "a converted node",
            none,
            ("old", crate::answers::Meaning::of_record(&record, read.first)),
            ("the Rust", read.clone()),
        )?;
        let bytes = given::pack(&record, read.first).expect("the Rust packs a record that breaks no rule");
        same("the bytes of a node", none, ("the Rust", bytes), ("new", new.file[read.first..=*to].to_vec()))?;
    }
    let (pairs, again) = (before.pairs(PAIRS), after.pairs(PAIRS));
    same("the pairs of a stream", none, ("old", &pairs), ("new", &again))?;
    let pairs = pairs.expect("the Rust streams an admitted file");
    seen.pairs = pairs.len();
    if let Some(ours) = ours_file {
        for (key, value) in &pairs {
            for &bytes in &[file, &new.file[..]] {
                let mut place = [0];
                same(
                    "a lookup",
                    none,
                    ("the Rust", (0, *value)),
                    ("ours", (ours.get(bytes, key, &mut place), place[0])),
                )?;
            }
        }
    }
    Ok(())
}

// ---- the cases

pub fn old_file(nodes: &[u8]) -> Vec<u8> {
    let mut file = header(1, 7);
    file.extend(nodes);
    let root = file.len() - 1;
    crate::builder::whole(file, 3, root, 0)
}

fn wide(n: usize) -> Vec<u8> {
    let mut nodes = vec![0; n];
    nodes.extend((0..n).rev().map(|b| b as u8));
    nodes.push(0x10);
    if n < 64 {
        nodes.push(n as u8);
    } else {
        nodes.extend(&[if n == 256 { 1 } else { n as u8 }, 0]);
    }
    old_file(&nodes)
}

// A file by hand, with the answer where all buffers have room.
pub fn rows() -> Vec<(&'static str, Vec<u8>, u64)> {
    // a path of 300 bytes that the root, which leads to address 0, does not reach
    let unreached = [&[0, 0, 0x40][..], &[0xc5; 300], &[0, 0x10, 0x85]].concat();
    let empty = crate::builder::whole(header(1, 7), 3, 0, 0);
    vec![
        ("vanished", old_file(&[0, 0, 0x40, 0, 0, 2, 0, 1, b'b', b'a', 0x11, 0x42]), 41),
        ("root-vanished", old_file(&[3, 1, 0, 0x40, 0, 0, 0x40]), 32),
        ("root-0", empty, 32),
        ("nothing-held", old_file(&[0, 0, 0]), 35),
        ("32-transitions", wide(32), 98),
        ("33-transitions", wide(33), 356),
        ("63-transitions", wide(63), 416),
        ("64-transitions", wide(64), 419),
        ("255-transitions", wide(255), 801),
        ("256-transitions", wide(256), 803),
        ("unreached-path-over-255", old_file(&unreached), 337),
        ("sizes-larger-than-needed", old_file(&[5, 0, 0, 0, 0x22, 0x85]), 36),
        ("form-10-where-11-will-do", old_file(&[0, 0x10, 0x85, 1, 0x10, 0x85]), 36),
        ("version-2", file_of(2, &[7, 1, 0, 0x40]), REFUSED + EDITION),
        ("version-3", file_of(3, &[7, 1, 0, 0x40]), REFUSED + EDITION),
        ("no-bytes", Vec::new(), REFUSED + EDITION),
        ("broken-chain", file_of(1, &[0x40, 0, 0, 0x40]), REFUSED + NODE),
    ]
}

impl<'a> Run<'a> {
    fn conversion_of(&mut self, file: &[u8], lent: Lent) -> Result<Seen, Difference> {
        let (ours, ours_file) = (self.ours_convert, self.ours_file);
        let seen = smallest(file, |file| converted(ours, ours_file, file, lent))?;
        if seen.answer < REFUSED {
            self.count("converted");
            let marks = [
                (seen.vanished, "converted, with a node that vanishes"),
                (seen.root_vanished, "converted, the root vanishes"),
                (seen.unused, "converted, with nodes that no path reaches"),
                (seen.wider, "converted, and longer than before"),
                (seen.pairs > 0, "converted, with pairs by the Rust"),
            ];
            for &(is, what) in &marks {
                if is {
                    self.count(what);
                }
            }
        } else {
            self.count(match seen.answer - REFUSED {
                EDITION => "refused, EDITION",
                LARGE => "refused, LARGE",
                SPACE => "refused, SPACE",
                _ => "refused by opening or admission",
            });
        }
        Ok(seen)
    }

    pub fn conversion(&mut self) -> Checked {
        let roomy =
            |n: usize| Lent { depths: n + 3, sums: n, out: 5, table: 2, keep: 0xa5a5_5a5a, limit: MAX_LEN as u32 };
        for (name, file, want) in rows() {
            let seen = self.conversion_of(&file, roomy(file.len()))?;
            same("a row", || name.to_string(), ("row", want), ("found", seen.answer))?;
        }
        let (_, file, len) = rows().remove(0);
        for &(out, table, limit, want) in
            &[(-1, 0, u32::max_value(), SPACE), (0, -1, u32::max_value(), SPACE), (-1, -1, len as u32 - 1, LARGE)]
        {
            let seen = self.conversion_of(&file, Lent { out, table, limit, ..roomy(file.len()) })?;
            same(
                "a refused row",
                || format!("{} {} {}", out, table, limit),
                ("row", REFUSED + want),
                ("found", seen.answer),
            )?;
        }
        for i in 0..CONVERSIONS / self.one_in {
            let mut file = match i % 16 {
                0..=5 => small(&mut self.prng).file,
                6..=10 => generate_file::unused(&mut self.prng),
                11 => {
                    let long = self.prng.between(200, 260);
                    path_over(&mut self.prng, 1, &[0, 0, 0x40], long, 1, true)
                }
                _ => generate_file::chained(&mut self.prng, 1, 1 + i % 9, i % 8, false).file,
            };
            if i % 500 == 0 {
                file = medium(&mut self.prng).file;
            }
            // of another version only now and then
            if file.len() >= 32 && file[0] != 1 && !self.prng.one_in(10) {
                let cut = crate::builder::trailer_size(u64::from(file[0]));
                let nodes = file[16..file.len() - cut].to_vec();
                file = old_file(&nodes);
            }
            // a root that vanishes, over nodes that do not
            if file.len() >= 32 && file[0] == 1 && self.prng.one_in(40) {
                let mut nodes = file[16..file.len() - 16].to_vec();
                nodes.extend(&[0, 0, 0x40]);
                file = old_file(&nodes);
            }
            if self.prng.one_in(12) {
                let at = self.prng.below(file.len().max(1));
                if at < file.len() {
                    file[at] = generate_file::damage(&mut self.prng, file[at]);
                }
            }
            let n = file.len();
            let keep = self.prng.next();
            let mut lent = Lent { keep, ..roomy(n) };
            match self.prng.below(10) {
                0 => lent.out = -(self.prng.between(1, 40) as isize),
                1 => lent.table = -1,
                2 => lent.limit = self.prng.between(0, n + 40) as u32,
                3 if n > 0 => lent.depths = n - 1,
                4 => {
                    lent.out = -1;
                    lent.limit = self.prng.between(20, n + 20) as u32;
                }
                _ => {}
            }
            self.conversion_of(&file, lent)?;
        }
        self.require(
            &[
                "converted",
                "converted, with a node that vanishes",
                "converted, with nodes that no path reaches",
                "converted, with pairs by the Rust",
            ],
            5_000,
        )?;
        self.require(
            &[
                "refused, EDITION",
                "refused, LARGE",
                "refused, SPACE",
                "converted, the root vanishes",
                "converted, and longer than before",
            ],
            100,
        )
    }
}
