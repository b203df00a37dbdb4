// Opening, by each: what a file says, or which refusal.

use super::{describe_file, same, smallest, Checked, Difference, Run, OPENINGS};
use crate::answers::{FileAnswers, Meta, LARGE, NO_CHECKSUM, ROOT, SHORT, VERSION};
use crate::given_file;
use crate::model::MAX_LEN;
use crate::model_file;
use crate::prng::Prng;
use crate::sparse::Zeros;

// In the order of their numbers.
pub const REFUSALS: [&str; 8] = [
    "refused: 1 SHORT",
    "refused: 2 VERSION",
    "refused: 3 ROOT",
    "refused: 4 LARGE",
    "refused: 5 NODE",
    "refused: 6 DEEP",
    "refused: 7 SUM",
    "refused: 8 SPACE",
];

pub fn refusal_name(number: u64) -> &'static str {
    REFUSALS[number as usize - 1]
}

// What the Rust does with a file: whether it opens it, and then looks the empty key up in it.
#[derive(Debug, PartialEq)]
enum Rust {
    Refuses,
    Answers,
    Panics,
}

// A file by hand, with the refusal or none, and what the Rust does with it.
struct Row {
    name: &'static str,
    version: u64,
    root: u64,
    len: usize,
    want: u64,
    rust: Rust,
}

const ROWS: &[Row] = &[
    Row { name: "zeros-35", version: 0, root: 0, len: 35, want: VERSION, rust: Rust::Refuses },
    Row { name: "zeros-36", version: 0, root: 0, len: 36, want: VERSION, rust: Rust::Refuses },
    Row { name: "version-4", version: 4, root: 0, len: 36, want: VERSION, rust: Rust::Refuses },
    Row { name: "root-0", version: 3, root: 0, len: 36, want: 0, rust: Rust::Answers },
    Row { name: "root-0-one-longer", version: 3, root: 0, len: 37, want: ROOT, rust: Rust::Refuses },
    Row { name: "root-0-version-1", version: 1, root: 0, len: 36, want: ROOT, rust: Rust::Refuses },
    Row { name: "root-0-version-2", version: 2, root: 0, len: 36, want: ROOT, rust: Rust::Refuses },
    Row { name: "root-18", version: 3, root: 18, len: 39, want: 0, rust: Rust::Answers },
    Row { name: "root-19-version-1", version: 1, root: 19, len: 36, want: 0, rust: Rust::Answers },
    Row { name: "root-19-version-2", version: 2, root: 19, len: 36, want: 0, rust: Rust::Answers },
    Row { name: "root-15", version: 3, root: 15, len: 36, want: ROOT, rust: Rust::Answers },
    Row { name: "root-16", version: 3, root: 16, len: 37, want: 0, rust: Rust::Answers },
    // document 01's difference, and the smallest files with it
    Row { name: "root-17-of-39", version: 3, root: 17, len: 39, want: ROOT, rust: Rust::Answers },
    Row { name: "root-1-of-36", version: 3, root: 1, len: 36, want: ROOT, rust: Rust::Panics },
    Row { name: "root-1-of-36-version-1", version: 1, root: 1, len: 36, want: ROOT, rust: Rust::Panics },
    Row { name: "root-largest", version: 3, root: u64::max_value(), len: 36, want: ROOT, rust: Rust::Panics },
    Row { name: "past-16-MiB", version: 3, root: 16_777_196, len: 16_777_217, want: 0, rust: Rust::Answers },
    Row { name: "largest", version: 3, root: 4_294_967_274, len: MAX_LEN, want: 0, rust: Rust::Answers },
    Row { name: "largest-version-1", version: 1, root: 4_294_967_278, len: MAX_LEN, want: 0, rust: Rust::Answers },
    Row { name: "largest-version-0", version: 0, root: 0, len: MAX_LEN, want: VERSION, rust: Rust::Refuses },
    Row { name: "one-too-large", version: 3, root: 4_294_967_275, len: MAX_LEN + 1, want: LARGE, rust: Rust::Answers },
    Row { name: "too-large-before-version", version: 0, root: 0, len: MAX_LEN + 1, want: LARGE, rust: Rust::Refuses },
];

// This length, version and root, with zeros elsewhere.
fn of_row(row: &Row) -> Zeros<u8> {
    let mut file = Zeros::new(row.len);
    put_ends(&mut file, row.version, row.root);
    file
}

// The version and the root, where a file of this length has them.
pub fn put_ends(file: &mut [u8], version: u64, root: u64) {
    file[..8].copy_from_slice(&version.to_le_bytes());
    let root_at = file.len() - if version == 3 { 12 } else { 8 };
    file[root_at..root_at + 8].copy_from_slice(&root.to_le_bytes());
}

// Opening by the model and by ours, which gets five places and some more, or four, all as given; and by the Rust where the
// model opens. What the model says.
pub fn opened(ours: Option<&dyn FileAnswers>, file: &[u8], keep: u64) -> Result<Result<Meta, u64>, Difference> {
    let input = || describe_file(file);
    let want = model_file::open(file);
    if let Ok(meta) = want {
        let rust = given_file::open(file).map(|opened| opened.meta());
        // only the definition takes a shorter file
        let wanted = if file.len() < given_file::LEAST { None } else { Some(meta) };
        same("what a file says", input, ("the Rust", rust), ("model", wanted))?;
    }
    if let Some(ours) = ours {
        let places = 5 + (keep % 3) as usize;
        let mut out = vec![keep; places];
        same("opening", input, ("model", want.err().unwrap_or(0)), ("ours", ours.open(file, &mut out)))?;
        let mut said = vec![keep; places];
        if let Ok(meta) = want {
            let checksum = meta.checksum.map_or(NO_CHECKSUM, u64::from);
            said[..5].copy_from_slice(&[meta.version, meta.ty, meta.len, meta.root as u64, checksum]);
        }
        same("what a file says, and a place beyond", input, ("model", said), ("ours", out))?;
        let mut out = vec![keep; 4];
        same(
            "opening, in four places",
            input,
            ("model", want.err().unwrap_or(0)),
            ("ours", ours.open(file, &mut out)),
        )?;
        same("four places", input, ("as given", vec![keep; 4]), ("ours", out))?;
    }
    Ok(want)
}

// A file of this length: any bytes, with a version and a root that are often right or nearly so.
fn header_and_trailer(prng: &mut Prng, len: usize) -> Vec<u8> {
    let mut file = vec![0; len];
    prng.fill(&mut file);
    let version = match prng.below(8) {
        0 => prng.next(),
        1 => prng.pick(&[0, 4, 255, 256, 259, 3 << 32, 1 << 63]),
        _ => prng.between(1, 3) as u64,
    };
    if len >= 8 && !prng.one_in(30) {
        file[..8].copy_from_slice(&version.to_le_bytes());
    }
    let root_at = len.saturating_sub(if version == 3 { 12 } else { 8 });
    if root_at + 8 <= len {
        let right = (root_at as u64).saturating_sub(9);
        let root = match prng.below(10) {
            0..=3 => right,
            4 => right + 1,
            5 => right.saturating_sub(1),
            6 => 0,
            7 => prng.between(1, 20) as u64,
            8 => right + (1 << prng.between(8, 63)),
            _ => prng.next(),
        };
        file[root_at..root_at + 8].copy_from_slice(&root.to_le_bytes());
    }
    file
}

impl<'a> Run<'a> {
    pub fn opening(&mut self) -> Checked {
        self.prng = Prng::new(4);
        for row in ROWS {
            let file = of_row(row);
            let keep = self.prng.next();
            let want = opened(self.ours_file, &file, keep)?;
            let input = || format!("row \"{}\"", row.name);
            same("a row", input, ("row", row.want), ("model", want.err().unwrap_or(0)))?;
            let rust = match given_file::open(&file).map(|opened| opened.get(b"")) {
                None => Rust::Refuses,
                Some(Some(_)) => Rust::Answers,
                Some(None) => Rust::Panics,
            };
            same("a row, by the Rust", input, ("row", &row.rust), ("the Rust", &rust))?;
            self.count("rows by hand");
            if row.want != 0 && rust != Rust::Refuses {
                self.count("rows that the Rust opens and document 01 refuses");
            }
        }
        for i in 0..OPENINGS / self.one_in {
            let prng = &mut self.prng;
            let (len, kind) = match i % 4 {
                0 => (prng.between(0, 60), "lengths from 0 to 60"),
                1 => (prng.pick(&[35, 36, 37]), "lengths 35, 36 and 37"),
                2 => (prng.between(36, 60), "lengths from 36 to 60"),
                _ => (prng.between(60, 400), "lengths from 60 to 400"),
            };
            let file = header_and_trailer(prng, len);
            self.count(kind);
            self.count_opening(&file)?;
        }
        // the two lengths at the upper end, with the right root and with others
        let mut large = Zeros::new(MAX_LEN + 1);
        self.prng.fill(&mut large[..4_096]);
        for i in 0..(400 / self.one_in).max(20) {
            let file = &mut large[..MAX_LEN + i % 2];
            let len = file.len();
            let version = self.prng.between(1, 3) as u64;
            let root = len as u64 - if version == 3 { 21 } else { 17 } + self.prng.pick(&[0, 0, 0, 1]);
            put_ends(file, version, root);
            self.count(if len == MAX_LEN { "lengths of 4,294,967,295" } else { "lengths of 4,294,967,296" });
            self.count_opening(file)?;
            large[MAX_LEN - 20..].iter_mut().for_each(|b| *b = 0);
        }
        self.require(&["opened: version 1", "opened: version 2", "opened: version 3", "opened: root 0"], 100)?;
        self.require(&["lengths of 4,294,967,295", "lengths of 4,294,967,296"], 100)?;
        self.require(&["refused: 3 ROOT, and the Rust opens", "lengths 35, 36 and 37"], 1_000)?;
        self.require(&REFUSALS[..4], 100)
    }

    pub fn count_opening(&mut self, file: &[u8]) -> Checked {
        let (ours, keep) = (self.ours_file, self.prng.next());
        let rust = given_file::open(file).is_some();
        match smallest(file, |file| opened(ours, file, keep))? {
            Ok(meta) => {
                self.count(match meta.version {
                    0 => "opened: no bytes",
                    1 => "opened: version 1",
                    2 => "opened: version 2",
                    _ => "opened: version 3",
                });
                if meta.root == 0 {
                    self.count("opened: root 0");
                }
            }
            Err(why) => {
                self.count(refusal_name(why));
                match (why, rust) {
                    (ROOT, true) => self.count("refused: 3 ROOT, and the Rust opens"),
                    (LARGE, true) => self.count("refused: 4 LARGE, and the Rust opens"),
                    // the Rust has these two conditions as they are
                    (SHORT, true) | (VERSION, true) => {
                        same("opening", || describe_file(file), ("the Rust", 0), ("model", why))?
                    }
                    _ => {}
                }
            }
        }
        Ok(())
    }
}
