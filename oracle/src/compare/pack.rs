// Packing of lists (document 02, N4), by the model, by ours, and by a plain builder over the Rust's `Registry` and `compile_to`; what the Rust
// reads back from each result that it opens.

use super::{hex, same, Checked, Difference, Run, LISTS};
use crate::answers::{FileAnswers, LARGE, REFUSED, SPACE};
use crate::given::caught;
use crate::given_file;
use crate::model::MAX_LEN;
use crate::model_file;
use crate::model_pack::{self, Cell, PackAnswers, Packed, Pairs, EMPTY, LIST, TABLE};
use crate::prng::Prng;
use crate::raw::Builder;

// What a packing was lent beside the list: the output's length beside the result's, the cells, the lengths of the three tables, what stands in
// all of them, and the limit.
#[derive(Clone, Copy)]
struct Lent {
    out: isize,
    cells: usize,
    tables: [usize; 3],
    keep: u64,
    limit: u32,
}

const ROOMY: Lent = Lent { out: 5, cells: 40, tables: [TABLE; 3], keep: 0xa5a5_5a5a, limit: MAX_LEN as u32 };

// What was seen, for the counts.
struct Seen {
    answer: u64,
    packed: Option<Packed>,
    pairs: usize,
}

fn describe(list: &[u8], lent: Lent) -> String {
    let front = &list[..list.len().min(4_096)];
    format!(
        "output {} beside the result, {} cells, tables of {:?} entries, limit {}, a list of {} bytes: {}",
        lent.out,
        lent.cells,
        lent.tables,
        lent.limit,
        list.len(),
        hex(front)
    )
}

fn zeros<T: Copy + Into<u64>>(all: &[T]) -> bool {
    all.iter().all(|&n| n.into() == 0)
}

fn asked(
    ours: Option<&dyn PackAnswers>,
    ours_file: Option<&dyn FileAnswers>,
    list: &[u8],
    lent: Lent,
) -> Result<Seen, Difference> {
    let input = || describe(list, lent);
    // what would be written with room for everything gives the output's length
    let whole = model_pack::pack(list, MAX_LEN, lent.cells, true, MAX_LEN).map(|done| done.file.len());
    let room = (whole.unwrap_or(64) as isize + lent.out).max(0) as usize;
    let fit = lent.tables.iter().all(|&n| TABLE <= n);
    let wanted = model_pack::pack(list, room, lent.cells, fit, lent.limit as usize);
    let (mut out, mut cells) = (vec![0; room], vec![EMPTY; lent.cells]);
    let answer = match &wanted {
        Err(why) => REFUSED + why,
        Ok(done) => {
            out[..done.file.len()].copy_from_slice(&done.file);
            cells.copy_from_slice(&done.cells);
            done.file.len() as u64
        }
    };
    if let Some(ours) = ours {
        let (mut our_out, mut our_cells): (_, Vec<Cell>) =
            (vec![lent.keep as u8; room], vec![[lent.keep, lent.keep]; lent.cells]);
        let [i, l, t] = lent.tables;
        let (mut inputs, mut leasts, mut targets) =
            (vec![lent.keep as u8; i], vec![lent.keep; l], vec![lent.keep as usize; t]);
        let said = ours.pack(lent.limit, list, &mut our_out, &mut our_cells, &mut inputs, &mut leasts, &mut targets);
        same("a packing", input, ("model", answer), ("ours", said))?;
        same("the output", input, ("model", out), ("ours", our_out))?;
        same("the cells", input, ("model", cells), ("ours", our_cells))?;
        let left = zeros(&inputs) && zeros(&leasts) && targets.iter().all(|&n| n == 0);
        same("the working tables are zeros", input, ("model", true), ("ours", left))?;
    }
    let mut seen = Seen { answer, packed: None, pairs: 0 };
    if let Ok(done) = wanted {
        let pairs = model_pack::pairs(list).expect("what is packed is a list");
        seen.pairs = pairs.len();
        read_back(ours_file, &pairs, &done, lent.cells).map_err(|mut difference| {
            difference.input = input();
            difference
        })?;
        seen.packed = Some(done);
    }
    Ok(seen)
}

// The result beside the plain builder's; admitted; no two nodes alike where none was overwritten; and its pairs by the Rust and by our own lookups.
fn read_back(ours_file: Option<&dyn FileAnswers>, pairs: &Pairs, done: &Packed, cells: usize) -> Checked {
    let none = String::new;
    let mut store = Builder::store(cells / 2);
    let built = caught(|| {
        model_pack::file(pairs, "", &mut |record, file| {
            let transitions: Vec<_> = record.transitions().map(|t| (t.inp, t.out, t.addr)).collect();
            store(record.is_final(), record.final_output, &transitions, file)
        })
    });
    same("the bytes of the plain builder", none, ("the Rust", built.as_ref()), ("model", Some(&done.file)))?;
    same("admission of the result", none, ("model", None), ("model", model_file::admitted(&done.file).err()))?;
    let mut kept = done.nodes.iter().map(|&(addr, _)| done.cells.iter().any(|cell| cell[0] == addr as u64));
    same("every node stands in a cell", none, ("run", done.uses.overwritten == 0), ("cells", kept.all(|is| is)))?;
    if done.uses.overwritten == 0 {
        for (i, (_, node)) in done.nodes.iter().enumerate().take(200) {
            let alike = done.nodes[..i].iter().any(|(_, other)| other == node);
            same("two nodes alike", none, ("demand", false), ("model", alike))?;
        }
    }
    if let Some(ours) = ours_file {
        for (key, value) in pairs.iter().take(50) {
            let mut place = [0];
            let said = ours.get(&done.file, key, &mut place);
            same("a lookup", none, ("list", (0, *value)), ("ours", (said, place[0])))?;
        }
    }
    if done.file.len() < given_file::LEAST {
        return Ok(());
    }
    let opened = given_file::open(&done.file).expect("the Rust opens a result");
    same("len()", none, ("list", pairs.len()), ("the Rust", opened.fst.len()))?;
    same("the pairs", none, ("list", Some(pairs)), ("the Rust", opened.pairs(pairs.len() + 1).as_ref()))
}

// ---- rows

fn text(pairs: &[(&str, u64)]) -> Vec<u8> {
    model_pack::list(&pairs.iter().map(|&(key, value)| (key.as_bytes().to_vec(), value)).collect::<Vec<_>>())
}

fn wide(n: usize, value: impl Fn(usize) -> u64) -> Vec<u8> {
    model_pack::list(&(0..n).map(|b| (vec![b as u8], value(b))).collect::<Vec<_>>())
}

// Two nodes of one hash.
const ONE_HASH: [(&str, u64); 4] = [("1a", 0), ("1c", 5), ("2b", 0), ("2c", 2_319_356_264_794_259_026)];
// Below x, y and z stands the same.
const ALIKE: [(&str, u64); 6] = [("xab", 1), ("xcb", 1), ("yab", 1), ("ycb", 1), ("zab", 1), ("zcb", 1)];

// A list, the number of cells, and the answer where everything has room.
fn rows() -> Vec<(&'static str, Vec<u8>, usize, Option<u64>)> {
    let long = |n: usize, value| model_pack::list(&[(vec![b'k'; n], value)]);
    let raw = |n: u32, total: u32, rest: &[u8]| {
        let mut list = n.to_le_bytes().to_vec();
        list.extend(&total.to_le_bytes());
        list.extend(rest);
        list
    };
    let mut rows = vec![
        ("no keys", text(&[]), 2, Some(35)),
        ("the empty key with 0", text(&[("", 0)]), 2, Some(32)),
        ("the empty key with 7", text(&[("", 7)]), 2, Some(36)),
        ("a with 0", text(&[("a", 0)]), 2, Some(35)),
        ("a with 1", text(&[("a", 1)]), 2, Some(36)),
        ("two nodes of one hash", text(&ONE_HASH), 2, Some(68)),
        ("two nodes of one hash, many cells", text(&ONE_HASH), 40, Some(68)),
        ("equal subtrees, one row", text(&ALIKE), 2, None),
        ("equal subtrees, many", text(&ALIKE), 1_000, None),
        ("a key of 255 bytes", long(255, 9), 2, None),
        ("the largest value", text(&[("", u64::max_value()), ("a", u64::max_value()), ("b", 0)]), 2, None),
        ("values that fall", text(&[("a", 9), ("ab", 7), ("abc", 5), ("abd", 3), ("b", 1)]), 4, None),
        ("three cells", text(&ONE_HASH), 3, Some(68)),
        ("one cell", text(&ONE_HASH), 1, Some(REFUSED + SPACE)),
        ("7 bytes", vec![0; 7], 2, Some(REFUSED + LIST)),
        ("a byte missing", text(&[("a", 1)])[..20].to_vec(), 2, Some(REFUSED + LIST)),
        ("a byte too many", raw(0, 0, &[0]), 2, Some(REFUSED + LIST)),
        ("no keys and a total of 1", raw(0, 1, &[b'a']), 2, Some(REFUSED + LIST)),
        ("a last end of 0", raw(1, 1, &[0, 0, 0, 0, 0, 0, 0, 0, 0, 0, 0, 0, b'a']), 2, Some(REFUSED + LIST)),
        ("equal keys", text(&[("a", 1), ("a", 2)]), 2, Some(REFUSED + LIST)),
        ("keys that fall", text(&[("b", 1), ("a", 2)]), 2, Some(REFUSED + LIST)),
        ("the empty key second", text(&[("a", 1), ("", 2)]), 2, Some(REFUSED + LIST)),
        ("a key of 256 bytes", long(256, 9), 2, Some(REFUSED + LIST)),
        ("2^32 - 1 keys", raw(u32::max_value(), 0, &[0; 24]), 2, Some(REFUSED + LIST)),
    ];
    // ends that fall: the second is 0
    let mut falls = text(&[("a", 1), ("b", 2)]);
    falls[12] = 0;
    rows.push(("ends that fall", falls, 2, Some(REFUSED + LIST)));
    for &(name, n) in &[
        ("32 transitions", 32),
        ("33 transitions", 33),
        ("63 transitions", 63),
        ("64 transitions", 64),
        ("255 transitions", 255),
        ("256 transitions", 256),
    ] {
        rows.push((name, wide(n, |b| b as u64), 2, None));
        rows.push((name, wide(n, |b| u64::max_value() - b as u64), 2, None));
    }
    rows
}

// ---- lists at random

fn value(prng: &mut Prng, kind: usize, i: usize) -> u64 {
    match kind {
        0 => 0,
        1 => i as u64,
        2 => 1_000_000 - i as u64,
        3 => prng.below(3) as u64,
        4 => prng.next() >> (8 * prng.below(8)),
        5 => prng.pick(&[0, 1, u64::max_value() - 1, u64::max_value()]),
        // by far the most nodes are alike where few values differ
        _ => prng.pick(&[0, 0, 7]),
    }
}

fn key(prng: &mut Prng, kind: usize, letters: usize) -> Vec<u8> {
    let most = match kind {
        0 => 3,
        1 => 8,
        2 => 40,
        _ => 2,
    };
    let n = prng.between(0, most);
    let mut key: Vec<u8> = (0..n).map(|_| b'a'.wrapping_add(prng.below(letters) as u8)).collect();
    match kind {
        // the same rests below many beginnings
        3 => key.extend(prng.pick(&[&b"ing"[..], b"ed", b"s", b"ness", b""])),
        4 => key.extend(vec![b'z'; prng.pick(&[250, 251, 252, 253])]),
        _ => {}
    }
    key
}

fn random(prng: &mut Prng, i: usize) -> Pairs {
    let kind = i % 5;
    let letters = prng.pick(&[2, 2, 2, 3, 4, 26, 256]);
    let most = if i % 400 == 0 { 3_000 } else { prng.pick(&[2, 4, 12, 40, 120, 120]) };
    let keys: std::collections::BTreeSet<Vec<u8>> =
        (0..prng.between(0, most)).map(|_| key(prng, kind, letters)).collect();
    let kind = prng.below(8);
    keys.into_iter().enumerate().map(|(i, key)| (key, value(prng, kind, i))).collect()
}

// One thing wrong with a list, most often.
fn broken(prng: &mut Prng, pairs: &mut Pairs) -> Vec<u8> {
    let n = pairs.len();
    match prng.below(5) {
        0 if n > 1 => {
            let i = prng.between(1, n - 1);
            pairs.swap(i - 1, i);
        }
        1 if n > 0 => {
            let again = pairs[prng.below(n)].clone();
            let i = prng.below(n + 1);
            pairs.insert(i, again);
        }
        2 => pairs.push((vec![255; 256], 1)),
        3 => {
            let mut list = model_pack::list(pairs);
            let at = prng.below(list.len().min(8 + 4 * n));
            list[at] = list[at].wrapping_add(prng.pick(&[1, 255, 128]));
            return list;
        }
        _ => {
            let mut list = model_pack::list(pairs);
            let keep = list.len() - prng.between(1, list.len().min(9));
            list.truncate(keep);
            return list;
        }
    }
    model_pack::list(pairs)
}

impl<'a> Run<'a> {
    fn list_of(&mut self, list: &[u8], lent: Lent) -> Result<Seen, Difference> {
        let seen = asked(self.ours_pack, self.ours_file, list, lent)?;
        match &seen.packed {
            Some(done) => {
                let uses = done.uses;
                let marks = [
                    (true, "packed"),
                    (done.file.len() >= given_file::LEAST, "packed, and read back by the Rust"),
                    (lent.cells < 4, "packed, with one row"),
                    (lent.cells % 2 == 1, "packed, with an odd last cell"),
                    (uses.first > 0, "packed, a first cell matched"),
                    (uses.second > 0, "packed, a second cell matched"),
                    (uses.overwritten > 0, "packed, a cell was overwritten"),
                    (uses.overwritten == 0, "packed, no cell was overwritten"),
                    (uses.unequal > 0, "packed, two nodes of one hash"),
                ];
                for &(is, what) in &marks {
                    if is {
                        self.count(what);
                    }
                }
                self.count_more("pairs", seen.pairs);
            }
            None => self.count(match seen.answer - REFUSED {
                LIST => "refused, LIST",
                SPACE => "refused, SPACE",
                LARGE => "refused, LARGE",
                _ => "refused by another number",
            }),
        }
        Ok(seen)
    }

    pub fn lists(&mut self) -> Checked {
        for (name, list, cells, want) in rows() {
            let seen = self.list_of(&list, Lent { cells, ..ROOMY })?;
            let named = || name.to_string();
            match want {
                Some(want) => same("a row", named, ("row", want), ("found", seen.answer))?,
                None => same("a row is packed", named, ("row", true), ("found", seen.packed.is_some()))?,
            }
        }
        let list = text(&ONE_HASH);
        for (out, tables, limit, want) in vec![
            (-1, [TABLE; 3], MAX_LEN as u32, SPACE),
            (0, [TABLE; 3], 67, LARGE),
            (-1, [TABLE; 3], 67, SPACE),
            (-68, [TABLE; 3], 67, SPACE),
            (0, [TABLE - 1, TABLE, TABLE], 67, SPACE),
            (0, [TABLE, TABLE - 1, TABLE], 67, SPACE),
            (0, [TABLE, TABLE, TABLE - 1], 67, SPACE),
            (0, [0; 3], MAX_LEN as u32, SPACE),
        ] {
            let seen = self.list_of(&list, Lent { out, tables, limit, ..ROOMY })?;
            let named = || format!("{} {:?} {}", out, tables, limit);
            same("a refused row", named, ("row", REFUSED + want), ("found", seen.answer))?;
        }
        for i in 0..LISTS / self.one_in {
            let mut pairs = random(&mut self.prng, i);
            let list = match self.prng.below(8) {
                0 => broken(&mut self.prng, &mut pairs),
                _ => model_pack::list(&pairs),
            };
            let cells = self.prng.pick(&[2, 2, 3, 4, 5, 8, 21, 64, 1_000, 20_000]);
            let mut lent = Lent { cells, keep: self.prng.next(), ..ROOMY };
            match self.prng.below(24) {
                0 => lent.out = -(self.prng.between(1, 40) as isize),
                1 => lent.out = -1,
                2 => lent.limit = self.prng.between(0, 60 + list.len() / 4) as u32,
                3 => {
                    lent.out = -1;
                    lent.limit = self.prng.between(30, 60) as u32;
                }
                4 if i % 4 == 0 => lent.cells = self.prng.below(2),
                5 if i % 4 == 0 => lent.tables[i / 4 % 3] = TABLE - 1,
                6 => lent.out = 0,
                7 => lent.tables = [TABLE + 7, TABLE + 1, TABLE + 300],
                _ => {}
            }
            self.list_of(&list, lent)?;
        }
        self.require(&["packed", "packed, and read back by the Rust", "packed, a cell was overwritten"], 5_000)?;
        self.require(
            &[
                "packed, with one row",
                "packed, with an odd last cell",
                "packed, a first cell matched",
                "packed, a second cell matched",
                "packed, no cell was overwritten",
                "refused, LIST",
                "refused, SPACE",
                "refused, LARGE",
            ],
            300,
        )?;
        self.require(&["packed, two nodes of one hash"], 2)
    }
}
