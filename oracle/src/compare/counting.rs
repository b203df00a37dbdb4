// The table of keys and the number of keys to come (document 02, N11): the filling by the model and by ours, tables to start with,
// and rows by hand.

use std::collections::BTreeMap;

use super::admission::{describe_lent, Lent};
use super::ranges::{started, stepped};
use super::{describe_file, same, Checked, Run};
use crate::answers::{Bound, FileAnswers, Kind, Meaning, BOUND, COUNT, NODE, SPACE, STATE};
use crate::generate_file::damage;
use crate::hand_made::{d, doubled, root_0, sums, unsound_under};
use crate::model_file::{self, Admitted, MAX_PATH};
use crate::model_reading::Told;
use crate::prng::Prng;

const TOP: u64 = u64::max_value();

pub const COUNTS_REFUSED: &str = "tables of keys refused: 19 COUNT";

// ---- the filling

// The filling by ours, held to what the model says of admission and to the two tables that admission leaves.
pub fn counted(
    ours: &dyn FileAnswers,
    file: &[u8],
    lent: Lent,
    judged: &Result<Admitted, u64>,
    tables: (Vec<u16>, Vec<u64>),
) -> Checked {
    let input = || describe_lent(file, lent);
    let given = || (vec![lent.keep as u16; lent.depths], vec![lent.keep; lent.sums]);
    let mut counts = vec![lent.keep; lent.counts];
    // the third table is judged with the other two
    let (want, tables) = match model_file::open(file) {
        Ok(_) if lent.counts < file.len() => (SPACE, given()),
        _ => (model_file::fill_counts(file.len(), judged, &mut counts), tables),
    };
    let (mut our_depths, mut our_sums) = given();
    let mut our_counts = vec![lent.keep; lent.counts];
    let answer = ours.count_keys(file, &mut our_depths, &mut our_sums, &mut our_counts);
    same("filling the table of keys", input, ("model", want), ("ours", answer))?;
    same("the table of paths after the filling", input, ("model", tables.0), ("ours", our_depths))?;
    same("the table of sums after the filling", input, ("model", tables.1), ("ours", our_sums))?;
    same("the table of keys", input, ("model", counts), ("ours", our_counts))
}

// ---- tables to start with

// The table as filled for a file, zeros where it is not.
pub fn filled(file: &[u8]) -> Vec<u64> {
    let table = model_file::admitted(file).and_then(|found| found.counts(file.len()));
    table.unwrap_or_else(|_| vec![0; file.len()])
}

// The number of keys from each node that is met from the root on, as far as the nodes are sound, and at most 2^64 - 1. In an admitted
// file it is the table's.
pub fn followed(file: &[u8]) -> Vec<(usize, u64)> {
    let meta = match model_file::open(file) {
        Ok(meta) if !file.is_empty() => meta,
        _ => return Vec::new(),
    };
    let mut nodes: BTreeMap<usize, Meaning> = BTreeMap::new();
    let mut to_meet = vec![meta.root];
    while let Some(addr) = to_meet.pop() {
        if addr != 0 && !nodes.contains_key(&addr) {
            if let Some(node) = model_file::judge(file, &meta, addr) {
                to_meet.extend(node.transitions.iter().map(|t| t.addr));
                nodes.insert(addr, node);
            }
        }
    }
    // a target lies below its node
    let mut keys: BTreeMap<usize, u64> = BTreeMap::new();
    for (addr, node) in nodes {
        let below = |target: usize| if target == 0 { 1 } else { keys.get(&target).copied().unwrap_or(0) };
        let all = node.transitions.iter().fold(node.is_final as u64, |n, t| n.saturating_add(below(t.addr)));
        keys.insert(addr, all);
    }
    keys.into_iter().collect()
}

// Any table for a file: as filled, with an entry changed, zeros, all of the largest, any numbers, or short.
pub fn any_table(prng: &mut Prng, file: &[u8]) -> Vec<u64> {
    let n = file.len();
    // too large for a table, and refused before it is looked at
    if n > 1 << 20 {
        return vec![TOP; prng.below(50)];
    }
    let mut table = vec![0; n + prng.below(3)];
    match prng.below(16) {
        0 => (),
        1 | 2 => table.iter_mut().for_each(|entry| *entry = TOP),
        3 => table.iter_mut().for_each(|entry| *entry = prng.next() % 5),
        4 => table.iter_mut().for_each(|entry| *entry = prng.next() >> prng.below(64)),
        5 => table.truncate(prng.below(n + 1)),
        6 => table.truncate(n.saturating_sub(1)),
        way => {
            let entries = followed(file);
            for &(addr, keys) in &entries {
                table[addr] = keys;
            }
            if way < 10 && !entries.is_empty() {
                let (addr, keys) = prng.pick(&entries);
                table[addr] = prng.pick(&[0, keys / 2, keys.wrapping_sub(1), keys.wrapping_add(1), TOP - keys, TOP]);
            }
        }
    }
    table
}

// ---- rows by hand

// The number that a start has, or its refusal, with D's table, with zeros, with 21: 5 and 29: 3, and with the largest at both.
struct NumberRow {
    lower: (Kind, &'static [u8]),
    upper: (Kind, &'static [u8]),
    numbers: [Result<u64, u64>; 4],
}

const TABLES_OF_D: [(u64, u64); 4] = [(2, 3), (0, 0), (5, 3), (TOP, TOP)];

const ALL: (Kind, &[u8]) = (Kind::Unbounded, b"");

const fn row(lower: (Kind, &'static [u8]), upper: (Kind, &'static [u8]), numbers: [Result<u64, u64>; 4]) -> NumberRow {
    NumberRow { lower, upper, numbers }
}

const NUMBER_ROWS: &[NumberRow] = &[
    row(ALL, ALL, [Ok(3), Ok(0), Ok(3), Ok(TOP)]),
    row((Kind::Included, b"at"), (Kind::Excluded, b"e"), [Ok(1), Err(COUNT), Ok(4), Ok(TOP - 1)]),
    row((Kind::Included, b"b"), ALL, [Ok(1), Ok(0), Err(COUNT), Ok(0)]),
    row((Kind::Excluded, b"at"), ALL, [Ok(1), Err(COUNT), Ok(1), Ok(TOP - 2)]),
    // no entry is read
    row(ALL, (Kind::Included, b"a"), [Ok(1), Ok(1), Ok(1), Ok(1)]),
    row(ALL, (Kind::Excluded, b"a"), [Ok(0), Ok(0), Ok(0), Ok(0)]),
    row(ALL, (Kind::Excluded, b""), [Ok(0), Ok(0), Ok(0), Ok(0)]),
    row(ALL, (Kind::Included, b"zz"), [Ok(3), Ok(1), Ok(6), Err(COUNT)]),
    // the bounds cross
    row((Kind::Included, b"e"), (Kind::Included, b"a"), [Ok(0), Ok(0), Ok(0), Ok(0)]),
    row((Kind::Excluded, b"a"), (Kind::Included, b"a"), [Ok(0), Ok(0), Ok(0), Ok(0)]),
    row((Kind::Included, b"a"), (Kind::Included, b"a"), [Ok(1), Ok(1), Ok(1), Ok(1)]),
    row((Kind::Included, &[b'a'; 256]), ALL, [Err(BOUND), Err(BOUND), Err(BOUND), Err(BOUND)]),
];

fn bound((kind, bytes): (Kind, &[u8])) -> Bound {
    Bound { kind, bytes: bytes.to_vec() }
}

// Files with so many keys, or too many.
const COUNTED_ROWS: &[(bool, usize, Result<u64, u64>)] = &[
    (false, 0, Ok(2)),
    (false, 61, Ok(1 << 62)),
    (false, 62, Ok(1 << 63)),
    (false, 63, Err(COUNT)),
    (true, 0, Ok(3)),
    (true, 61, Ok(TOP / 2)),
    (true, 62, Ok(TOP)),
    (true, 63, Err(COUNT)),
];

impl<'a> Run<'a> {
    // Document 02's rows of the filling.
    pub fn counting_rows(&mut self) -> Checked {
        for &(finals, above, want) in COUNTED_ROWS {
            for version in 1..=3 {
                let file = doubled(version, finals, above, &[]);
                let found = model_file::admitted(&file).ok().expect("it is admitted");
                let keys = found.counts(file.len()).map(|counts| counts[found.meta.root]);
                let input = || format!("{} nodes above, {}", above, describe_file(&file));
                same("a row's keys", input, ("row", want), ("model", keys))?;
                self.admission_of(&file)?;
                self.count("rows by hand");
            }
        }
        let counts = filled(&d());
        let entries: Vec<_> = counts.iter().copied().enumerate().filter(|(_, keys)| *keys != 0).collect();
        same("a row's table", || "D".to_string(), ("row", vec![(21, 2), (29, 3)]), ("model", entries))
    }

    // Files with about 2^64 keys, some with these at nodes that no path from the root reaches; each damaged too.
    pub fn many_keys(&mut self) -> Checked {
        for i in 0..(2_400 / self.one_in).max(60) {
            let prng = &mut self.prng;
            let (version, finals, above) = (prng.pick(&[1, 2, 3]), prng.one_in(2), prng.between(60, 65));
            let unused = i % 4 == 0;
            let on_top = if unused { vec![0, 0x10, 0x9a] } else { vec![0xc5; prng.below(4)] };
            let file = doubled(version, finals, above, &on_top);
            self.admission_of(&file)?;
            match (unused, finals, above) {
                (true, _, 63) | (true, _, 64) | (true, _, 65) => {
                    self.count("files with over 2^64 - 1 keys from an unused node alone")
                }
                (false, true, 62) => self.count("files with 2^64 - 1 keys"),
                (false, false, 63) => self.count("files with 2^64 keys"),
                _ => (),
            }
            let mut damaged = file.clone();
            let i = self.prng.between(16, file.len() - 1);
            damaged[i] = damage(&mut self.prng, damaged[i]);
            self.admission_of(&damaged)?;
        }
        Ok(())
    }

    fn number_row(&mut self, file: &[u8], lower: Bound, upper: Bound, counts: &[u64], want: Result<u64, u64>) -> Checked {
        let input = || format!("lower {:02x?}, upper {:02x?}, {}", lower, upper, describe_file(file));
        let begun = started(self.ours_reading, file, &lower, &upper, counts, 1)?;
        same("a row's number", input, ("row", want), ("model", begun.map(|reading| reading.keys)))?;
        self.count("rows by hand");
        Ok(())
    }

    // Document 02's rows of the number.
    pub fn number_rows(&mut self) -> Checked {
        let file = d();
        let table_of_d = |at_21, at_29| {
            let mut counts = vec![0; 50];
            counts[21] = at_21;
            counts[29] = at_29;
            counts
        };
        for row in NUMBER_ROWS {
            for (&(at_21, at_29), &want) in TABLES_OF_D.iter().zip(&row.numbers) {
                let counts = table_of_d(at_21, at_29);
                self.number_row(&file, bound(row.lower), bound(row.upper), &counts, want)?;
                // a table that is one entry short is noticed after the bounds, whether or not an entry would be read
                let short = if want == Err(BOUND) { want } else { Err(SPACE) };
                self.number_row(&file, bound(row.lower), bound(row.upper), &counts[..49], short)?;
            }
        }
        // with 29: 1 the second key is one too many, and with 29: 9 the end comes with 6 to come
        let one = [(Told::Key(b"a".to_vec(), 1), 0), (Told::Refused(STATE), 0), (Told::Refused(STATE), 0)];
        let none = [(Told::Refused(STATE), 0)];
        let keys = [Told::Key(b"a".to_vec(), 1), Told::Key(b"at".to_vec(), 3), Told::Key(b"e".to_vec(), 4)];
        let mut nine: Vec<_> = keys.iter().cloned().zip(vec![8, 7, 6]).collect();
        nine.extend(vec![(Told::End, 6), (Told::End, 6)]);
        for (at_29, rows) in vec![(0, &none[..]), (1, &one[..]), (9, &nine[..])] {
            let begun = started(self.ours_reading, &file, &bound(ALL), &bound(ALL), &table_of_d(2, at_29), 1)?;
            let mut reading = begun.ok().expect("D starts");
            for (want, keys) in rows {
                let (told, after) = stepped(self.ours_reading, &file, &reading, MAX_PATH, 1)?;
                let input = || format!("29: {}, {}", at_29, describe_file(&file));
                same("a row's call", input, ("row", (want, *keys)), ("model", (&told, after.keys)))?;
                reading = after;
                self.count("rows by hand");
            }
        }
        // the upper bound's nodes are judged, for 5 alone, where the bounds do not cross
        let file = unsound_under(b'b');
        let tops = vec![TOP; file.len()];
        let to = |b: &'static [u8]| (Kind::Included, b);
        self.number_row(&file, bound(ALL), bound(to(b"b")), &tops, Err(NODE))?;
        self.number_row(&file, bound(to(b"c")), bound(to(b"b")), &tops, Ok(0))?;
        self.number_row(&file, bound(ALL), bound(to(b"c")), &tops, Err(COUNT))?;
        // 5 comes before 19
        let file = unsound_under(b'c');
        self.number_row(&file, bound(ALL), bound(to(b"c")), &tops, Err(NODE))?;
        // 2^64 - 1 and 1 on the upper bound's path
        self.number_row(&sums(1, TOP), bound(ALL), bound(to(b"aa")), &[0; 60], Ok(1))?;
        self.number_row(&root_0(), bound(ALL), bound(ALL), &[TOP; 36], Ok(1))?;
        self.number_row(&[], bound(ALL), bound(ALL), &[TOP], Ok(0))?;
        let file = doubled(3, true, 62, &[]);
        self.number_row(&file, bound(ALL), bound(ALL), &filled(&file), Ok(TOP))?;
        self.number_row(&file, bound((Kind::Excluded, b"")), bound(ALL), &filled(&file), Ok(TOP - 1))
    }
}
