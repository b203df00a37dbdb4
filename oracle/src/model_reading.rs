// A plain model of document 01, "A reading", with document 02's N11: start and next, on all bytes, with every table and from every
// reading whatsoever. It is written from the papers, with OPEN-POINTS 9 and 11 to 16; nodes and files are judged by model.rs and
// model_file.rs.

use crate::answers::{
    Bound, Held, Kind, Level, Meaning, Meta, Reading, ReadingAnswers, BOUND, BOUND_BYTES, COUNT, DEEP, END, LEVELS,
    NEXT_REFUSED, NODE, SPACE, STARTED, STATE, SUM,
};
use crate::model::Model;
use crate::model_file::{judge, open, MAX_PATH, MAX_SUM};

// ---- bounds

// A string meets the lower bound if there is none, if it is greater, or if it is equal and the bound included.
pub fn meets(kind: Kind, bound: &[u8], string: &[u8]) -> bool {
    match kind {
        Kind::Unbounded => true,
        Kind::Included => string >= bound,
        Kind::Excluded => string > bound,
    }
}

// It passes the upper bound if there is one and it is greater, or equal and the bound excluded.
pub fn passes(kind: Kind, bound: &[u8], string: &[u8]) -> bool {
    match kind {
        Kind::Unbounded => false,
        Kind::Included => string > bound,
        Kind::Excluded => string >= bound,
    }
}

// The bytes that count.
fn meant(bound: &Bound) -> &[u8] {
    match bound.kind {
        Kind::Unbounded => &[],
        Kind::Included | Kind::Excluded => &bound.bytes,
    }
}

// ---- start

// A node that the lower bound enters, with the running sum up to it and the place of the transition that it leaves by.
struct Entered {
    addr: usize,
    node: Meaning,
    sum: u128,
    left_by: Option<usize>,
}

// The nodes that the bytes enter, as far as the file has them: 5 for the node, then 7 for the running sum up to it.
fn enter(file: &[u8], meta: &Meta, bytes: &[u8]) -> Result<Vec<Entered>, u64> {
    let mut entered: Vec<Entered> = Vec::new();
    let (mut addr, mut sum) = (meta.root, 0);
    for i in 0..=bytes.len() {
        let node = judge(file, meta, addr).ok_or(NODE)?;
        if sum > MAX_SUM {
            return Err(SUM);
        }
        let left_by = bytes.get(i).and_then(|&b| node.transitions.iter().position(|t| t.inp == b));
        let taken = left_by.map(|place| node.transitions[place]);
        entered.push(Entered { addr, node, sum, left_by });
        match taken {
            Some(t) => {
                addr = t.addr;
                sum += u128::from(t.out);
            }
            None => break,
        }
    }
    Ok(entered)
}

// A reading of the keys between two bounds, or 1, 4, 2, 3, then 9, then 8 for the table, then what the walk along the lower bound
// meets, then what the number meets: 5 along the upper bound, and 19.
pub fn start(file: &[u8], lower: &Bound, upper: &Bound, counts: &[u64]) -> Result<Reading, u64> {
    let meta = open(file)?;
    if meant(lower).len() > BOUND_BYTES || meant(upper).len() > BOUND_BYTES {
        return Err(BOUND);
    }
    if counts.len() < file.len() {
        return Err(SPACE);
    }
    let begun = bare_start(file, lower, upper)?;
    let keys = if file.is_empty() || cross(lower, upper) { 0 } else { number(file, &meta, lower, upper, counts)? };
    Ok(Reading { keys, ..begun })
}

// ---- the number of keys to come

// Bounds cross where both are given and the lower's bytes are greater, or equal with either excluded.
pub fn cross(lower: &Bound, upper: &Bound) -> bool {
    let given = lower.kind != Kind::Unbounded && upper.kind != Kind::Unbounded;
    let excluded = lower.kind == Kind::Excluded || upper.kind == Kind::Excluded;
    given && (lower.bytes > upper.bytes || lower.bytes == upper.bytes && excluded)
}

// The keys from an address: one from 0, for which no entry is read.
fn keys_at(counts: &[u64], addr: usize) -> u128 {
    if addr == 0 {
        1
    } else {
        u128::from(counts[addr])
    }
}

// The keys before a string, and the string itself if it counts; or 5 for a node on its path, the last included.
fn keys_up_to(file: &[u8], meta: &Meta, counts: &[u64], string: &[u8], own: bool) -> Result<u128, u64> {
    let (mut addr, mut keys) = (meta.root, 0);
    for &b in string {
        let node = judge(file, meta, addr).ok_or(NODE)?;
        keys += u128::from(node.is_final);
        for t in node.transitions.iter().filter(|t| t.inp < b) {
            keys += keys_at(counts, t.addr);
        }
        match node.transitions.iter().find(|t| t.inp == b) {
            Some(t) => addr = t.addr,
            None => return Ok(keys),
        }
    }
    let node = judge(file, meta, addr).ok_or(NODE)?;
    Ok(keys + u128::from(own && node.is_final))
}

// The keys that do not pass the upper bound, less those that do not meet the lower.
fn number(file: &[u8], meta: &Meta, lower: &Bound, upper: &Bound, counts: &[u64]) -> Result<u64, u64> {
    let within = match upper.kind {
        Kind::Unbounded => keys_at(counts, meta.root),
        kind => keys_up_to(file, meta, counts, &upper.bytes, kind == Kind::Included)?,
    };
    let below = match lower.kind {
        Kind::Unbounded => 0,
        kind => keys_up_to(file, meta, counts, &lower.bytes, kind == Kind::Excluded)?,
    };
    if within > MAX_SUM || below > MAX_SUM || within < below {
        return Err(COUNT);
    }
    Ok((within - below) as u64)
}

// ---- a start without the number

pub fn bare_start(file: &[u8], lower: &Bound, upper: &Bound) -> Result<Reading, u64> {
    let meta = open(file)?;
    if meant(lower).len() > BOUND_BYTES || meant(upper).len() > BOUND_BYTES {
        return Err(BOUND);
    }
    let mut reading = Reading {
        file_len: file.len(),
        kind: upper.kind,
        bound_len: meant(upper).len(),
        bound: meant(upper).to_vec(),
        pending: None,
        total: 0,
        keys: 0,
        level_count: 0,
        levels: Vec::new(),
    };
    // no bytes have no node to enter
    if file.is_empty() {
        return Ok(reading);
    }
    let bytes = meant(lower);
    let mut entered = enter(file, &meta, bytes)?;

    let root = &entered[0].node;
    let empty_meets = bytes.is_empty() && lower.kind != Kind::Excluded;
    reading.pending = if empty_meets && root.is_final { Some(root.final_output) } else { None };

    // the last level's next transition is the one that leads to the least key from the bound on
    let followed = entered.len() - 1;
    let next_place = if followed < bytes.len() {
        // the bound leaves the file here: the first input above its byte
        let last = &entered[followed].node.transitions;
        last.iter().position(|t| t.inp > bytes[followed]).unwrap_or(last.len())
    } else if lower.kind == Kind::Excluded || followed == 0 {
        0
    } else {
        // the bound's own key comes next, so the transition to it is still to be followed
        entered.pop();
        entered[followed - 1].left_by.expect("the bound went on from here")
    };
    let last = entered.len() - 1;
    let levels = entered
        .iter()
        .enumerate()
        .map(|(i, e)| Level {
            addr: e.addr as u32,
            inp: if i == 0 { 0 } else { bytes[i - 1] },
            place: match e.left_by {
                Some(place) if i < last => place + 1,
                _ => next_place,
            } as u16,
            sum: e.sum as u64,
        })
        .collect();
    reading.set_levels(levels);
    Ok(reading)
}

// ---- next

#[derive(Clone, Debug, Eq, PartialEq)]
pub enum Told {
    Key(Vec<u8>, u64),
    End,
    Refused(u64),
}

// What a next answers with a key buffer of so many bytes, and the reading afterwards. A key lowers the number of keys to come, and is
// 11, as the last thing judged, where the number says none.
pub fn next(file: &[u8], reading: &Reading, space: usize) -> (Told, Reading) {
    let (told, after) = bare_next(file, reading, space);
    match told {
        Told::Key(..) if reading.keys == 0 => (Told::Refused(STATE), reading.clone()),
        Told::Key(..) => (told, Reading { keys: reading.keys - 1, ..after }),
        Told::End | Told::Refused(_) => (told, after),
    }
}

// The same without a look at the number.
pub fn bare_next(file: &[u8], reading: &Reading, space: usize) -> (Told, Reading) {
    match unrefused(file, reading, space) {
        Ok(answered) => answered,
        Err(why) => (Told::Refused(why), reading.clone()),
    }
}

// 1, 4, 2, 3, then 11, 8; a pending empty key; then the steps: 5 for the level, 6, 7, 5 for the target, the upper bound, 7 with
// the final output.
fn unrefused(file: &[u8], reading: &Reading, space: usize) -> Result<(Told, Reading), u64> {
    let meta = open(file)?;
    if reading.level_count > LEVELS || reading.bound_len > BOUND_BYTES || reading.file_len != file.len() {
        return Err(STATE);
    }
    if space < MAX_PATH {
        return Err(SPACE);
    }
    let mut after = reading.clone();
    if let Some(value) = after.pending.take() {
        if passes(reading.kind, &reading.bound, b"") {
            after.set_levels(Vec::new());
            return Ok((Told::End, after));
        }
        return Ok((Told::Key(Vec::new(), value), after));
    }
    let mut levels = reading.levels.clone();
    while let Some(&level) = levels.last() {
        let node = judge(file, &meta, level.addr as usize).ok_or(NODE)?;
        let t = match node.transitions.get(usize::from(level.place)) {
            Some(t) => t,
            None => {
                levels.pop();
                continue;
            }
        };
        // the key would have as many bytes as there are levels now
        if levels.len() > MAX_PATH {
            return Err(DEEP);
        }
        let sum = u128::from(level.sum) + u128::from(t.out);
        if sum > MAX_SUM {
            return Err(SUM);
        }
        let target = judge(file, &meta, t.addr).ok_or(NODE)?;
        after.total = after.total.saturating_add(1);
        let here = levels.len() - 1;
        levels[here].place += 1;
        levels.push(Level { addr: t.addr as u32, inp: t.inp, place: 0, sum: sum as u64 });
        let key: Vec<u8> = levels.iter().skip(1).map(|level| level.inp).collect();
        if passes(reading.kind, &reading.bound, &key) {
            levels.clear();
            break;
        }
        if target.is_final {
            let value = sum + u128::from(target.final_output);
            if value > MAX_SUM {
                return Err(SUM);
            }
            after.set_levels(levels);
            return Ok((Told::Key(key, value as u64), after));
        }
    }
    after.set_levels(levels);
    Ok((Told::End, after))
}

// ---- the model in our library's place

// What a next answers as a number, with what it writes.
pub fn tell(told: &Told, key: &mut [u8], value: &mut [u64; 1]) -> u64 {
    match told {
        Told::Key(bytes, its_value) => {
            key[..bytes.len()].copy_from_slice(bytes);
            *value = [*its_value];
            bytes.len() as u64
        }
        Told::End => END,
        Told::Refused(why) => NEXT_REFUSED + why,
    }
}

impl ReadingAnswers for Model {
    fn start(&self, file: &[u8], lower: &Bound, upper: &Bound, counts: &[u64], held: &mut Held) -> u64 {
        match start(file, lower, upper, counts) {
            Ok(started) => {
                held.put(&started);
                STARTED
            }
            Err(why) => why,
        }
    }

    fn next(&self, file: &[u8], held: &mut Held, key: &mut [u8], value: &mut [u64; 1]) -> u64 {
        let (told, after) = next(file, &held.reading(), key.len());
        held.put(&after);
        tell(&told, key, value)
    }

    fn bare_keys(&self, file: &[u8], lower: &Bound, upper: &Bound, most: u64, key: &mut [u8]) -> u64 {
        let mut reading = match bare_start(file, lower, upper) {
            Ok(reading) => reading,
            Err(_) => return 0,
        };
        for n in 0..most {
            let (told, after) = bare_next(file, &reading, key.len());
            if tell(&told, key, &mut [0]) >= END {
                return n;
            }
            reading = after;
        }
        most
    }
}
