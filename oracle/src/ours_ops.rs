// Our static libraries, target/staticlib/liboracle_ops.a (crate `oracle_ops`) and libbaxhiso_ops_c.a (crate `baxhiso_ops_c`): their exported functions,
// and safe functions over them. A slice is passed as its pointer and then its length, an array as its pointer.

use crate::answers::{Kind, BOUND_BYTES};
use crate::model_file::MAX_PATH;
use crate::model_ops::{Item, Merged, Op, OpsAnswers, Source, Stopped, MOST_FILES};
use crate::model_range::ROW as KEY_ROW;
use crate::ours::Library;

// As in crates/oracle_ops.
const ROW: usize = 263;
const ITEM: usize = 10;
const NO_ROOM: u64 = 4_294_967_296;
const LAYOUT: u64 = NO_ROOM + 1;
const START_REFUSED: u64 = NO_ROOM + 1_000;
const REFUSED: u64 = NO_ROOM + 2_000;

#[link(name = "oracle_ops", kind = "static")]
extern "C" {
    fn oracle_ops(
        op: u64,
        count: usize,
        blob: *const u8,
        blob_len: usize,
        tables: *const u64,
        tables_len: usize,
        ends: *const u64,
        stated: *const u64,
        bounds: *const u8,
        bounds_len: usize,
        rows: *mut u8,
        rows_len: usize,
        numbers: *mut u64,
        numbers_len: usize,
        followed: *mut u64,
    ) -> u64;
}

#[link(name = "baxhiso_ops_c", kind = "static")]
extern "C" {
    fn fst_items_rows(
        op: u64,
        count: usize,
        a: *const u8,
        a_len: usize,
        b: *const u8,
        b_len: usize,
        c: *const u8,
        c_len: usize,
        d: *const u8,
        d_len: usize,
        e: *const u8,
        e_len: usize,
        f: *const u8,
        f_len: usize,
        g: *const u8,
        g_len: usize,
        h: *const u8,
        h_len: usize,
        lower_kind: u64,
        lower: *const u8,
        lower_len: usize,
        upper_kind: u64,
        upper: *const u8,
        upper_len: usize,
        most: usize,
        rows: *mut u8,
        rows_len: usize,
        counts: *mut u8,
        counts_len: usize,
        numbers: *mut u8,
        numbers_len: usize,
        values: *mut u64,
        values_len: usize,
        found: *mut usize,
    ) -> i32;
}

// What a page says beside a refusal.
const END: i32 = -2;
const MORE: i32 = -3;

// The number of items, page by page of so many, each handed on; or the refusal. The bounds are those of the first file.
pub fn pages(
    op: Op,
    sources: &[Source],
    most: usize,
    mut each: impl FnMut(&[u8], &[(u64, usize)]),
) -> Result<usize, u64> {
    let f = |i: usize| sources.get(i).map_or(&[][..], |source| &source.file[..]);
    let (lower, upper) = (&sources[0].lower, &sources[0].upper);
    let (mut rows, mut counts) = (vec![7u8; KEY_ROW * most], vec![7u8; most]);
    let (mut numbers, mut values) = (vec![7u8; MOST_FILES * most], vec![7u64; MOST_FILES * most]);
    let (mut kind, mut last, mut found, mut items) = (lower.kind.number(), lower.bytes.clone(), 7, 0);
    loop {
        let result = unsafe {
            fst_items_rows(
                op as u64,
                sources.len(),
                f(0).as_ptr(),
                f(0).len(),
                f(1).as_ptr(),
                f(1).len(),
                f(2).as_ptr(),
                f(2).len(),
                f(3).as_ptr(),
                f(3).len(),
                f(4).as_ptr(),
                f(4).len(),
                f(5).as_ptr(),
                f(5).len(),
                f(6).as_ptr(),
                f(6).len(),
                f(7).as_ptr(),
                f(7).len(),
                kind,
                last.as_ptr(),
                last.len(),
                upper.kind.number(),
                upper.bytes.as_ptr(),
                upper.bytes.len(),
                most,
                rows.as_mut_ptr(),
                rows.len(),
                counts.as_mut_ptr(),
                counts.len(),
                numbers.as_mut_ptr(),
                numbers.len(),
                values.as_mut_ptr(),
                values.len(),
                &mut found,
            )
        };
        for i in 0..found {
            let (row, at) = (&rows[KEY_ROW * i..], MOST_FILES * i);
            let pairs: Vec<(u64, usize)> =
                (at..at + usize::from(counts[i])).map(|j| (values[j], usize::from(numbers[j]))).collect();
            each(&row[1..1 + usize::from(row[0])], &pairs);
        }
        items += found;
        match result {
            END => return Ok(items),
            MORE => {
                let row = &rows[KEY_ROW * (found - 1)..];
                kind = Kind::Excluded.number();
                last = row[1..1 + usize::from(row[0])].to_vec();
            }
            why => return Err(why as u64),
        }
    }
}

// The arguments in the layout that the exported function takes.
struct Laid {
    blob: Vec<u8>,
    tables: Vec<u64>,
    ends: [u64; MOST_FILES],
    stated: [u64; 4 * MOST_FILES],
    bounds: Vec<u8>,
}

fn laid(sources: &[Source]) -> Laid {
    let mut laid = Laid {
        blob: Vec::new(),
        tables: Vec::new(),
        ends: [0; MOST_FILES],
        // unbounded, where there is no file
        stated: [Kind::Unbounded.number(); 4 * MOST_FILES],
        bounds: vec![0; 2 * BOUND_BYTES * MOST_FILES],
    };
    for i in 0..MOST_FILES {
        if let Some(source) = sources.get(i) {
            laid.blob.extend(&source.file);
            laid.tables.extend(&source.counts);
            for (j, bound) in [&source.lower, &source.upper].iter().enumerate() {
                laid.stated[4 * i + 2 * j] = bound.kind.number();
                laid.stated[4 * i + 2 * j + 1] = bound.bytes.len() as u64;
                let at = BOUND_BYTES * (2 * i + j);
                laid.bounds[at..at + bound.bytes.len()].copy_from_slice(&bound.bytes);
            }
        }
        laid.ends[i] = laid.blob.len() as u64;
    }
    laid
}

fn item(row: &[u8], numbers: &[u64]) -> (Vec<u8>, Vec<(u64, usize)>) {
    let (len, count) = (numbers[0] as usize, numbers[1] as usize);
    let pairs = (0..count).map(|i| (numbers[2 + i], usize::from(row[MAX_PATH + i]))).collect();
    (row[..len].to_vec(), pairs)
}

// Each slice and array lives through the call, and one that is written is lent to nobody else.
impl OpsAnswers for Library {
    fn merged(&self, op: Op, count: usize, sources: &[Source], calls: usize) -> Result<Merged, Stopped> {
        let laid = laid(sources);
        let (mut rows, mut numbers) = (vec![7u8; ROW * calls], vec![7u64; ITEM * calls]);
        let mut followed = [7u64; MOST_FILES];
        let answer = unsafe {
            oracle_ops(
                op as u64,
                count,
                laid.blob.as_ptr(),
                laid.blob.len(),
                laid.tables.as_ptr(),
                laid.tables.len(),
                laid.ends.as_ptr(),
                laid.stated.as_ptr(),
                laid.bounds.as_ptr(),
                laid.bounds.len(),
                rows.as_mut_ptr(),
                rows.len(),
                numbers.as_mut_ptr(),
                numbers.len(),
                followed.as_mut_ptr(),
            )
        };
        match answer {
            NO_ROOM => Err(Stopped::NoRoom),
            LAYOUT => Err(Stopped::Layout),
            n if n >= REFUSED => Err(Stopped::Refused(n - REFUSED)),
            n if n >= START_REFUSED => Err(Stopped::Start(n - START_REFUSED)),
            n => {
                let items = (0..n as usize).map(|i| item(&rows[ROW * i..], &numbers[ITEM * i..])).collect();
                Ok(Merged { items, totals: followed[..sources.len()].to_vec() })
            }
        }
    }

    fn paged(&self, op: Op, sources: &[Source], most: usize) -> Result<Vec<Item>, u64> {
        let mut items = Vec::new();
        pages(op, sources, most, |key, pairs| items.push((key.to_vec(), pairs.to_vec())))?;
        Ok(items)
    }
}
