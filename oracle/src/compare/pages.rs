// Ranges in one call: an admitted file's, page after page, each page's rows and the whole, held to the Rust and the model; and damaged files with
// buffers of any size, by the model and by ours.

use super::ranges::describe_bound;
use super::{describe_file, same, Checked, Difference, Run};
use crate::answers::{Bound, Kind, BOUND, DEEP, LARGE, NODE, ROOT, SHORT, SPACE, SUM, VERSION};
use crate::generate_file::{self, damage, medium, path_over, small, Keys, Values};
use crate::generate_reading::{bounds, some_strings, strings, BOUNDS};
use crate::given_file::{self, Opened};
use crate::model_file::{self, Admitted};
use crate::model_range::{page, write, Page, RangeAnswers, RANGE_END, RANGE_MORE, RANGE_REFUSED, ROW};
use crate::prng::Prng;
use crate::sparse::Zeros;

const PAGED: usize = 100_000;
const PAGES_DAMAGED: usize = 200_000;
// Page sizes go from 1 to this.
const LARGEST: usize = 40;
// A range is left after so many pages.
const PAGES: usize = 60;

const STOPS: [&str; 12] = [
    "pages: a key more, or the end",
    "pages, refused: 1 SHORT",
    "pages, refused: 2 VERSION",
    "pages, refused: 3 ROOT",
    "pages, refused: 4 LARGE",
    "pages, refused: 5 NODE",
    "pages, refused: 6 DEEP",
    "pages, refused: 7 SUM",
    "pages, refused: 8 SPACE",
    "pages, refused: 9 BOUND",
    "pages, refused: 10 RECORD",
    "pages, refused: 11 STATE",
];

// How large the two buffers are.
#[derive(Clone, Copy, Debug)]
struct Room {
    rows: usize,
    values: usize,
}

// One call, by the model and by ours, in buffers that hold something already: the count, the stop, and both buffers afterwards.
fn asked(
    ours: Option<&dyn RangeAnswers>,
    file: &[u8],
    lower: &Bound,
    upper: &Bound,
    most: usize,
    room: Room,
    keep: u64,
) -> Result<Page, Difference> {
    let want = page(file, lower, upper, most, room.rows, room.values);
    if let Some(ours) = ours {
        let (lo, hi) = (describe_bound(lower), describe_bound(upper));
        let input = || format!("at most {}, {:?}, lower {}, upper {}, {}", most, room, lo, hi, describe_file(file));
        let mut rows: Vec<u8> = (0..room.rows).map(|i| keep as u8 ^ i as u8).collect();
        let mut values: Vec<u64> = (0..room.values).map(|i| keep ^ i as u64).collect();
        let (mut rows_left, mut values_left) = (rows.clone(), values.clone());
        write(&want.0, &mut rows_left, &mut values_left);
        let (count, stop) = ours.range(file, lower, upper, most, &mut rows, &mut values);
        same("the stop of a range", input, ("model", want.1), ("ours", stop))?;
        same("the count of a range", input, ("model", want.0.len() as u64), ("ours", count))?;
        same("the rows", input, ("model", rows_left), ("ours", rows))?;
        same("the values", input, ("model", values_left), ("ours", values))?;
    }
    Ok(want)
}

impl<'a> Run<'a> {
    // One range, page after page from the last key, up to its end.
    fn paged(&mut self, rust: &Opened, file: &[u8], lower: &Bound, upper: &Bound, most: usize) -> Checked {
        let (lo, hi) = (describe_bound(lower), describe_bound(upper));
        let at = |n: usize| format!("page {} of {} keys, lower {}, upper {}, {}", n, most, lo, hi, describe_file(file));
        let mut range = match rust.range(lower, upper) {
            Some(range) => range,
            None => {
                let what = "the Rust panics on an admitted file".to_string();
                return Err(Difference { what, input: at(0), answers: Vec::new() });
            }
        };
        let mut from = lower.clone();
        // just the room that is needed, or more
        let exact = self.prng.one_in(2);
        for n in 1..=PAGES {
            let room = if exact {
                Room { rows: ROW * most, values: most }
            } else {
                Room { rows: ROW * most + self.prng.below(300), values: most + self.prng.below(3) }
            };
            let (keys, stop) = asked(self.ours_range, file, &from, upper, most, room, self.prng.next())?;
            if stop == RANGE_REFUSED + BOUND {
                return Ok(self.count("ranges in pages: refused, 9 BOUND"));
            }
            // the same keys by the Rust, from where it stands
            let mut said = Vec::new();
            while said.len() < keys.len() {
                match range.next() {
                    Some(Some(key)) => said.push(key),
                    _ => break,
                }
            }
            same("the rows of a page", || at(n), ("the Rust", &said), ("model", &keys))?;
            let full = if keys.len() == most { RANGE_MORE } else { RANGE_END };
            same("the stop of a page", || at(n), ("by its count", full), ("model", stop))?;
            self.count("pages");
            self.count_more("keys in pages", keys.len());
            if keys.first().map_or(false, |(key, _)| key.is_empty()) {
                self.count("pages that begin with the empty key");
            }
            if stop == RANGE_END {
                // nothing is left
                same("the end of the pages", || at(n), ("the Rust", range.next()), ("wanted", Some(None)))?;
                if n > 1 && keys.is_empty() {
                    self.count("pages: the last one has no key");
                }
                return Ok(self.count("ranges in pages"));
            }
            from = Bound { kind: Kind::Excluded, bytes: keys[most - 1].0.clone() };
        }
        Ok(self.count("ranges in pages: left after 60 pages"))
    }

    pub fn pages(&mut self) -> Checked {
        self.prng = Prng::new(23);
        let mut done = 0;
        let mut i = 0;
        while done < PAGED / self.one_in {
            i += 1;
            let prng = &mut self.prng;
            let file = match i % 20 {
                0 => {
                    let keys = generate_file::keys(prng, Keys::Wide, 0);
                    let values = generate_file::values(prng, Values::Any, keys.len());
                    let version = prng.pick(&[1, 2, 3]);
                    generate_file::built_from(prng, version, keys, &values).file
                }
                1 => medium(prng).file,
                2 => {
                    let keys = generate_file::keys(prng, Keys::Long, 3);
                    let values = generate_file::values(prng, Values::Ascending, keys.len());
                    let version = prng.pick(&[1, 2, 3]);
                    generate_file::built_from(prng, version, keys, &values).file
                }
                3 => generate_file::unused(prng),
                _ => small(prng).file,
            };
            let found = match model_file::admitted(&file) {
                // the Rust opens none under 36 bytes
                Ok(found) if file.len() >= given_file::LEAST => found,
                _ => continue,
            };
            let asked = if file.len() > 1_000 { 80 } else { 40 };
            self.pages_in(&file, &found, asked)?;
            done += asked;
        }
        self.require(&["ranges in pages"], 90_000)?;
        self.require(&["pages that begin with the empty key", "pages: the last one has no key"], 1_000)?;
        self.require(&BOUNDS, 1_000)
    }

    fn pages_in(&mut self, file: &[u8], found: &Admitted, asked: usize) -> Checked {
        let rust = given_file::open(file).expect("the Rust opens an admitted file");
        let all = strings(found, 3_000);
        let some = some_strings(&mut self.prng, found, all.as_ref().map(|all| &all[..]));
        for i in 0..asked {
            let ((mut lower, lower_name), (mut upper, upper_name)) = bounds(&mut self.prng, &some);
            self.count(BOUNDS[lower_name]);
            self.count(BOUNDS[upper_name]);
            // whole readings too, of which the first page has the empty key where it is held
            if i % 5 == 0 {
                lower.kind = Kind::Unbounded;
            }
            if i % 4 == 0 {
                upper.kind = Kind::Unbounded;
            }
            self.paged(&rust, file, &lower, &upper, 1 + i % LARGEST)?;
        }
        Ok(())
    }

    // Damaged files, and paths of 250 to 260 bytes, with buffers that may be short.
    pub fn damaged_pages(&mut self) -> Checked {
        self.prng = Prng::new(24);
        let ours = self.ours_range;
        for i in 0..PAGES_DAMAGED / self.one_in {
            let prng = &mut self.prng;
            let mut file = if i % 16 == 0 {
                let n = prng.between(250, 260);
                let size = prng.pick(&[0, 1, 8]);
                let version = prng.pick(&[1, 2, 3]);
                path_over(prng, version, &[], n, size, i % 32 == 0)
            } else {
                small(prng).file
            };
            if i % 3 != 0 {
                let n = prng.between(1, 4);
                for _ in 0..n {
                    let at = prng.below(file.len());
                    file[at] = damage(prng, file[at]);
                }
            }
            if prng.one_in(40) {
                file.truncate(prng.below(40));
            }
            let keys: Vec<Vec<u8>> = (0..8).map(|_| (0..prng.below(4)).map(|_| prng.pick(b"abct")).collect()).collect();
            let ((lower, _), (upper, _)) = bounds(prng, &keys);
            let most = prng.below(LARGEST + 1);
            let rows = match prng.below(24) {
                0 => (ROW * most).saturating_sub(1),
                1 => ROW * most.saturating_sub(1),
                n => ROW * most + 13 * n,
            };
            let values = if prng.one_in(24) { most.saturating_sub(1) } else { most + prng.below(3) };
            let keep = prng.next();
            let (keys, stop) = asked(ours, &file, &lower, &upper, most, Room { rows, values }, keep)?;
            let why = stop.saturating_sub(RANGE_REFUSED) as usize;
            self.count(STOPS[why]);
            if why > 0 && !keys.is_empty() {
                self.count("pages with a refusal after some keys");
            }
        }
        // 256 times this many wraps, and a file that is too long
        let file = small(&mut self.prng).file;
        let long: Zeros<u8> = Zeros::new(1 << 32);
        let unbounded = Bound { kind: Kind::Unbounded, bytes: Vec::new() };
        for i in 0..120 {
            for &most in &[1 << 56, (1 << 56) + i, usize::max_value() - i] {
                asked(ours, &file, &unbounded, &unbounded, most, Room { rows: 512, values: 2 }, i as u64)?;
                self.count("pages of more keys than any buffer has room for");
            }
            let (_, stop) = asked(ours, &long, &unbounded, &unbounded, 1, Room { rows: 256, values: 1 }, i as u64)?;
            self.count(STOPS[stop.saturating_sub(RANGE_REFUSED) as usize]);
        }
        let refusals = [SHORT, VERSION, ROOT, LARGE, NODE, DEEP, SUM, SPACE, BOUND];
        let refusals: Vec<_> = refusals.iter().map(|&n| STOPS[n as usize]).collect();
        self.require(&refusals, 120)?;
        self.require(&["pages with a refusal after some keys"], 1_000)
    }
}
