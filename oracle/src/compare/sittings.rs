// Readings cut in two (document 02, N14): a range that was read to its end, and the two that a string between its bounds makes of
// it, up to the string included and from it excluded. Each is read by the Rust, the model and ours, as every range is.

use super::ranges::{describe_bound, ranged, Asked, Seen};
use super::{describe_file, hex, same, Checked, Run};
use crate::answers::{Bound, Kind};
use crate::generate_file::variant;
use crate::generate_reading::Spelled;
use crate::given_file::Opened;
use crate::model_file::MAX_PATH;
use crate::model_reading::{meets, passes};
use crate::prng::Prng;

// How many cuts of each range.
const CUTS: usize = 3;

fn between(asked: &Asked, string: &[u8]) -> bool {
    let (lower, upper) = (asked.lower, asked.upper);
    meets(lower.kind, &lower.bytes, string) && !passes(upper.kind, &upper.bytes, string)
}

// A string of at most 255 bytes between the bounds, where one is found: of the file, near one, a bound's own, the empty one, one
// of 255 bytes, one after every key.
fn cut_of(prng: &mut Prng, strings: &[Vec<u8>], asked: &Asked) -> Option<Vec<u8>> {
    let from = strings.partition_point(|s| !meets(asked.lower.kind, &asked.lower.bytes, s));
    let to = strings.partition_point(|s| !passes(asked.upper.kind, &asked.upper.bytes, s));
    for _ in 0..16 {
        let near = if from < to { prng.between(from, to - 1) } else { prng.below(strings.len()) };
        let near = &strings[near];
        let cut = match prng.below(12) {
            0..=3 => near.clone(),
            4 => variant(prng, 1, near),
            5 => variant(prng, 2, near),
            6 => variant(prng, 3, near),
            7 => asked.lower.bytes.clone(),
            8 => asked.upper.bytes.clone(),
            9 => Vec::new(),
            10 => {
                let mut bytes = near.clone();
                bytes.resize(MAX_PATH, prng.pick(&[0, b'a', 255]));
                bytes
            }
            _ => [&strings[strings.len() - 1][..], &[255]].concat(),
        };
        if cut.len() <= MAX_PATH && between(asked, &cut) {
            return Some(cut);
        }
    }
    None
}

// A string that begins a held key is greater than the cut: by the list of all strings, or where there are too many by the Rust,
// since a key that such a string begins is greater too.
fn greater(rust: &Opened, strings: Option<&[Spelled]>, cut: &[u8]) -> bool {
    match strings {
        // the empty string, which may begin no key, is greater than none
        Some(all) => all.iter().any(|s| &s.bytes[..] > cut),
        None => {
            let above = Bound { kind: Kind::Excluded, bytes: cut.to_vec() };
            let all = Bound { kind: Kind::Unbounded, bytes: Vec::new() };
            let key = rust.range(&above, &all).and_then(|mut range| range.next());
            key.expect("the Rust reads an admitted file").is_some()
        }
    }
}

impl<'a> Run<'a> {
    // Cuts of a range that was read to its end: the keys of both parts are those of the whole, and the totals exceed its total by
    // one where a string is greater than the cut, and otherwise not at all.
    pub fn in_two_sittings(
        &mut self,
        (rust, file): (&Opened, &[u8]),
        strings: Option<&[Spelled]>,
        some: &[Vec<u8>],
        asked: &Asked,
        whole: &Seen,
    ) -> Checked {
        let mut prng = Prng::new(!asked.keep);
        for _ in 0..CUTS {
            let cut = match cut_of(&mut prng, some, asked) {
                Some(cut) => cut,
                None => {
                    self.count("cuts: no string found between the bounds");
                    break;
                }
            };
            let up_to = Bound { kind: Kind::Included, bytes: cut.clone() };
            let from = Bound { kind: Kind::Excluded, bytes: cut.clone() };
            let calls = whole.handed.len() + 2;
            let first = Asked { lower: asked.lower, upper: &up_to, counts: asked.counts, calls, keep: prng.next() };
            let second = Asked { lower: &from, upper: asked.upper, counts: asked.counts, calls, keep: prng.next() };
            let first = ranged(self.ours_reading, rust, strings, file, &first)?;
            let second = ranged(self.ours_reading, rust, strings, file, &second)?;
            let input = || {
                let (lower, upper) = (describe_bound(asked.lower), describe_bound(asked.upper));
                format!("lower {}, upper {}, cut at {}, {}", lower, upper, hex(&cut), describe_file(file))
            };
            same("both sittings end", input, ("wanted", (true, true)), ("read", (first.ended, second.ended)))?;
            let both = [&first.handed[..], &second.handed[..]].concat();
            same("the keys in two sittings", input, ("the whole", &whole.handed), ("both", &both))?;
            let greater = greater(rust, strings, &cut);
            let totals = (("wanted", whole.total + greater as u64), ("both", first.total + second.total));
            same("the totals in two sittings", input, totals.0, totals.1)?;
            self.count_cut(asked, &cut, greater, (&first, &second));
        }
        Ok(())
    }

    fn count_cut(&mut self, asked: &Asked, cut: &[u8], greater: bool, (first, second): (&Seen, &Seen)) {
        let is = |bound: &Bound| bound.kind == Kind::Included && bound.bytes == cut;
        let held = first.handed.last().map_or(false, |(key, _)| &key[..] == cut);
        for &(there, what) in &[
            (true, "cuts"),
            (greater, "cuts: a string is greater"),
            (!greater, "cuts: no string is greater"),
            (held, "cuts: at a held key"),
            (!held, "cuts: at another string"),
            (held && cut.len() == MAX_PATH, "cuts: at a held key of 255 bytes"),
            (cut.is_empty(), "cuts: at the empty string"),
            (cut.len() == MAX_PATH, "cuts: at 255 bytes"),
            (is(asked.lower), "cuts: at an included lower bound"),
            (is(asked.upper), "cuts: at an included upper bound"),
            (!first.handed.is_empty() && !second.handed.is_empty(), "cuts: keys in both sittings"),
            (first.handed.is_empty() && !second.handed.is_empty(), "cuts: keys in the second alone"),
            (!first.handed.is_empty() && second.handed.is_empty(), "cuts: keys in the first alone"),
            (first.handed.is_empty() && second.handed.is_empty(), "cuts: keys in neither"),
        ] {
            if there {
                self.count(what);
            }
        }
    }

    pub fn require_cuts(&self) -> Checked {
        self.require(&["cuts"], 100_000)?;
        self.require(&["cuts: a string is greater", "cuts: no string is greater"], 10_000)?;
        self.require(
            &[
                "cuts: at a held key",
                "cuts: at another string",
                "cuts: at the empty string",
                "cuts: at 255 bytes",
                "cuts: at an included lower bound",
                "cuts: at an included upper bound",
                "cuts: keys in both sittings",
                "cuts: keys in the second alone",
                "cuts: keys in the first alone",
                "cuts: keys in neither",
            ],
            1_000,
        )?;
        self.require(&["cuts: at a held key of 255 bytes"], 100)
    }
}
