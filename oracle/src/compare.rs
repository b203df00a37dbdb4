// The comparisons. The Rust is held to the model of document 01 and, where our library is linked, the library to both.
// A comparison ends at its first difference, which carries the input.

use std::collections::BTreeMap;
use std::fmt::Debug;

use crate::answers::{Answers, At, ConvertAnswers, FileAnswers, ReadingAnswers, Record};
use crate::generate::INPUTS;
use crate::given;
use crate::model_cards::CardAnswers;
use crate::model_carry::CarryAnswers;
use crate::model_marks::MarkAnswers;
use crate::model_ops::OpsAnswers;
use crate::model_pack::PackAnswers;
use crate::model_range::RangeAnswers;
use crate::model_seats::SeatAnswers;
use crate::prng::Prng;

mod admission;
mod boundaries;
mod cards;
mod carry;
mod convert;
mod counting;
mod little;
mod long;
mod lookup;
mod made;
mod marks;
mod numbers;
mod opening;
mod ops;
mod pack;
mod packing;
mod pages;
mod patterns;
mod ranges;
mod reading;
mod seats;
mod sittings;
mod stored;

pub use self::convert::{old_file, rows as conversion_rows};
pub use self::counting::{filled, followed};
pub use self::patterns::pattern_near;

pub struct Difference {
    pub what: String,
    pub input: String,
    pub answers: Vec<(&'static str, String)>,
}

pub type Checked = Result<(), Difference>;

fn same<T: PartialEq + Debug>(
    what: &str,
    input: impl Fn() -> String,
    left: (&'static str, T),
    right: (&'static str, T),
) -> Checked {
    if left.1 == right.1 {
        return Ok(());
    }
    Err(Difference {
        what: what.to_string(),
        input: input(),
        answers: vec![(left.0, format!("{:02x?}", left.1)), (right.0, format!("{:02x?}", right.1))],
    })
}

fn describe_record(record: &Record, first: usize) -> String {
    format!(
        "F {}, final flag {}, final output {}, inputs {:02x?}, outputs {:?}, targets {:?}",
        first, record.final_flag, record.final_output, record.inputs, record.outputs, record.targets
    )
}

fn describe_at(at: At) -> String {
    let end = at.file.len().min(at.addr.saturating_add(1));
    let zeros = at.file[..end].iter().take_while(|&&b| b == 0).count();
    format!(
        "address {}, version {}, root {}, a file of {} bytes: {} zeros, then {:02x?}, then {} more",
        at.addr,
        at.version,
        at.root,
        at.file.len(),
        zeros,
        &at.file[zeros..end],
        at.file.len() - end
    )
}

fn describe_file(file: &[u8]) -> String {
    let n = file.len();
    if n <= 4_096 {
        return format!("a file of {} bytes: {}", n, hex(file));
    }
    format!("a file of {} bytes: {} .. {}", n, hex(&file[..64]), hex(&file[n - 64..]))
}

fn hex(bytes: &[u8]) -> String {
    bytes.iter().map(|b| format!("{:02x}", b)).collect()
}

// What a check of a file answers. Where it fails on a small file, the difference is that of the file with as many bytes set to
// 0 as leave one.
fn smallest<T>(file: &[u8], check: impl Fn(&[u8]) -> Result<T, Difference>) -> Result<T, Difference> {
    let mut found = match check(file) {
        Ok(answer) => return Ok(answer),
        Err(difference) => difference,
    };
    if file.len() <= 4_096 {
        let mut small = file.to_vec();
        for i in 0..small.len() {
            let b = std::mem::replace(&mut small[i], 0);
            match check(&small) {
                Err(difference) => found = difference,
                Ok(_) => small[i] = b,
            }
        }
    }
    Err(found)
}

// How many random cases of each kind a whole run has.
const RECORDS: usize = 240_000;
const REFUSED_RECORDS: usize = 4_000;
const UNUSUAL: usize = 60_000;
const DAMAGED: usize = 300_000;
const NUMBERS: usize = 200_000;
const OPENINGS: usize = 60_000;
const FILES_DAMAGED: usize = 400_000;
const LARGE_FILES_DAMAGED: usize = 40_000;
const UNUSED_FILES: usize = 120_000;
const LOOKUPS: usize = 2_000_000;
const LOOKUPS_DAMAGED: usize = 600_000;
const RANGES: usize = 150_000;
const READINGS: usize = 150_000;
const CONVERSIONS: usize = 60_000;
const LISTS: usize = 20_000;
const PATTERNED: usize = 150_000;
const PATTERNED_MADE: usize = 60_000;

// Who is compared on nodes, on whole files, and on readings; nobody where no library is linked.
pub type Ours<'a> = (Option<&'a dyn Answers>, Option<&'a dyn FileAnswers>, Option<&'a dyn ReadingAnswers>);

pub struct Run<'a> {
    // our library, where it is linked: on nodes, on whole files, and on readings
    ours: Option<&'a dyn Answers>,
    ours_file: Option<&'a dyn FileAnswers>,
    ours_reading: Option<&'a dyn ReadingAnswers>,
    // and on conversions
    ours_convert: Option<&'a dyn ConvertAnswers>,
    // and on lists
    ours_pack: Option<&'a dyn PackAnswers>,
    // and on ranges in one call
    ours_range: Option<&'a dyn RangeAnswers>,
    // and on carries
    ours_carry: Option<&'a dyn CarryAnswers>,
    // and on seats
    ours_seats: Option<&'a dyn SeatAnswers>,
    // and on several files as one
    ours_ops: Option<&'a dyn OpsAnswers>,
    // and on single calls of them
    ours_cards: Option<&'a dyn CardAnswers>,
    // and on marks
    ours_marks: Option<&'a dyn MarkAnswers>,
    // a whole run has every random case, another one in so many
    one_in: usize,
    prng: Prng,
    counts: BTreeMap<&'static str, usize>,
}

const OUTPUT_SIZES: [&str; 9] = [
    "output size 0",
    "output size 1",
    "output size 2",
    "output size 3",
    "output size 4",
    "output size 5",
    "output size 6",
    "output size 7",
    "output size 8",
];
const DELTA_SIZES: [&str; 9] = [
    "delta size 0",
    "delta size 1",
    "delta size 2",
    "delta size 3",
    "delta size 4",
    "delta size 5",
    "delta size 6",
    "delta size 7",
    "delta size 8",
];

impl<'a> Run<'a> {
    pub fn new(ours: Ours<'a>, one_in: usize) -> Run<'a> {
        let (ours, ours_file, ours_reading) = ours;
        Run {
            ours,
            ours_file,
            ours_reading,
            ours_convert: None,
            ours_pack: None,
            ours_range: None,
            ours_carry: None,
            ours_seats: None,
            ours_ops: None,
            ours_cards: None,
            ours_marks: None,
            one_in,
            prng: Prng::new(2),
            counts: BTreeMap::new(),
        }
    }

    pub fn converting(mut self, ours: Option<&'a dyn ConvertAnswers>) -> Run<'a> {
        self.ours_convert = ours;
        self
    }

    pub fn packing_lists(mut self, ours: Option<&'a dyn PackAnswers>) -> Run<'a> {
        self.ours_pack = ours;
        self
    }

    pub fn ranging(mut self, ours: Option<&'a dyn RangeAnswers>) -> Run<'a> {
        self.ours_range = ours;
        self
    }

    pub fn carrying(mut self, ours: Option<&'a dyn CarryAnswers>) -> Run<'a> {
        self.ours_carry = ours;
        self
    }

    pub fn seating(mut self, ours: Option<&'a dyn SeatAnswers>) -> Run<'a> {
        self.ours_seats = ours;
        self
    }

    pub fn operating(mut self, ours: Option<&'a dyn OpsAnswers>) -> Run<'a> {
        self.ours_ops = ours;
        self
    }

    pub fn calling(mut self, ours: Option<&'a dyn CardAnswers>) -> Run<'a> {
        self.ours_cards = ours;
        self
    }

    pub fn marking(mut self, ours: Option<&'a dyn MarkAnswers>) -> Run<'a> {
        self.ours_marks = ours;
        self
    }

    // Every comparison of nodes, files, readings and conversions, with a line or more for each. Those after them have runs of their own.
    pub fn all(&mut self, print: bool) -> Checked {
        self.sections(
            print,
            &[
                ("tables", Run::tables),
                ("stored numbers", Run::numbers),
                ("packing, and reading back", Run::packing),
                ("records refused", Run::refused),
                ("unusual nodes", Run::unusual),
                ("damaged nodes, other addresses and roots", Run::damaged),
                ("opening", Run::opening),
                ("admission", Run::admission),
                ("opening of files of 16 MiB to 8 GiB", Run::long_opening),
                ("packing of F from 16 MiB on", Run::long_packing),
                ("lookup in files of 4,294,967,295 bytes", Run::long_lookup),
                ("admission of files of 16,777,217 and of 268,435,456 bytes", Run::admission_of_dense),
                ("lookup in admitted files", Run::lookup),
                ("lookup in damaged files", Run::lookup_damaged),
            ],
        )?;
        self.readings(print)?;
        // last, so that the cases before it stay what they are
        self.sections(print, &[("boundaries of judging", Run::boundaries)])?;
        self.conversions(print)
    }

    // Those of the packing of lists alone.
    pub fn packs(&mut self, print: bool) -> Checked {
        self.sections(print, &[("packing of lists", Run::lists)])
    }

    // Those of ranges in one call alone.
    pub fn by_page(&mut self, print: bool) -> Checked {
        self.sections(
            print,
            &[
                ("ranges of admitted files, page after page", Run::pages),
                ("ranges in one call: damaged files, and buffers of any size", Run::damaged_pages),
            ],
        )
    }

    // Those of carried readings alone.
    pub fn all_carries(&mut self, print: bool) -> Checked {
        self.sections(
            print,
            &[
                ("readings carried to another file", Run::carries),
                ("readings carried to foreign files of an equal shape", Run::foreign_carries),
                ("readings carried from or to a file past 4,294,967,295 bytes", Run::large_carries),
            ],
        )
    }

    // Those of seats alone.
    pub fn by_seats(&mut self, print: bool) -> Checked {
        self.sections(
            print,
            &[
                ("eight seats on one index", Run::seat_lists),
                ("eight seats, with states that no call gives", Run::made_seat_lists),
            ],
        )
    }

    // Those of several files as one alone.
    pub fn all_operations(&mut self, print: bool) -> Checked {
        self.sections(print, &[("several files as one", Run::operations)])?;
        self.single_calls(print)
    }

    // Those of single calls from any cards alone.
    pub fn single_calls(&mut self, print: bool) -> Checked {
        self.sections(
            print,
            &[("several files as one: damaged files, and cards that no begin gave", Run::made_cards)],
        )
    }

    // Those of marks alone.
    pub fn by_marks(&mut self, print: bool) -> Checked {
        self.sections(print, &[("marks of a reading", Run::mark_lists)])
    }

    // Those of conversion alone.
    pub fn conversions(&mut self, print: bool) -> Checked {
        self.sections(print, &[("conversion", Run::conversion)])
    }

    // The comparisons of readings alone.
    pub fn readings(&mut self, print: bool) -> Checked {
        self.sections(
            print,
            &[
                ("ranges of admitted files", Run::ranges),
                ("damaged files, and readings that no start gave", Run::made_readings),
                ("ranges of files of 4,294,967,295 bytes", Run::long_ranges),
                ("files of no bytes, and of under 36 bytes", Run::little),
                ("ranges by pattern of admitted files", Run::patterns),
                ("by pattern: damaged files, and readings that no start gave", Run::made_patterns),
            ],
        )
    }

    // Those by pattern alone.
    pub fn by_pattern(&mut self, print: bool) -> Checked {
        self.sections(
            print,
            &[
                ("ranges by pattern of admitted files", Run::patterns),
                ("by pattern: damaged files, and readings that no start gave", Run::made_patterns),
            ],
        )
    }

    // Those of admission alone.
    pub fn admissions(&mut self, print: bool) -> Checked {
        self.sections(print, &[("admission", Run::admission)])
    }

    // Those of files and records past 16 MiB alone.
    pub fn long(&mut self, print: bool) -> Checked {
        self.sections(
            print,
            &[
                ("opening of files of 16 MiB to 8 GiB", Run::long_opening),
                ("packing of F from 16 MiB on", Run::long_packing),
                ("lookup in files of 4,294,967,295 bytes", Run::long_lookup),
                ("ranges of files of 4,294,967,295 bytes", Run::long_ranges),
                ("admission of files of 16,777,217 and of 268,435,456 bytes", Run::admission_of_dense),
            ],
        )
    }

    fn sections(&mut self, print: bool, sections: &[(&str, fn(&mut Run<'a>) -> Checked)]) -> Checked {
        for (name, section) in sections {
            self.counts.clear();
            section(self)?;
            if print {
                println!("{}", name);
                for (what, n) in &self.counts {
                    println!("    {:>8}  {}", n, what);
                }
            }
        }
        Ok(())
    }

    fn count(&mut self, what: &'static str) {
        self.count_more(what, 1);
    }

    fn count_more(&mut self, what: &'static str, n: usize) {
        *self.counts.entry(what).or_insert(0) += n;
    }

    // A whole run hits each of these so often.
    fn require(&self, what: &[&'static str], least: usize) -> Checked {
        for name in what {
            let n = self.counts.get(name).copied().unwrap_or(0);
            if self.one_in == 1 && n < least {
                return Err(Difference {
                    what: format!("the run hit \"{}\" {} times, and is to hit it {} times", name, n, least),
                    input: "the whole run".to_string(),
                    answers: Vec::new(),
                });
            }
        }
        Ok(())
    }
}

// The inputs at the common table's end are what the comparisons name them.
pub fn common_inputs_named() -> Checked {
    for &(place, b) in &[(61, b'H'), (62, b'G'), (63, b'W')] {
        same(
            "a common input",
            || format!("entry {}", place),
            ("named", b),
            ("the Rust", given::common_inputs_inv(place)),
        )?;
        assert!(INPUTS.contains(&b));
    }
    Ok(())
}
