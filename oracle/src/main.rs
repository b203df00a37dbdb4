// Compares the given Rust with our static library, and both with a model of document 01 (oracle/README.md).
// `oracle/run` lays this file and the Rust's beside each other and compiles them.

#![cfg_attr(timed, allow(dead_code, unused_imports))]

// The Rust, as it is given.
#[allow(warnings)]
mod automaton;
#[allow(warnings)]
mod bytes;
#[allow(warnings)]
mod raw;
#[allow(warnings)]
mod stream;

// What it names and is not given.
#[allow(dead_code)]
mod error;

mod answers;
#[cfg(timed)]
mod bench;
#[cfg(timed)]
mod bench_convert;
#[cfg(timed)]
mod bench_ops;
#[cfg(timed)]
mod bench_pack;
#[cfg(timed)]
mod bench_pattern;
mod builder;
mod compare;
mod generate;
mod generate_file;
mod generate_reading;
mod given;
// some of what they ask is for the benchmark alone
#[cfg_attr(not(timed), allow(dead_code))]
mod given_file;
mod given_ops;
mod given_pattern;
#[cfg_attr(not(timed), allow(dead_code))]
mod given_reading;
mod hand_made;
mod listing;
mod model;
mod model_cards;
mod model_carry;
mod model_convert;
mod model_file;
mod model_marks;
mod model_ops;
mod model_pack;
mod model_pattern;
mod model_range;
mod model_reading;
mod model_seats;
#[cfg(library)]
mod ours;
#[cfg(library)]
mod ours_cards;
#[cfg(library)]
mod ours_carry;
#[cfg(library)]
mod ours_convert;
#[cfg(library)]
mod ours_file;
#[cfg(library)]
mod ours_marks;
#[cfg(library)]
mod ours_ops;
#[cfg(library)]
mod ours_pack;
#[cfg(library)]
mod ours_range;
#[cfg(library)]
mod ours_reading;
#[cfg(library)]
mod ours_seats;
mod prng;
mod replay;
mod replay_convert;
mod replay_file;
mod replay_list;
mod replay_pattern;
mod replay_reading;
mod replay_rows;
mod sparse;
mod wrong;
mod wrong_cards;
mod wrong_carry;
mod wrong_convert;
mod wrong_file;
mod wrong_marks;
mod wrong_pack;
mod wrong_range;
mod wrong_reading;
mod wrong_seats;

use std::process;

use crate::answers::ConvertAnswers;
use crate::compare::{Difference, Ours, Run};
use crate::model_cards::CardAnswers;
use crate::model_carry::CarryAnswers;
use crate::model_marks::MarkAnswers;
use crate::model_ops::OpsAnswers;
use crate::model_pack::PackAnswers;
use crate::model_range::RangeAnswers;
use crate::model_seats::SeatAnswers;

#[cfg(library)]
fn library() -> Ours<'static> {
    (Some(&ours::Library), Some(&ours::Library), Some(&ours::Library))
}

#[cfg(not(library))]
fn library() -> Ours<'static> {
    (None, None, None)
}

#[cfg(library)]
fn library_converts() -> Option<&'static dyn ConvertAnswers> {
    Some(&ours::Library)
}

#[cfg(not(library))]
fn library_converts() -> Option<&'static dyn ConvertAnswers> {
    None
}

#[cfg(library)]
fn library_packs() -> Option<&'static dyn PackAnswers> {
    Some(&ours::Library)
}

#[cfg(not(library))]
fn library_packs() -> Option<&'static dyn PackAnswers> {
    None
}

#[cfg(library)]
fn library_carries() -> Option<&'static dyn CarryAnswers> {
    Some(&ours::Library)
}

#[cfg(not(library))]
fn library_carries() -> Option<&'static dyn CarryAnswers> {
    None
}

#[cfg(library)]
fn library_seats() -> Option<&'static dyn SeatAnswers> {
    Some(&ours::Library)
}

#[cfg(not(library))]
fn library_seats() -> Option<&'static dyn SeatAnswers> {
    None
}

#[cfg(library)]
fn library_ranges() -> Option<&'static dyn RangeAnswers> {
    Some(&ours::Library)
}

#[cfg(not(library))]
fn library_ranges() -> Option<&'static dyn RangeAnswers> {
    None
}

#[cfg(library)]
fn library_operates() -> Option<&'static dyn OpsAnswers> {
    Some(&ours::Library)
}

#[cfg(not(library))]
fn library_operates() -> Option<&'static dyn OpsAnswers> {
    None
}

#[cfg(library)]
fn library_calls() -> Option<&'static dyn CardAnswers> {
    Some(&ours::Library)
}

#[cfg(not(library))]
fn library_calls() -> Option<&'static dyn CardAnswers> {
    None
}

#[cfg(library)]
fn library_marks() -> Option<&'static dyn MarkAnswers> {
    Some(&ours::Library)
}

#[cfg(not(library))]
fn library_marks() -> Option<&'static dyn MarkAnswers> {
    None
}

fn report(difference: &Difference) {
    println!("oracle: a difference: {}", difference.what);
    println!("  input: {}", difference.input);
    for (who, answer) in &difference.answers {
        println!("  {} (hexadecimal): {}", who, answer);
    }
}

// The stored listings and, after the whole comparison, the kept lists held to what would be recorded now.
fn compare(lists: &[String]) -> bool {
    if !listing::kept() {
        return false;
    }
    let mut run = Run::new(library(), 1).converting(library_converts());
    if let Err(difference) = compare::common_inputs_named().and_then(|()| run.all(true)) {
        report(&difference);
        return false;
    }
    for (path, (bytes, _)) in lists.iter().zip(recorded()) {
        if std::fs::read(path).ok() != Some(bytes) {
            println!("oracle: {} is not the list that `oracle/run record` writes", path);
            return false;
        }
    }
    println!("replay lists\n    as recorded");
    true
}

// The comparisons of readings alone.
fn compare_readings() -> bool {
    match Run::new(library(), 1).readings(true) {
        Ok(()) => true,
        Err(difference) => {
            report(&difference);
            false
        }
    }
}

// Readings by pattern alone.
fn compare_patterns() -> bool {
    match Run::new(library(), 1).by_pattern(true) {
        Ok(()) => true,
        Err(difference) => {
            report(&difference);
            false
        }
    }
}

// Ranges in one call alone.
fn compare_range() -> bool {
    match Run::new(library(), 1).ranging(library_ranges()).by_page(true) {
        Ok(()) => true,
        Err(difference) => {
            report(&difference);
            false
        }
    }
}

// Admission alone.
fn compare_admission() -> bool {
    match Run::new(library(), 1).admissions(true) {
        Ok(()) => true,
        Err(difference) => {
            report(&difference);
            false
        }
    }
}

// Conversion alone.
fn compare_conversions() -> bool {
    match Run::new(library(), 1).converting(library_converts()).conversions(true) {
        Ok(()) => true,
        Err(difference) => {
            report(&difference);
            false
        }
    }
}

// The packing of lists alone.
fn compare_packs() -> bool {
    match Run::new(library(), 1).packing_lists(library_packs()).packs(true) {
        Ok(()) => true,
        Err(difference) => {
            report(&difference);
            false
        }
    }
}

// Carried readings alone.
fn compare_carries() -> bool {
    match Run::new(library(), 1).carrying(library_carries()).all_carries(true) {
        Ok(()) => true,
        Err(difference) => {
            report(&difference);
            false
        }
    }
}

// Eight seats on one index alone.
fn compare_seats() -> bool {
    match Run::new(library(), 1).seating(library_seats()).by_seats(true) {
        Ok(()) => true,
        Err(difference) => {
            report(&difference);
            false
        }
    }
}

// Several files as one alone.
fn compare_ops() -> bool {
    match Run::new(library(), 1).operating(library_operates()).calling(library_calls()).all_operations(true) {
        Ok(()) => true,
        Err(difference) => {
            report(&difference);
            false
        }
    }
}

// Marks of a reading alone.
fn compare_marks() -> bool {
    match Run::new(library(), 1).marking(library_marks()).by_marks(true) {
        Ok(()) => true,
        Err(difference) => {
            report(&difference);
            false
        }
    }
}

// What has a run of its own, one after the other, beside the whole comparison.
fn compare_later() -> bool {
    compare_packs() && compare_range() && compare_carries() && compare_ops() && compare_seats() && compare_marks()
}

// Files and records past 16 MiB alone.
fn compare_long() -> bool {
    match Run::new(library(), 1).long(true) {
        Ok(()) => true,
        Err(difference) => {
            report(&difference);
            false
        }
    }
}

// The replay lists, of nodes, of whole files, of readings, of conversions and of readings by pattern, each with how many of each kind it has.
fn recorded() -> Vec<(Vec<u8>, Vec<(&'static str, usize)>)> {
    vec![replay::list(), replay_file::list(), replay_reading::list(), replay_convert::list(), replay_pattern::list()]
}

// The whole comparison in small, or that of readings alone, with these in our library's place.
fn in_small(ours: Ours, readings_alone: bool) -> Result<(), Difference> {
    let mut run = Run::new(ours, 100);
    if readings_alone {
        run.readings(false)
    } else {
        run.all(false)
    }
}

// The model in our library's place agrees, and with each slip it does not.
fn self_test() -> bool {
    if let Err(difference) = in_small((Some(&model::Model), Some(&model::Model), Some(&model::Model)), false) {
        report(&difference);
        return false;
    }
    // what the slips of readings are made in agrees too
    let unslipped = wrong::Wrong { slip: "" };
    if let Err(difference) = in_small((None, None, Some(&unslipped)), true) {
        report(&difference);
        return false;
    }
    let slips = wrong::SLIPS.iter().chain(wrong_file::SLIPS).map(|slip| (slip, false));
    for (&slip, readings_alone) in slips.chain(wrong_reading::SLIPS.iter().map(|slip| (slip, true))) {
        let wrong = wrong::Wrong { slip };
        match in_small((Some(&wrong), Some(&wrong), Some(&wrong)), readings_alone) {
            Err(difference) => println!("noticed: {}  ({})", slip, difference.what),
            Ok(()) => {
                println!("oracle: not noticed: {}", slip);
                return false;
            }
        }
    }
    self_test_packs() && self_test_range() && self_test_conversions() && self_test_carries() && self_test_cards() && self_test_marks() && self_test_seats()
}

// The part with no slip agrees, and with each of its slips it does not; a slip is made by `with`.
fn each_noticed(slips: &[&'static str], with: impl Fn(&'static str) -> Result<(), Difference>) -> bool {
    if let Err(difference) = with("") {
        report(&difference);
        return false;
    }
    for &slip in slips {
        match with(slip) {
            Err(difference) => println!("noticed: {}  ({})", slip, difference.what),
            Ok(()) => {
                println!("oracle: not noticed: {}", slip);
                return false;
            }
        }
    }
    true
}

// The same of conversions.
fn self_test_conversions() -> bool {
    each_noticed(wrong_convert::SLIPS, |slip| {
        let wrong = wrong_convert::WrongConvert { slip };
        Run::new((None, None, None), 50).converting(Some(&wrong)).conversions(false)
    })
}

// The same of carried readings.
fn self_test_carries() -> bool {
    each_noticed(wrong_carry::SLIPS, |slip| {
        let wrong = wrong_carry::WrongCarry { slip };
        Run::new((None, None, None), 20).carrying(Some(&wrong)).all_carries(false)
    })
}

// The same of the packing of lists.
fn self_test_packs() -> bool {
    for &slip in std::iter::once(&"").chain(wrong_pack::SLIPS) {
        let wrong = wrong::Wrong { slip };
        match (slip, Run::new((None, None, None), 20).packing_lists(Some(&wrong)).packs(false)) {
            ("", Ok(())) => {}
            ("", Err(difference)) => {
                report(&difference);
                return false;
            }
            (slip, Err(difference)) => println!("noticed: {}  ({})", slip, difference.what),
            (slip, Ok(())) => {
                println!("oracle: not noticed: {}", slip);
                return false;
            }
        }
    }
    true
}

// The same of ranges in one call.
fn self_test_range() -> bool {
    let in_small = |ours: &dyn RangeAnswers| Run::new((None, None, None), 100).ranging(Some(ours)).by_page(false);
    if let Err(difference) = in_small(&model::Model) {
        report(&difference);
        return false;
    }
    for &slip in wrong_range::SLIPS {
        match in_small(&wrong_range::WrongRange { slip }) {
            Err(difference) => println!("noticed: {}  ({})", slip, difference.what),
            Ok(()) => {
                println!("oracle: not noticed: {}", slip);
                return false;
            }
        }
    }
    true
}

// The same of single calls of an operation.
fn self_test_cards() -> bool {
    each_noticed(wrong_cards::SLIPS, |slip| {
        let wrong = wrong_cards::WrongCards { slip };
        Run::new((None, None, None), 20).calling(Some(&wrong)).single_calls(false)
    })
}

// The same of marks.
fn self_test_marks() -> bool {
    each_noticed(wrong_marks::SLIPS, |slip| {
        let wrong = wrong_marks::WrongMarks { slip };
        Run::new((None, None, None), 100).marking(Some(&wrong)).by_marks(false)
    })
}

// The same of seats.
fn self_test_seats() -> bool {
    each_noticed(wrong_seats::SLIPS, |slip| {
        let wrong = wrong_seats::WrongSeats { slip };
        Run::new((None, None, None), 20).seating(Some(&wrong)).by_seats(false)
    })
}

#[cfg(timed)]
fn bench() -> bool {
    if std::env::args().nth(1).as_deref() == Some("pack") {
        bench_pack::bench(&ours::Library);
        return true;
    }
    if std::env::args().nth(1).as_deref() == Some("convert") {
        bench_convert::bench(&ours::Library, &ours::Library, &ours::Library, &ours::Library);
        return true;
    }
    if std::env::args().nth(1).as_deref() == Some("ops") {
        bench_ops::bench();
        return true;
    }
    bench::bench(&ours::Library, &ours::Library, &ours::Library, &ours::Library);
    true
}

fn record(lists: &[String]) -> bool {
    for (path, (bytes, kinds)) in lists.iter().zip(recorded()) {
        if let Err(error) = std::fs::write(path, &bytes) {
            println!("oracle: {}: {}", path, error);
            return false;
        }
        println!("{}: {} bytes", path, bytes.len());
        for (kind, n) in kinds {
            println!("    {:>8}  {}", n, kind);
        }
    }
    true
}

// The benchmark has a program of its own: with the comparison beside it the Rust's lookup by value takes half as long again.
#[cfg(timed)]
fn main() {
    given::quiet_panics();
    process::exit(if bench() { 0 } else { 1 });
}

#[cfg(not(timed))]
fn main() {
    given::quiet_panics();
    let args: Vec<String> = std::env::args().collect();
    let right = match args.get(1).map(String::as_str) {
        Some("compare") => compare(&args[2..]),
        Some("later") => compare_later(),
        Some("readings") => compare_readings(),
        Some("patterns") => compare_patterns(),
        Some("range") => compare_range(),
        Some("admission") => compare_admission(),
        Some("convert") => compare_conversions(),
        Some("pack") => compare_packs(),
        Some("carry") => compare_carries(),
        Some("seats") => compare_seats(),
        Some("marks") => compare_marks(),
        Some("ops") => compare_ops(),
        Some("long") => compare_long(),
        Some("self-test") => match args.get(2).map(String::as_str) {
            Some("convert") => self_test_conversions(),
            Some("carry") => self_test_carries(),
            Some("ops") => self_test_cards(),
            Some("marks") => self_test_marks(),
            Some("seats") => self_test_seats(),
            _ => self_test(),
        },
        Some("record") => record(&args[2..]),
        Some("listing") => listing::make(),
        _ => {
            println!("oracle: compare, later, readings, patterns, range, admission, convert, pack, carry, ops, seats, marks, long, self-test, record or listing");
            process::exit(2);
        }
    };
    process::exit(if right { 0 } else { 1 });
}
