// Marks of a reading (document 02, N10): random lists of starts, nexts, marks and returns, plain and by pattern. The Rust has no marks: a list of names is
// kept beside it, each with the bounds and the number of steps, and a return makes a new stream and steps it that far. Each next's answer and total are
// held to that stream, and every answer to the model, on states that no call gives too.

use super::patterns::pattern;
use super::seats::Source;
use super::{describe_file, same, Checked, Run};
use crate::answers::{Bound, Kind, Pattern, PATTERN, SPACE, STATE};
use crate::given_file::{self, Opened};
use crate::given_pattern::Search;
use crate::given_reading::Range;
use crate::model::Model;
use crate::model_file;
use crate::model_marks::{Answer, Made, MarkAnswers, Operation, Said, What, FULL, MARKS, NAME};
use crate::prng::Prng;

// Lists, and the most operations of each after its start.
const LISTS: usize = 20_000;
const MOST: usize = 60;

// ---- operations

// Names of 1 to 8 bytes, few of them equal, some beginning another; as many as a list marks.
fn names(prng: &mut Prng) -> Vec<Vec<u8>> {
    let n = prng.pick(&[1, 2, 3, 3, 5, 8, 17, 20, 24]);
    let name = |prng: &mut Prng| {
        let n = prng.pick(&[1, 1, 2, 3, 7, 8, 8]);
        let letters = prng.pick(&[2, 256, 256]);
        (0..n).map(|_| prng.below(letters) as u8).collect()
    };
    (0..n).map(|_| name(prng)).collect()
}

// One of the list's names, or one that is none, or one that nobody marks.
fn some_name(prng: &mut Prng, names: &[Vec<u8>]) -> Vec<u8> {
    let mut name = names[prng.below(names.len())].clone();
    match prng.below(24) {
        0 => name.clear(),
        1 => name.resize(prng.pick(&[9, 9, 10, 16, 255, 256]), 7),
        2 if name.len() < 8 => name.push(0),
        3 => name.resize(8, 255),
        _ => {}
    }
    name
}

// At a limit or past it. What a next walks is not made: no levels and no bound's bytes that were never put.
fn made(prng: &mut Prng, what: &What, lens: [usize; 2]) -> Made {
    let walks = matches!(what, What::Next(_));
    let place = if prng.one_in(4) { prng.below(MARKS) } else { prng.below(3) };
    let file_len = |prng: &mut Prng| match prng.below(4) {
        0 => lens[0].wrapping_sub(1),
        1 => lens[0] + 1,
        n => lens[n - 2],
    };
    match prng.below(10) {
        0 => Made::Count(prng.pick(&[0, 1, 16, 17, 17, 18, 256, usize::max_value()])),
        1 => Made::NameLen(place, prng.pick(&[0, 0, 1, 8, 9, 9, 255, usize::max_value()])),
        2 => Made::NameOf(place, prng.below(4)),
        3 => Made::Levels(place, prng.pick(&[0, 256, 257, 257, 512, usize::max_value()])),
        4 => Made::BoundLen(place, prng.pick(&[0, 255, 256, 256, 511, usize::max_value()])),
        5 => Made::FileLen(place, file_len(prng)),
        6 if !walks => Made::OwnLevels(prng.pick(&[0, 256, 257, 257, usize::max_value()])),
        6 => Made::OwnLevels(prng.pick(&[257, 258, usize::max_value()])),
        7 if !walks => Made::OwnBoundLen(prng.pick(&[0, 255, 256, 256, usize::max_value()])),
        7 => Made::OwnBoundLen(prng.pick(&[256, 257, usize::max_value()])),
        8 => Made::OwnFileLen(file_len(prng)),
        _ => Made::Positions(prng.pick(&[0, 1, 255, 256, 256, 300])),
    }
}

// A start, then nexts, marks and returns, in each list in another proportion.
fn operations(prng: &mut Prng, first: &Source, second: &Source) -> Vec<Operation> {
    let start = |prng: &mut Prng, other: bool| {
        let (mut lower, upper) = if other { second.bounds(prng) } else { first.bounds(prng) };
        // so that more keys follow
        if prng.one_in(2) {
            lower.kind = Kind::Unbounded;
        }
        Operation { what: What::Start(lower, upper), other, made: None }
    };
    let names = names(prng);
    let lens = [first.file.len(), second.file.len()];
    let (marks, returns) = (prng.between(1, 6), prng.between(1, 4));
    let mut operations = vec![start(prng, false)];
    // with more names than are held, all of them first
    for name in names.iter().filter(|_| names.len() > MARKS) {
        operations.push(Operation { what: What::Next(0), other: false, made: None });
        operations.push(Operation { what: What::Mark(name.clone()), other: false, made: None });
    }
    for _ in 0..prng.between(1, MOST) {
        if prng.one_in(40) {
            let other = prng.one_in(3);
            operations.push(start(prng, other));
            continue;
        }
        let what = match prng.below(4 + marks + returns) {
            n if n < marks => What::Mark(some_name(prng, &names)),
            n if n < marks + returns => What::Back(some_name(prng, &names)),
            _ if prng.one_in(20) => What::Next(prng.pick(&[1, 1, 2, 255])),
            _ => What::Next(0),
        };
        let made = if prng.one_in(6) { Some(made(prng, &what, lens)) } else { None };
        operations.push(Operation { what, other: prng.one_in(20), made });
    }
    operations
}

// ---- the Rust, with a list of names beside it

// How a stream of the Rust comes to where it stands.
#[derive(Clone)]
struct Place<'o> {
    other: bool,
    lower: &'o Bound,
    upper: &'o Bound,
    steps: usize,
}

enum Stream<'r> {
    Plain(Range<'r>),
    By(Search<'r>),
}

impl<'r> Stream<'r> {
    fn next(&mut self) -> Option<Option<(Vec<u8>, u64)>> {
        match self {
            Stream::Plain(range) => range.next(),
            Stream::By(search) => search.next(),
        }
    }

    fn followed(&self) -> u64 {
        match self {
            Stream::Plain(range) => range.followed(),
            Stream::By(search) => search.followed(),
        }
    }
}

struct Judge<'r, 'o> {
    rust: [Option<&'r Opened<'r>>; 2],
    by: Option<&'o Pattern>,
    now: Option<Place<'o>>,
    stream: Option<Stream<'r>>,
    marks: Vec<(&'o [u8], Option<Place<'o>>)>,
    // whether a return came before, without a start since
    returned: bool,
}

impl<'r, 'o> Judge<'r, 'o> {
    // A new stream, stepped to the place.
    fn stand(&mut self, place: Option<Place<'o>>) {
        self.stream = place.as_ref().and_then(|place| {
            let rust = self.rust[place.other as usize]?;
            let mut stream = match self.by {
                Some(pattern) => Stream::By(rust.search(pattern, place.lower, place.upper)?),
                None => Stream::Plain(rust.range(place.lower, place.upper)?),
            };
            for _ in 0..place.steps {
                stream.next()?;
            }
            Some(stream)
        });
        self.now = place;
    }

    fn marked(&mut self, name: &'o [u8]) -> bool {
        let now = self.now.clone();
        match self.marks.iter_mut().find(|(held, _)| *held == name) {
            Some((_, place)) => {
                *place = now;
                true
            }
            None => {
                self.marks.push((name, now));
                false
            }
        }
    }
}

fn refusal(what: &What, why: u64) -> &'static str {
    match (what, why) {
        (What::Next(_), STATE) => "nexts: refused, 11 STATE",
        (What::Next(_), PATTERN) => "nexts: refused, 12 PATTERN",
        (What::Next(_), SPACE) => "nexts: refused, 8 SPACE",
        (What::Mark(_), STATE) => "marks: refused, 11 STATE",
        (What::Mark(_), PATTERN) => "marks: refused, 12 PATTERN",
        (What::Mark(_), NAME) => "marks: refused, 17 NAME",
        (What::Mark(_), FULL) => "marks: refused, 18 FULL",
        (What::Back(_), STATE) => "returns: refused, 11 STATE",
        (What::Back(_), PATTERN) => "returns: refused, 12 PATTERN",
        (What::Back(_), NAME) => "returns: refused, 17 NAME",
        _ => "refused otherwise: the other file does not open, or a made reading of it meets a node",
    }
}

fn made_name(made: Made) -> &'static str {
    match made {
        Made::Count(_) => "made: the number of marks",
        Made::NameLen(..) => "made: a name's length",
        Made::NameOf(..) => "made: another mark's name",
        Made::Levels(..) => "made: a mark's levels",
        Made::BoundLen(..) => "made: a mark's bound",
        Made::FileLen(..) => "made: a mark's file length",
        Made::OwnLevels(_) => "made: the reading's levels",
        Made::OwnBoundLen(_) => "made: the reading's bound",
        Made::OwnFileLen(_) => "made: the reading's file length",
        Made::Positions(_) => "made: the pattern's length",
    }
}

const MADE: [&str; 10] = [
    "made: the number of marks",
    "made: a name's length",
    "made: another mark's name",
    "made: a mark's levels",
    "made: a mark's bound",
    "made: a mark's file length",
    "made: the reading's levels",
    "made: the reading's bound",
    "made: the reading's file length",
    "made: the pattern's length",
];

const VERSIONS: [&str; 4] =
    ["lists on another version", "lists on version 1", "lists on version 2", "lists on version 3"];

impl<'a> Run<'a> {
    fn judge_operation<'r, 'o>(
        &mut self,
        judge: &mut Judge<'r, 'o>,
        operation: &'o Operation,
        answer: &Answer,
        input: &dyn Fn() -> String,
    ) -> Checked {
        if let Said::Refused(why) = answer.said {
            self.count(refusal(&operation.what, why));
        }
        if let Some(made) = operation.made {
            self.count(made_name(made));
            return Ok(());
        }
        match (&operation.what, &answer.said) {
            (What::Start(lower, upper), Said::Done) => {
                self.count("starts");
                judge.stand(Some(Place { other: operation.other, lower, upper, steps: 0 }));
                judge.returned = false;
            }
            (What::Mark(name), Said::Done) => {
                let there = judge.marked(name);
                self.count(if there { "marks: replaced" } else { "marks: added" });
                same("how many marks", input, ("kept", judge.marks.len() as u64), ("ours", answer.marks))?;
            }
            (What::Back(name), Said::Done) => {
                let found = judge.marks.iter().find(|(held, _)| *held == &name[..]).map(|(_, place)| place.clone());
                same("a return to a name that is marked", input, ("kept", found.is_some()), ("ours", true))?;
                judge.stand(found.flatten());
                judge.returned = true;
                self.count("returns");
                if let Some(stream) = &judge.stream {
                    same("a returned reading's total", input, ("the Rust", stream.followed()), ("ours", answer.total))?;
                    self.count("returns held to a new stream of the Rust, stepped to the mark");
                }
            }
            (What::Next(_), Said::Key(..)) | (What::Next(_), Said::End) => {
                let key = match &answer.said {
                    Said::Key(key, value) => Some((key.clone(), *value)),
                    _ => None,
                };
                self.count(if key.is_some() { "nexts: a key" } else { "nexts: the end" });
                if let Some(place) = &mut judge.now {
                    place.steps += 1;
                }
                if let Some(stream) = &mut judge.stream {
                    same("a next's answer", input, ("the Rust", stream.next()), ("ours", Some(key)))?;
                    same("a next's total", input, ("the Rust", stream.followed()), ("ours", answer.total))?;
                    self.count("nexts held to the Rust");
                    if judge.returned {
                        self.count("nexts held to the Rust, after a return");
                    }
                }
            }
            _ => {}
        }
        Ok(())
    }

    fn mark_list(&mut self) -> Checked {
        let first = Source::first(&mut self.prng);
        let second = Source::other(&mut self.prng, &first);
        let by = if self.prng.one_in(3) { Some(pattern(&mut self.prng, &first.near).0) } else { None };
        let operations = operations(&mut self.prng, &first, &second);
        let (file, other) = ((&first.file[..], &first.table[..]), (&second.file[..], &second.table[..]));
        let wanted = Model.run(file, other, by.as_ref(), &operations);
        let found = match self.ours_marks {
            Some(ours) => ours.run(file, other, by.as_ref(), &operations),
            None => wanted.clone(),
        };
        let rust = given_file::open(file.0);
        let there = other.0.len() >= given_file::LEAST && model_file::admitted(other.0).is_ok();
        let rust_other = if there { given_file::open(other.0) } else { None };
        let mut judge = Judge {
            rust: [rust.as_ref(), rust_other.as_ref()],
            by: by.as_ref(),
            now: None,
            stream: None,
            marks: Vec::new(),
            returned: false,
        };
        self.count(if by.is_some() { "lists by pattern" } else { "lists of plain readings" });
        let version = model_file::open(file.0).map_or(0, |meta| meta.version as usize);
        self.count(VERSIONS[version.min(3)]);
        for (i, operation) in operations.iter().enumerate() {
            let input = || {
                let (file, other) = (describe_file(file.0), describe_file(other.0));
                format!("operation {} of {:?}, by {:?}, on {}, other {}", i, &operations[..=i], by, file, other)
            };
            same("an operation's answer", input, ("model", &wanted[i]), ("ours", &found[i]))?;
            self.judge_operation(&mut judge, operation, &found[i], &input)?;
        }
        self.count_more("operations", operations.len());
        Ok(())
    }

    pub fn mark_lists(&mut self) -> Checked {
        for _ in 0..LISTS / self.one_in {
            self.mark_list()?;
        }
        self.require(&["lists of plain readings"], 12_000)?;
        self.require(&["lists by pattern"], 6_000)?;
        self.require(&VERSIONS[1..], 2_000)?;
        self.require(&["nexts: a key", "nexts: the end", "marks: added", "marks: replaced", "returns"], 10_000)?;
        self.require(&["nexts held to the Rust, after a return"], 50_000)?;
        self.require(&["returns held to a new stream of the Rust, stepped to the mark"], 10_000)?;
        self.require(&["nexts: refused, 11 STATE", "marks: refused, 11 STATE", "returns: refused, 11 STATE"], 5_000)?;
        self.require(&["marks: refused, 17 NAME", "returns: refused, 17 NAME", "nexts: refused, 8 SPACE"], 5_000)?;
        self.require(&["marks: refused, 18 FULL"], 1_000)?;
        self.require(
            &["nexts: refused, 12 PATTERN", "marks: refused, 12 PATTERN", "returns: refused, 12 PATTERN"],
            100,
        )?;
        self.require(&MADE, 2_000)
    }
}
