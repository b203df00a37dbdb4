// A plain model of document 02, N10: marks of a reading, plain or by pattern, for every list of operations. It is written from the paper, with
// OPEN-POINTS-02's N10; the readings are those of model_reading.rs and model_pattern.rs.

use crate::answers::{Bound, Kind, Pattern, Reading, BOUND_BYTES, LEVELS, PATTERN, POSITIONS, STATE};
use crate::model::Model;
use crate::model_file::{open, MAX_PATH};
use crate::model_pattern;
use crate::model_reading::{self, Told};
use crate::model_seats::Tabled;

pub const NAME: u64 = 17;
pub const FULL: u64 = 18;
pub const MARKS: usize = 16;
pub const MAX_NAME: usize = 8;

// What is done. The files are two, of different lengths.
#[derive(Clone, Debug)]
pub enum What {
    // the marks stay
    Start(Bound, Bound),
    // with a buffer so much shorter than the longest key
    Next(usize),
    Mark(Vec<u8>),
    Back(Vec<u8>),
}

// A state that no call gives. The first number of two is a mark's place.
#[derive(Clone, Copy, Debug, Eq, PartialEq)]
pub enum Made {
    Count(usize),
    NameLen(usize, usize),
    // the name of the mark at the second place
    NameOf(usize, usize),
    Levels(usize, usize),
    BoundLen(usize, usize),
    FileLen(usize, usize),
    OwnLevels(usize),
    OwnBoundLen(usize),
    OwnFileLen(usize),
    Positions(usize),
}

// On a made state an operation is tried, and afterwards all is as it was before it.
#[derive(Clone, Debug)]
pub struct Operation {
    pub what: What,
    pub other: bool,
    pub made: Option<Made>,
}

#[derive(Clone, Debug, Eq, PartialEq)]
pub enum Said {
    Key(Vec<u8>, u64),
    End,
    Done,
    Refused(u64),
    // a start that was refused, so that the reading stays
    NotStarted(u64),
}

// An answer; the reading's total, number of keys to come and levels, and how many marks there are; and whether the row of the key is as it was lent but
// for the key.
#[derive(Clone, Debug, Eq, PartialEq)]
pub struct Answer {
    pub said: Said,
    pub total: u64,
    pub keys: u64,
    pub levels: u64,
    pub marks: u64,
    pub untouched: bool,
}

// One who runs operations from no reading and no marks: by a pattern, or plain.
pub trait MarkAnswers {
    fn run(&self, file: Tabled, other: Tabled, by: Option<&Pattern>, operations: &[Operation]) -> Vec<Answer>;
}

#[derive(Clone)]
pub struct Mark {
    pub name_len: usize,
    pub name: [u8; MAX_NAME],
    pub reading: Reading,
}

impl Mark {
    fn new(name: &[u8], reading: Reading) -> Mark {
        let mut held = [0; MAX_NAME];
        held[..name.len()].copy_from_slice(name);
        Mark { name_len: name.len(), name: held, reading }
    }

    // The same length and the same bytes.
    pub fn is(&self, name: &[u8]) -> bool {
        self.name_len == name.len() && self.name[..self.name_len] == *name
    }
}

// A reading with its marks; those from count on say nothing.
#[derive(Clone)]
pub struct Marked {
    pub reading: Reading,
    pub pattern: Option<Pattern>,
    pub count: usize,
    pub marks: Vec<Mark>,
}

fn within_limits(reading: &Reading, len: usize) -> bool {
    reading.level_count <= LEVELS && reading.bound_len <= BOUND_BYTES && reading.file_len == len
}

impl Marked {
    fn new(by: Option<&Pattern>) -> Marked {
        let reading = Reading {
            file_len: 0,
            kind: Kind::Unbounded,
            bound_len: 0,
            bound: Vec::new(),
            pending: None,
            total: 0,
            keys: 0,
            level_count: 0,
            levels: Vec::new(),
        };
        let pattern = by.map(|_| Pattern { positions: Vec::new(), rest: false });
        let mark = Mark::new(b"", reading.clone());
        Marked { reading, pattern, count: 0, marks: vec![mark; MARKS] }
    }

    // At most 16; each name of 1 to 8 bytes, and none twice; each mark's own state within the limits of a reading of a file of so many bytes.
    fn marks_right(&self, len: usize) -> bool {
        if self.count > MARKS {
            return false;
        }
        let marks = &self.marks[..self.count];
        let named = marks.iter().all(|mark| (1..=MAX_NAME).contains(&mark.name_len));
        let once = || marks.iter().all(|m| marks.iter().filter(|k| k.is(&m.name[..m.name_len])).count() == 1);
        named && once() && marks.iter().all(|mark| within_limits(&mark.reading, len))
    }

    // 1, 4, 2, 3, then 11 for the reading or the marks, then 12.
    fn judge(&self, file: &[u8]) -> Result<(), u64> {
        open(file)?;
        if !within_limits(&self.reading, file.len()) || !self.marks_right(file.len()) {
            return Err(STATE);
        }
        match &self.pattern {
            Some(pattern) if pattern.positions.len() > POSITIONS => Err(PATTERN),
            _ => Ok(()),
        }
    }

    // The place of a name.
    pub fn place(&self, name: &[u8]) -> Option<usize> {
        self.marks[..self.count].iter().position(|mark| mark.is(name))
    }

    // Then 17, then 18.
    pub fn mark(&mut self, file: &[u8], name: &[u8]) -> Said {
        if let Err(why) = self.judge(file) {
            return Said::Refused(why);
        }
        if name.is_empty() || name.len() > MAX_NAME {
            return Said::Refused(NAME);
        }
        match self.place(name) {
            None if self.count == MARKS => return Said::Refused(FULL),
            None => self.add(name),
            Some(place) => self.marks[place] = Mark::new(name, self.reading.clone()),
        }
        Said::Done
    }

    // After the last.
    pub fn add(&mut self, name: &[u8]) {
        self.marks[self.count] = Mark::new(name, self.reading.clone());
        self.count += 1;
    }

    // Then 17.
    pub fn back(&mut self, file: &[u8], name: &[u8]) -> Said {
        if let Err(why) = self.judge(file) {
            return Said::Refused(why);
        }
        match self.place(name) {
            Some(place) => {
                self.reading = self.marks[place].reading.clone();
                Said::Done
            }
            None => Said::Refused(NAME),
        }
    }

    // 1, 4, 2, 3, then 11 for the marks too, then as a next without marks.
    pub fn next(&mut self, file: &[u8], space: usize) -> Said {
        match open(file) {
            Ok(_) if !self.marks_right(file.len()) => Said::Refused(STATE),
            _ => self.next_unmarked(file, space),
        }
    }

    pub fn next_unmarked(&mut self, file: &[u8], space: usize) -> Said {
        let (told, after) = match &self.pattern {
            Some(pattern) => model_pattern::next(file, pattern, &self.reading, space),
            None => model_reading::next(file, &self.reading, space),
        };
        self.reading = after;
        match told {
            Told::Key(key, value) => Said::Key(key, value),
            Told::End => Said::End,
            Told::Refused(why) => Said::Refused(why),
        }
    }

    fn start(&mut self, file: Tabled, by: Option<&Pattern>, lower: &Bound, upper: &Bound) -> Said {
        let started = match by {
            Some(pattern) => model_pattern::start(file.0, pattern, lower, upper),
            None => model_reading::start(file.0, lower, upper, file.1),
        };
        match started {
            Err(why) => Said::NotStarted(why),
            Ok(reading) => {
                self.reading = reading;
                self.pattern = by.cloned();
                Said::Done
            }
        }
    }

    fn make(&mut self, made: Made) {
        match made {
            Made::Count(count) => self.count = count,
            Made::NameLen(place, n) => self.marks[place].name_len = n,
            Made::NameOf(place, whose) => {
                self.marks[place].name_len = self.marks[whose].name_len;
                self.marks[place].name = self.marks[whose].name;
            }
            Made::Levels(place, n) => self.marks[place].reading.level_count = n,
            Made::BoundLen(place, n) => self.marks[place].reading.bound_len = n,
            Made::FileLen(place, n) => self.marks[place].reading.file_len = n,
            Made::OwnLevels(n) => self.reading.level_count = n,
            Made::OwnBoundLen(n) => self.reading.bound_len = n,
            Made::OwnFileLen(n) => self.reading.file_len = n,
            Made::Positions(n) => {
                if let Some(pattern) = &mut self.pattern {
                    pattern.positions.resize(n, 0);
                }
            }
        }
    }
}

// The three calls: as they are to be, and with a slip in the self-test.
pub trait MarkCalls {
    fn next(&self, held: &mut Marked, file: &[u8], space: usize) -> Said {
        held.next(file, space)
    }

    fn mark(&self, held: &mut Marked, file: &[u8], name: &[u8]) -> Said {
        held.mark(file, name)
    }

    fn back(&self, held: &mut Marked, file: &[u8], name: &[u8]) -> Said {
        held.back(file, name)
    }
}

pub fn run_by(
    calls: &dyn MarkCalls,
    file: Tabled,
    other: Tabled,
    by: Option<&Pattern>,
    operations: &[Operation],
) -> Vec<Answer> {
    let mut held = Marked::new(by);
    let mut answers = Vec::new();
    for operation in operations {
        let file = if operation.other { other } else { file };
        let before = operation.made.map(|_| held.clone());
        if let Some(made) = operation.made {
            held.make(made);
        }
        let said = match &operation.what {
            What::Start(lower, upper) => held.start(file, by, lower, upper),
            What::Next(less) => calls.next(&mut held, file.0, MAX_PATH - less),
            What::Mark(name) => calls.mark(&mut held, file.0, name),
            What::Back(name) => calls.back(&mut held, file.0, name),
        };
        answers.push(Answer {
            said,
            total: held.reading.total,
            keys: held.reading.keys,
            levels: held.reading.level_count as u64,
            marks: held.count as u64,
            untouched: true,
        });
        if let Some(before) = before {
            held = before;
        }
    }
    answers
}

impl MarkCalls for Model {}

impl MarkAnswers for Model {
    fn run(&self, file: Tabled, other: Tabled, by: Option<&Pattern>, operations: &[Operation]) -> Vec<Answer> {
        run_by(self, file, other, by, operations)
    }
}
