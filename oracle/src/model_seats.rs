// A plain model of document 02, N13: eight seats on one index, for every list of events. It is written from the paper, with OPEN-POINTS-02's N13; the
// readings are those of model_reading.rs.

use crate::answers::{Bound, Kind, Reading};
use crate::model::Model;
use crate::model_file::MAX_PATH;
use crate::model_reading::{next, start, Told};

pub const SEAT: u64 = 20;
pub const SEATS: usize = 8;

// What happens to the seats. The files are two, of different lengths; the last two make states that no call gives.
#[derive(Clone, Debug)]
pub enum Event {
    Seat { number: usize, other: bool, lower: Bound, upper: Bound },
    Raise(usize),
    // with a buffer so much shorter than the longest key
    Dispatch { other: bool, less: usize },
    Last(usize),
    Flags { number: usize, taken: bool, waiting: bool },
}

#[derive(Clone, Debug, Eq, PartialEq)]
pub enum Said {
    Key(usize, Vec<u8>, u64),
    End(usize),
    Nobody,
    Done,
    Refused(u64),
    // a start that was refused, so that nothing was seated
    NotStarted(u64),
}

// An answer; the total of the reading of the seat that it names, of the event's own where it names none, of seat 0's after a dispatch that served
// nobody; and whether the row of its key is as it was lent but for the key.
pub type Answer = (Said, u64, bool);

// A file with its table of keys.
pub type Tabled<'f> = (&'f [u8], &'f [u64]);

// One who runs events from no readings.
pub trait SeatAnswers {
    fn run(&self, file: Tabled, other: Tabled, events: &[Event]) -> Vec<Answer>;
}

#[derive(Clone)]
pub struct Seat {
    pub taken: bool,
    pub waiting: bool,
    pub reading: Reading,
}

pub struct Seats {
    pub last: usize,
    pub seats: Vec<Seat>,
}

impl Seats {
    // The reading of an empty seat says nothing.
    pub fn new() -> Seats {
        let reading = Reading {
            file_len: 0,
            kind: Kind::Unbounded,
            bound_len: 0,
            bound: Vec::new(),
            pending: None,
            total: 0,
            keys: 0,
            level_count: 0,
            levels: Vec::new(),
        };
        Seats { last: SEATS - 1, seats: vec![Seat { taken: false, waiting: false, reading }; SEATS] }
    }

    pub fn right(&self) -> bool {
        self.last < SEATS && self.seats.iter().all(|seat| seat.taken || !seat.waiting)
    }

    pub fn total(&self, number: usize) -> u64 {
        self.seats.get(number).map_or(0, |seat| seat.reading.total)
    }

    // The first that waits among last + 1, .., last + 8, modulo 8.
    fn turn(&self) -> Option<usize> {
        (1..=SEATS).map(|j| (self.last + j) % SEATS).find(|&i| self.seats[i].waiting)
    }

    fn dispatch(&mut self, file: &[u8], space: usize) -> Said {
        if !self.right() {
            return Said::Refused(SEAT);
        }
        let i = match self.turn() {
            Some(i) => i,
            None => return Said::Nobody,
        };
        let (told, after) = next(file, &self.seats[i].reading, space);
        let said = match told {
            Told::Refused(why) => return Said::Refused(why),
            Told::Key(key, value) => Said::Key(i, key, value),
            Told::End => Said::End(i),
        };
        self.seats[i] = Seat { taken: true, waiting: false, reading: after };
        self.last = i;
        said
    }

    pub fn event(&mut self, file: Tabled, other: Tabled, event: &Event) -> (Said, u64) {
        let named = |is_other: bool| if is_other { other } else { file };
        match *event {
            Event::Seat { number, other, ref lower, ref upper } => {
                let (bytes, table) = named(other);
                let said = match start(bytes, lower, upper, table) {
                    Err(why) => Said::NotStarted(why),
                    Ok(_) if number >= SEATS || !self.right() => Said::Refused(SEAT),
                    Ok(reading) => {
                        self.seats[number].taken = true;
                        self.seats[number].reading = reading;
                        Said::Done
                    }
                };
                (said, self.total(number))
            }
            Event::Raise(number) => {
                let said = if number >= SEATS || !self.right() || !self.seats[number].taken {
                    Said::Refused(SEAT)
                } else {
                    self.seats[number].waiting = true;
                    Said::Done
                };
                (said, self.total(number))
            }
            Event::Dispatch { other, less } => {
                let said = self.dispatch(named(other).0, MAX_PATH - less);
                let total = match said {
                    Said::Key(i, ..) | Said::End(i) => self.total(i),
                    _ => self.total(0),
                };
                (said, total)
            }
            Event::Last(number) => {
                self.last = number;
                (Said::Done, self.total(number))
            }
            Event::Flags { number, taken, waiting } => {
                self.seats[number].taken = taken;
                self.seats[number].waiting = waiting;
                (Said::Done, self.total(number))
            }
        }
    }
}

impl SeatAnswers for Model {
    fn run(&self, file: Tabled, other: Tabled, events: &[Event]) -> Vec<Answer> {
        let mut seats = Seats::new();
        let answer = |event| {
            let (said, total) = seats.event(file, other, event);
            (said, total, true)
        };
        events.iter().map(answer).collect()
    }
}
