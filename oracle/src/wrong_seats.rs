// The model's seats with one slip each, which the comparison is to notice.

use crate::model_file::{self, MAX_PATH};
use crate::model_reading::{next, Told};
use crate::model_seats::{Answer, Event, Said, Seat, SeatAnswers, Seats, Tabled, SEAT, SEATS};

pub const SLIPS: &[&str] = &[
    "seats: the lowest waiting seat first",
    "seats: a request is not cleared",
    "seats: a refusal passes the turn on",
    "seats: a refusal clears the request",
    "seats: nobody needs a file",
    "seats: nobody needs a buffer",
    "seats: an empty seat is skipped",
    "seats: the first turn is seat 1's",
    "seats: the seat served last is not moved",
    "seats: the end serves nobody",
    "seats: seating clears the request",
];

pub struct WrongSeats {
    pub slip: &'static str,
}

impl WrongSeats {
    fn has(&self, slip: &str) -> bool {
        self.slip.ends_with(slip)
    }

    fn turn(&self, seats: &Seats) -> Option<usize> {
        let waits = |i: &usize| seats.seats[*i].waiting && (seats.seats[*i].taken || !self.has("skipped"));
        if self.has("seat first") {
            return (0..SEATS).find(waits);
        }
        (1..=SEATS).map(|j| (seats.last + j) % SEATS).find(waits)
    }

    fn dispatch(&self, seats: &mut Seats, file: &[u8], space: usize) -> Said {
        let right = if self.has("skipped") { seats.last < SEATS } else { seats.right() };
        if !right {
            return Said::Refused(SEAT);
        }
        let i = match self.turn(seats) {
            Some(i) => i,
            None => {
                return match model_file::open(file) {
                    Err(why) if self.has("needs a file") => Said::Refused(why),
                    _ if self.has("needs a buffer") && space < MAX_PATH => Said::Refused(crate::answers::SPACE),
                    _ => Said::Nobody,
                }
            }
        };
        let (told, after) = next(file, &seats.seats[i].reading, space);
        let said = match told {
            Told::Refused(why) => {
                if self.has("turn on") {
                    seats.last = i;
                }
                if self.has("refusal clears the request") {
                    seats.seats[i].waiting = false;
                }
                return Said::Refused(why);
            }
            Told::Key(key, value) => Said::Key(i, key, value),
            Told::End => Said::End(i),
        };
        let stays = self.has("not cleared") || self.has("end serves nobody") && said == Said::End(i);
        seats.seats[i] = Seat { taken: true, waiting: stays, reading: after };
        if !self.has("not moved") {
            seats.last = i;
        }
        said
    }
}

impl SeatAnswers for WrongSeats {
    fn run(&self, file: Tabled, other: Tabled, events: &[Event]) -> Vec<Answer> {
        let mut seats = Seats::new();
        if self.has("seat 1's") {
            seats.last = 0;
        }
        let answer = |event: &Event| {
            if let Event::Dispatch { other: is_other, less } = *event {
                let bytes = if is_other { other.0 } else { file.0 };
                let said = self.dispatch(&mut seats, bytes, MAX_PATH - less);
                let named = match said {
                    Said::Key(i, ..) | Said::End(i) => i,
                    _ => 0,
                };
                return (said, seats.total(named), true);
            }
            let (said, total) = seats.event(file, other, event);
            if let (Event::Seat { number, .. }, Said::Done, true) = (event, &said, self.has("seating clears the request")) {
                seats.seats[*number].waiting = false;
            }
            (said, total, true)
        };
        events.iter().map(answer).collect()
    }
}
