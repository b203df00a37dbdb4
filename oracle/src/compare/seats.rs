// Eight seats on one index (document 02, N13): random lists of events, with refused dispatches among them. Each seat's answers and total are held to a
// stream of the Rust of its own, every answer to the model, and nobody waits longer than the turn allows; and lists with states that no call gives.

use super::{describe_file, filled, same, Checked, Run};
use crate::answers::{Bound, Kind, SPACE, STATE};
use crate::generate_file::{self, medium, small};
use crate::generate_reading::{bounds, some_strings, strings};
use crate::given_file::{self, Opened};
use crate::given_reading::Range;
use crate::model::Model;
use crate::model_file;
use crate::model_seats::{Answer, Event, Said, SeatAnswers, SEAT, SEATS};
use crate::prng::Prng;

// Lists, those with made states, and the dispatches of each.
const LISTS: usize = 2_000;
const MADE: usize = 1_000;
const DISPATCHES: usize = 200;

const WAITS: [&str; SEATS] = [
    "waits: served by the 1st unrefused dispatch",
    "waits: by the 2nd",
    "waits: by the 3rd",
    "waits: by the 4th",
    "waits: by the 5th",
    "waits: by the 6th",
    "waits: by the 7th",
    "waits: by the 8th",
];

// A file with its table, and strings for bounds.
pub struct Source {
    pub file: Vec<u8>,
    pub table: Vec<u64>,
    pub near: Vec<Vec<u8>>,
}

impl Source {
    fn new(prng: &mut Prng, file: Vec<u8>) -> Source {
        let near = match model_file::admitted(&file) {
            Ok(found) if !file.is_empty() => some_strings(prng, &found, strings(&found, 300).as_deref()),
            _ => vec![Vec::new()],
        };
        Source { table: filled(&file), file, near }
    }

    // The seats' file: admitted, with a table as filled, and one that the Rust opens.
    pub fn first(prng: &mut Prng) -> Source {
        loop {
            let file = match prng.below(12) {
                0..=3 => medium(prng).file,
                4 => generate_file::unused(prng),
                _ => small(prng).file,
            };
            let tabled = model_file::admitted(&file).and_then(|found| found.counts(file.len())).is_ok();
            if file.len() >= given_file::LEAST && tabled {
                return Source::new(prng, file);
            }
        }
    }

    // One of another length; few do not open, or are of no bytes.
    pub fn other(prng: &mut Prng, first: &Source) -> Source {
        loop {
            let mut file = small(prng).file;
            if prng.one_in(8) {
                file.truncate(prng.pick(&[0, 1, 32, 40]));
            }
            if file.len() != first.file.len() {
                return Source::new(prng, file);
            }
        }
    }

    // Two bounds; half of the upper ones are none, so that fewer readings are at their end.
    pub fn bounds(&self, prng: &mut Prng) -> (Bound, Bound) {
        let ((lower, _), (upper, _)) = bounds(prng, &self.near);
        if prng.one_in(2) {
            return (lower, Bound { kind: Kind::Unbounded, bytes: Vec::new() });
        }
        (lower, upper)
    }
}

// A reading of either file at a number.
fn seated(prng: &mut Prng, first: &Source, second: &Source) -> Event {
    let other = prng.one_in(8);
    let (lower, upper) = if other { second.bounds(prng) } else { first.bounds(prng) };
    let number = if prng.one_in(40) { prng.pick(&[8, 9, usize::max_value()]) } else { prng.below(SEATS) };
    Event::Seat { number, other, lower, upper }
}

fn made(prng: &mut Prng) -> Event {
    if prng.one_in(2) {
        let number = if prng.one_in(4) { prng.pick(&[8, 255, 256, usize::max_value()]) } else { prng.below(SEATS) };
        return Event::Last(number);
    }
    Event::Flags { number: prng.below(SEATS), taken: !prng.one_in(8), waiting: prng.one_in(3) }
}

// Seatings first, then raises and dispatches, in each list in another proportion.
fn events(prng: &mut Prng, first: &Source, second: &Source, with_made: bool) -> Vec<Event> {
    let mut events: Vec<Event> = (0..prng.below(14)).map(|_| seated(prng, first, second)).collect();
    let raises = prng.between(2, 20);
    let mut dispatches = 0;
    while dispatches < DISPATCHES {
        let event = match prng.below(raises + 12) {
            0 => seated(prng, first, second),
            1 if with_made => made(prng),
            n if n < 12 => {
                dispatches += 1;
                let less = if prng.one_in(10) { prng.pick(&[1, 1, 2, 255]) } else { 0 };
                Event::Dispatch { other: prng.one_in(8), less }
            }
            _ => Event::Raise(if prng.one_in(60) { 8 } else { prng.below(SEATS) }),
        };
        events.push(event);
    }
    events
}

// How long each seat has waited, by what was answered.
struct Waits {
    last: usize,
    // so many unrefused dispatches since the request, and how many may come before its own
    since: [Option<(usize, usize)>; SEATS],
}

impl Waits {
    fn new() -> Waits {
        Waits { last: SEATS - 1, since: [None; SEATS] }
    }

    fn raised(&mut self, number: usize) {
        if self.since[number].is_none() {
            self.since[number] = Some((0, (number + SEATS - self.last - 1) % SEATS));
        }
    }

    // Which dispatch since its request serves this one; and whether none has waited too long.
    fn served(&mut self, number: usize) -> (usize, bool) {
        let before = self.since[number].take();
        self.last = number;
        let mut in_time = before.map_or(false, |(n, most)| n <= most);
        for (n, most) in self.since.iter_mut().flatten() {
            *n += 1;
            in_time &= *n <= *most;
        }
        (before.map_or(0, |(n, _)| n), in_time)
    }
}

// What a list is judged by beside the model.
struct Judge<'r> {
    rust: [Option<&'r Opened<'r>>; 2],
    streams: Vec<Option<Range<'r>>>,
    // none with made states
    waits: Option<Waits>,
    // the turn that a refused dispatch left
    refused_before: bool,
}

impl<'a> Run<'a> {
    fn judge_event<'r>(
        &mut self,
        judge: &mut Judge<'r>,
        event: &Event,
        answer: &Answer,
        input: &dyn Fn() -> String,
    ) -> Checked {
        let (said, total, _) = answer;
        match (event, said) {
            (Event::Seat { number, other, lower, upper }, Said::Done) => {
                self.count(if *other { "seated: of the other file" } else { "seated" });
                if judge.streams[*number].is_some() {
                    self.count("seated where another reading was");
                }
                judge.streams[*number] = judge.rust[*other as usize].and_then(|rust| rust.range(lower, upper));
            }
            (Event::Seat { .. }, Said::NotStarted(_)) => self.count("starts refused"),
            (Event::Raise(number), Said::Done) => {
                self.count("raised");
                if let Some(waits) = &mut judge.waits {
                    waits.raised(*number);
                }
            }
            (Event::Last(_), _) | (Event::Flags { .. }, _) => self.count("made states"),
            (Event::Dispatch { .. }, Said::Key(number, ..)) | (Event::Dispatch { .. }, Said::End(number)) => {
                let key = match said {
                    Said::Key(_, key, value) => Some((key.clone(), *value)),
                    _ => None,
                };
                self.count(if key.is_some() { "dispatches: a key" } else { "dispatches: the end" });
                if let Some(stream) = &mut judge.streams[*number] {
                    same("a seat's answer", input, ("the Rust", stream.next()), ("ours", Some(key)))?;
                    same("a seat's total", input, ("the Rust", stream.followed()), ("ours", *total))?;
                    self.count("dispatches held to the seat's own stream of the Rust");
                }
                if let Some(waits) = &mut judge.waits {
                    let (n, in_time) = waits.served(*number);
                    same("nobody waits longer than the turn allows", input, ("wanted", true), ("ours", in_time))?;
                    self.count(WAITS[n]);
                }
                if judge.refused_before {
                    self.count("dispatches: served after a refused one");
                }
            }
            (Event::Dispatch { .. }, Said::Nobody) => {
                let nobody = judge.waits.as_ref().map_or(true, |waits| waits.since.iter().all(Option::is_none));
                same("nobody waits", input, ("wanted", true), ("ours", nobody))?;
                self.count("dispatches: nobody");
            }
            (Event::Dispatch { .. }, Said::Refused(why)) => self.count(match *why {
                SPACE => "dispatches: refused, 8 SPACE",
                STATE => "dispatches: refused, 11 STATE",
                SEAT => "dispatches: refused, 20 SEAT",
                _ => "dispatches: refused, the other file does not open",
            }),
            (Event::Seat { .. }, _) => self.count("seatings: refused, 20 SEAT"),
            (Event::Raise(_), _) => self.count("raises: refused, 20 SEAT"),
            _ => self.count("another answer"),
        }
        if let Event::Dispatch { .. } = event {
            judge.refused_before = matches!(said, Said::Refused(_));
        }
        Ok(())
    }

    fn seat_list(&mut self, with_made: bool) -> Checked {
        let first = Source::first(&mut self.prng);
        let second = Source::other(&mut self.prng, &first);
        let events = events(&mut self.prng, &first, &second, with_made);
        let (file, other) = ((&first.file[..], &first.table[..]), (&second.file[..], &second.table[..]));
        let wanted = Model.run(file, other, &events);
        let found = match self.ours_seats {
            Some(ours) => ours.run(file, other, &events),
            None => wanted.clone(),
        };
        let rust = given_file::open(file.0);
        let there = other.0.len() >= given_file::LEAST && model_file::admitted(other.0).is_ok();
        let rust_other = if there { given_file::open(other.0) } else { None };
        let mut judge = Judge {
            rust: [rust.as_ref(), rust_other.as_ref()],
            streams: (0..SEATS).map(|_| None).collect(),
            waits: if with_made { None } else { Some(Waits::new()) },
            refused_before: false,
        };
        self.count("lists");
        for (i, event) in events.iter().enumerate() {
            let input = || {
                let (file, other) = (describe_file(file.0), describe_file(other.0));
                format!("event {} of {:?}, on {}, other {}", i, &events[..=i], file, other)
            };
            same("an event's answer", input, ("model", &wanted[i]), ("ours", &found[i]))?;
            self.judge_event(&mut judge, event, &found[i], &input)?;
        }
        self.count_more("events", events.len());
        Ok(())
    }

    pub fn seat_lists(&mut self) -> Checked {
        for _ in 0..LISTS / self.one_in {
            self.seat_list(false)?;
        }
        self.require(&["lists"], 2_000)?;
        self.require(&["dispatches: a key", "dispatches: the end", "dispatches: nobody"], 10_000)?;
        self.require(&["dispatches held to the seat's own stream of the Rust"], 100_000)?;
        self.require(&["dispatches: refused, 8 SPACE", "dispatches: refused, 11 STATE"], 10_000)?;
        self.require(&["dispatches: served after a refused one", "seated where another reading was"], 5_000)?;
        self.require(&["raises: refused, 20 SEAT", "seatings: refused, 20 SEAT"], 120)?;
        self.require(&["dispatches: refused, the other file does not open"], 120)?;
        self.require(&WAITS, 1_000)
    }

    pub fn made_seat_lists(&mut self) -> Checked {
        for _ in 0..MADE / self.one_in {
            self.seat_list(true)?;
        }
        self.require(&["lists"], 1_000)?;
        self.require(&["made states", "dispatches: refused, 20 SEAT"], 5_000)?;
        self.require(&["raises: refused, 20 SEAT", "seatings: refused, 20 SEAT"], 1_000)?;
        self.require(&["dispatches held to the seat's own stream of the Rust"], 5_000)
    }
}
