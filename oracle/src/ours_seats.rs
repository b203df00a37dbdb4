// Our static library, target/staticlib/liboracle_seats.a (crate `oracle_seats`): its exported function, which runs a whole list of events, and a safe
// function over it. A slice is passed as its pointer and then its length.

use crate::answers::{END, NEXT_REFUSED};
use crate::model_file::MAX_PATH;
use crate::model_seats::{Answer, Event, Said, SeatAnswers, Tabled};
use crate::ours::Library;

#[link(name = "oracle_seats", kind = "static")]
extern "C" {
    fn oracle_seats(
        file: *const u8,
        file_len: usize,
        table: *const u64,
        table_len: usize,
        other: *const u8,
        other_len: usize,
        other_table: *const u64,
        other_table_len: usize,
        bounds: *const u8,
        bounds_len: usize,
        events: *const [u64; 8],
        events_len: usize,
        answers: *mut [u64; 4],
        answers_len: usize,
        rows: *mut u8,
        rows_len: usize,
    ) -> u64;
}

const NOBODY: u64 = 1001;
const DONE: u64 = 1002;
const NOT_STARTED: u64 = 3000;
const NO_EVENT: u64 = 4000;

// What the rows hold before.
const JUNK: u8 = 0xa5;

// The event's eight numbers; its bounds go to the end of all bounds.
fn numbers(event: &Event, bounds: &mut Vec<u8>) -> [u64; 8] {
    match *event {
        Event::Seat { number, other, ref lower, ref upper } => {
            let from = bounds.len() as u64;
            bounds.extend(&lower.bytes);
            let middle = bounds.len() as u64;
            bounds.extend(&upper.bytes);
            let to = bounds.len() as u64;
            [0, number as u64, other as u64, lower.kind.number(), upper.kind.number(), from, middle, to]
        }
        Event::Raise(number) => [1, number as u64, 0, 0, 0, 0, 0, 0],
        Event::Dispatch { other, less } => [2, less as u64, other as u64, 0, 0, 0, 0, 0],
        Event::Last(number) => [3, number as u64, 0, 0, 0, 0, 0, 0],
        Event::Flags { number, taken, waiting } => [4, number as u64, 0, taken as u64, waiting as u64, 0, 0, 0],
    }
}

// What an answer's four numbers and its row say.
fn said(answer: [u64; 4], row: &[u8]) -> Answer {
    let [code, seat, value, total] = answer;
    let (said, written) = match code {
        n if n <= MAX_PATH as u64 => {
            let n = n as usize;
            (Said::Key(seat as usize, row[..n].to_vec(), value), n)
        }
        END => (Said::End(seat as usize), 0),
        NOBODY => (Said::Nobody, 0),
        DONE => (Said::Done, 0),
        n => {
            assert!(n >= NEXT_REFUSED && n < NO_EVENT, "every event is one");
            (if n < NOT_STARTED { Said::Refused(n - NEXT_REFUSED) } else { Said::NotStarted(n - NOT_STARTED) }, 0)
        }
    };
    (said, total, row[written..].iter().all(|&b| b == JUNK))
}

// Each slice lives through the call, and a slice that is written is lent to nobody else.
impl SeatAnswers for Library {
    fn run(&self, file: Tabled, other: Tabled, events: &[Event]) -> Vec<Answer> {
        let mut bounds = Vec::new();
        let events: Vec<[u64; 8]> = events.iter().map(|event| numbers(event, &mut bounds)).collect();
        let mut answers = vec![[u64::max_value(); 4]; events.len()];
        let mut rows = vec![JUNK; MAX_PATH * events.len()];
        let ran = unsafe {
            oracle_seats(
                file.0.as_ptr(),
                file.0.len(),
                file.1.as_ptr(),
                file.1.len(),
                other.0.as_ptr(),
                other.0.len(),
                other.1.as_ptr(),
                other.1.len(),
                bounds.as_ptr(),
                bounds.len(),
                events.as_ptr(),
                events.len(),
                answers.as_mut_ptr(),
                answers.len(),
                rows.as_mut_ptr(),
                rows.len(),
            )
        };
        assert_eq!(ran, events.len() as u64, "there is room for every event");
        answers.iter().zip(rows.chunks(MAX_PATH)).map(|(&answer, row)| said(answer, row)).collect()
    }
}
