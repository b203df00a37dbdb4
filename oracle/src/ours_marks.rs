// Our static library, target/staticlib/liboracle_marks.a (crate `oracle_marks`): its exported function, which runs a whole list of operations, and a safe
// function over it. A slice is passed as its pointer and then its length.

use crate::answers::{Pattern, END, NEXT_REFUSED};
use crate::model_file::MAX_PATH;
use crate::model_marks::{Answer, Made, MarkAnswers, Operation, Said, What};
use crate::model_seats::Tabled;
use crate::ours::Library;

#[link(name = "oracle_marks", kind = "static")]
extern "C" {
    fn oracle_marks(
        file: *const u8,
        file_len: usize,
        table: *const u64,
        table_len: usize,
        other: *const u8,
        other_len: usize,
        other_table: *const u64,
        other_table_len: usize,
        by: u64,
        positions: *const u16,
        positions_len: usize,
        rest: u64,
        bytes: *const u8,
        bytes_len: usize,
        operations: *const [u64; 10],
        operations_len: usize,
        answers: *mut [u64; 6],
        answers_len: usize,
        rows: *mut u8,
        rows_len: usize,
    ) -> u64;
}

const DONE: u64 = 1002;
const NOT_STARTED: u64 = 3000;
const NO_OPERATION: u64 = 4000;

// What the rows hold before.
const JUNK: u8 = 0xa5;

fn made_numbers(made: Option<Made>) -> [u64; 3] {
    let (change, place, value) = match made {
        None => (0, 0, 0),
        Some(Made::Count(n)) => (1, 0, n),
        Some(Made::NameLen(place, n)) => (2, place, n),
        Some(Made::NameOf(place, whose)) => (3, place, whose),
        Some(Made::Levels(place, n)) => (4, place, n),
        Some(Made::BoundLen(place, n)) => (5, place, n),
        Some(Made::FileLen(place, n)) => (6, place, n),
        Some(Made::OwnLevels(n)) => (7, 0, n),
        Some(Made::OwnBoundLen(n)) => (8, 0, n),
        Some(Made::OwnFileLen(n)) => (9, 0, n),
        Some(Made::Positions(n)) => (10, 0, n),
    };
    [change, place as u64, value as u64]
}

// The operation's ten numbers; its bounds or its name go to the end of all bytes.
fn numbers(operation: &Operation, bytes: &mut Vec<u8>) -> [u64; 10] {
    let from = bytes.len() as u64;
    let (what, low, high, middle) = match &operation.what {
        What::Start(lower, upper) => {
            bytes.extend(&lower.bytes);
            let middle = bytes.len() as u64;
            bytes.extend(&upper.bytes);
            (0, lower.kind.number(), upper.kind.number(), middle)
        }
        What::Next(less) => (1, *less as u64, 0, from),
        What::Mark(name) | What::Back(name) => {
            bytes.extend(name);
            (if let What::Mark(_) = operation.what { 2 } else { 3 }, 0, 0, from)
        }
    };
    let [change, place, value] = made_numbers(operation.made);
    [what, operation.other as u64, low, high, from, middle, bytes.len() as u64, change, place, value]
}

// What an answer's six numbers and its row say.
fn said(answer: [u64; 6], row: &[u8]) -> Answer {
    let [code, value, total, keys, levels, marks] = answer;
    let (said, written) = match code {
        n if n <= MAX_PATH as u64 => (Said::Key(row[..n as usize].to_vec(), value), n as usize),
        END => (Said::End, 0),
        DONE => (Said::Done, 0),
        n => {
            assert!(n >= NEXT_REFUSED && n < NO_OPERATION, "every operation is one");
            (if n < NOT_STARTED { Said::Refused(n - NEXT_REFUSED) } else { Said::NotStarted(n - NOT_STARTED) }, 0)
        }
    };
    let untouched = row[written..].iter().all(|&b| b == JUNK);
    Answer { said, total, keys, levels, marks, untouched }
}

// Each slice lives through the call, and a slice that is written is lent to nobody else.
impl MarkAnswers for Library {
    fn run(&self, file: Tabled, other: Tabled, by: Option<&Pattern>, operations: &[Operation]) -> Vec<Answer> {
        let mut bytes = Vec::new();
        let operations: Vec<[u64; 10]> = operations.iter().map(|op| numbers(op, &mut bytes)).collect();
        let mut answers = vec![[u64::max_value(); 6]; operations.len()];
        let mut rows = vec![JUNK; MAX_PATH * operations.len()];
        let positions: &[u16] = by.map_or(&[], |pattern| &pattern.positions);
        let ran = unsafe {
            oracle_marks(
                file.0.as_ptr(),
                file.0.len(),
                file.1.as_ptr(),
                file.1.len(),
                other.0.as_ptr(),
                other.0.len(),
                other.1.as_ptr(),
                other.1.len(),
                by.is_some() as u64,
                positions.as_ptr(),
                positions.len(),
                by.map_or(0, |pattern| pattern.rest as u64),
                bytes.as_ptr(),
                bytes.len(),
                operations.as_ptr(),
                operations.len(),
                answers.as_mut_ptr(),
                answers.len(),
                rows.as_mut_ptr(),
                rows.len(),
            )
        };
        assert_eq!(ran, operations.len() as u64, "there is room for every operation");
        answers.iter().zip(rows.chunks(MAX_PATH)).map(|(&answer, row)| said(answer, row)).collect()
    }
}
