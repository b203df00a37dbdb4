// The model's marks with one slip each, which the comparison is to notice.

use crate::answers::Pattern;
use crate::model_marks::{
    run_by, Answer, MarkAnswers, MarkCalls, Marked, Operation, Said, FULL, MARKS, MAX_NAME, NAME,
};
use crate::model_seats::Tabled;

pub const SLIPS: &[&str] = &[
    "marks: later marks dropped on return",
    "marks: the total goes on after a return",
    "marks: full before name",
    "marks: the same name added twice",
    "marks: not judged by next",
    "marks: a mark of another file taken",
    "marks: a name of eight refused",
];

pub struct WrongMarks {
    pub slip: &'static str,
}

impl WrongMarks {
    fn has(&self, slip: &str) -> bool {
        self.slip.ends_with(slip)
    }

    // The call on marks that say they are of this file, where the slip is to believe it; the answer stands where it is not refused.
    fn believing(&self, held: &mut Marked, file: &[u8], call: &dyn Fn(&mut Marked) -> Said) -> Said {
        if self.has("of another file taken") {
            let mut believed = held.clone();
            for mark in &mut believed.marks {
                mark.reading.file_len = file.len();
            }
            let said = call(&mut believed);
            if !matches!(said, Said::Refused(_)) {
                *held = believed;
                return said;
            }
        }
        call(held)
    }
}

impl MarkCalls for WrongMarks {
    fn next(&self, held: &mut Marked, file: &[u8], space: usize) -> Said {
        if self.has("judged by next") {
            return held.next_unmarked(file, space);
        }
        self.believing(held, file, &|held| held.next(file, space))
    }

    fn mark(&self, held: &mut Marked, file: &[u8], name: &[u8]) -> Said {
        let before = held.clone();
        let said = self.believing(held, file, &|held| held.mark(file, name));
        match said {
            Said::Refused(NAME) if self.has("full before name") && held.count == MARKS => Said::Refused(FULL),
            Said::Done if self.has("eight refused") && name.len() == MAX_NAME => {
                *held = before;
                Said::Refused(NAME)
            }
            Said::Done if self.has("added twice") && before.count < MARKS && before.place(name).is_some() => {
                *held = before;
                held.add(name);
                Said::Done
            }
            said => said,
        }
    }

    fn back(&self, held: &mut Marked, file: &[u8], name: &[u8]) -> Said {
        let total = held.reading.total;
        let said = self.believing(held, file, &|held| held.back(file, name));
        if said == Said::Done && self.has("dropped on return") {
            held.count = held.place(name).map_or(0, |place| place + 1);
        }
        if said == Said::Done && self.has("after a return") {
            held.reading.total = total;
        }
        said
    }
}

impl MarkAnswers for WrongMarks {
    fn run(&self, file: Tabled, other: Tabled, by: Option<&Pattern>, operations: &[Operation]) -> Vec<Answer> {
        run_by(self, file, other, by, operations)
    }
}
