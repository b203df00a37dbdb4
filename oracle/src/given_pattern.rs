// The given Rust's search between two bounds, with an automaton for a pattern that counts the transitions that are followed.

use std::cell::Cell;
use std::rc::Rc;

use crate::answers::{Bound, Pattern};
use crate::automaton::Automaton;
use crate::given::caught;
use crate::given_file::Opened;
use crate::given_reading::between;
use crate::raw::Stream;
use crate::stream::Streamer;

// The state is how many positions are fitted, or dead.
pub struct Positions {
    pattern: Pattern,
    followed: Rc<Cell<u64>>,
}

impl Automaton for Positions {
    type State = Option<usize>;

    fn start(&self) -> Option<usize> {
        Some(0)
    }

    fn is_match(&self, fitted: &Option<usize>) -> bool {
        *fitted == Some(self.pattern.positions.len())
    }

    fn can_match(&self, fitted: &Option<usize>) -> bool {
        fitted.is_some()
    }

    fn accept(&self, fitted: &Option<usize>, byte: u8) -> Option<usize> {
        self.followed.set(self.followed.get() + 1);
        let n = (*fitted)?;
        match self.pattern.positions.get(n) {
            Some(&position) if position >= 256 || position == u16::from(byte) => Some(n + 1),
            Some(_) => None,
            None if self.pattern.rest => Some(n),
            None => None,
        }
    }
}

pub struct Search<'f> {
    stream: Stream<'f, Positions>,
    followed: Rc<Cell<u64>>,
}

impl<'f> Opened<'f> {
    // A search at its start, where the Rust does not panic. What the start follows is not counted.
    pub fn search(&self, pattern: &Pattern, lower: &Bound, upper: &Bound) -> Option<Search<'_>> {
        let followed = Rc::new(Cell::new(0));
        let positions = Positions { pattern: pattern.clone(), followed: followed.clone() };
        let stream = caught(|| between(self.fst.search(positions), lower, upper))?;
        followed.set(0);
        Some(Search { stream, followed })
    }
}

impl<'f> Search<'f> {
    // The next key with its value, or that there is none; nothing where the Rust panics.
    pub fn next(&mut self) -> Option<Option<(Vec<u8>, u64)>> {
        let stream = &mut self.stream;
        caught(|| stream.next().map(|(key, out)| (key.to_vec(), out.value())))
    }

    pub fn followed(&self) -> u64 {
        self.followed.get()
    }
}
