// The given Rust's ranges, asked in our words: a stream between two bounds with an automaton that matches everything, as
// `AlwaysMatch`, and counts the transitions that are followed.

use std::cell::Cell;
use std::rc::Rc;

use crate::answers::{Bound, Kind, Level};
use crate::automaton::{AlwaysMatch, Automaton};
use crate::given::caught;
use crate::given_file::Opened;
use crate::raw::{Builder, Stream, StreamBuilder};
use crate::stream::{IntoStreamer, Streamer};

pub struct Counting {
    followed: Rc<Cell<u64>>,
}

impl Automaton for Counting {
    type State = ();

    fn start(&self) {}

    fn is_match(&self, _: &()) -> bool {
        true
    }

    fn can_match(&self, _: &()) -> bool {
        true
    }

    fn accept(&self, _: &(), _: u8) {
        self.followed.set(self.followed.get() + 1);
    }
}

pub struct Range<'f> {
    stream: Stream<'f, Counting>,
    followed: Rc<Cell<u64>>,
}

pub fn between<'f, A: Automaton>(all: StreamBuilder<'f, A>, lower: &Bound, upper: &Bound) -> Stream<'f, A> {
    let above = match lower.kind {
        Kind::Included => all.ge(&lower.bytes),
        Kind::Excluded => all.gt(&lower.bytes),
        Kind::Unbounded => all,
    };
    let both = match upper.kind {
        Kind::Included => above.le(&upper.bytes),
        Kind::Excluded => above.lt(&upper.bytes),
        Kind::Unbounded => above,
    };
    both.into_stream()
}

impl<'f> Opened<'f> {
    // A range at its start, where the Rust does not panic. What the start follows is not counted.
    pub fn range(&self, lower: &Bound, upper: &Bound) -> Option<Range<'_>> {
        let followed = Rc::new(Cell::new(0));
        let stream = caught(|| between(self.fst.search(Counting { followed: followed.clone() }), lower, upper))?;
        followed.set(0);
        Some(Range { stream, followed })
    }

    // How many keys a range hands out, at most so many.
    pub fn keys_in(&self, lower: &Bound, upper: &Bound, most: u64) -> Option<u64> {
        caught(|| {
            let mut range = between(self.fst.range(), lower, upper);
            let mut keys = 0;
            while keys < most && range.next().is_some() {
                keys += 1;
            }
            keys
        })
    }

    // For timing: as a caller would have it, with no panic caught.
    pub fn range_timed(&self, lower: &Bound, upper: &Bound) -> Stream<'_, AlwaysMatch> {
        between(self.fst.range(), lower, upper)
    }
}

impl<'f> Range<'f> {
    // The next key with its value, or that there is none; nothing where the Rust panics.
    pub fn next(&mut self) -> Option<Option<(Vec<u8>, u64)>> {
        let stream = &mut self.stream;
        caught(|| stream.next().map(|(key, out)| (key.to_vec(), out.value())))
    }

    pub fn followed(&self) -> u64 {
        self.followed.get()
    }

    // The stream, and what counts its transitions.
    pub fn apart(self) -> (Stream<'f, Counting>, Rc<Cell<u64>>) {
        (self.stream, self.followed)
    }

    pub fn pending(&self) -> Option<u64> {
        Builder::stack(&self.stream).1
    }

    // The stack in our words. The byte that led to a level is that of the key that the stream stands at.
    pub fn levels(&self) -> Vec<Level> {
        let (stack, _) = Builder::stack(&self.stream);
        let key = Builder::stands_at(&self.stream);
        assert!(stack.is_empty() || stack.len() == key.len() + 1, "a level for each byte, and the root's");
        let level = |(i, &(addr, place, sum)): (usize, &(usize, usize, u64))| Level {
            addr: addr as u32,
            inp: if i == 0 { 0 } else { key[i - 1] },
            place: place as u16,
            sum,
        };
        stack.iter().enumerate().map(level).collect()
    }
}
