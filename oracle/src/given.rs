// The given Rust, asked in our words. It panics where it asserts and where it reads outside the file. Where the model finds
// the argument right, a panic is a difference.

use std::panic;
use std::sync::atomic::{AtomicBool, Ordering};

use crate::answers::{At, Meaning, Place, Record, Transition};
use crate::bytes;
use crate::raw::{Builder, Node};

// Whether the Rust runs: what it says when it panics is not printed, since the difference says it with the input.
static RUNS: AtomicBool = AtomicBool::new(false);

pub fn quiet_panics() {
    let say = panic::take_hook();
    panic::set_hook(Box::new(move |info| {
        if !RUNS.load(Ordering::Relaxed) {
            say(info);
        }
    }));
}

pub fn caught<T>(answer: impl FnOnce() -> T) -> Option<T> {
    RUNS.store(true, Ordering::Relaxed);
    // what a panic leaves half done is not looked at again
    let answered = panic::catch_unwind(panic::AssertUnwindSafe(answer)).ok();
    RUNS.store(false, Ordering::Relaxed);
    answered
}

pub fn pack_size(n: u64) -> u8 {
    bytes::pack_size(n)
}

pub fn unpack_uint(slice: &[u8], nbytes: usize) -> u64 {
    bytes::unpack_uint(slice, nbytes as u8)
}

// n in this many bytes, at the front of a list.
pub fn pack_uint_in(n: u64, nbytes: usize) -> Vec<u8> {
    let mut stored = Vec::new();
    bytes::pack_uint_in(&mut stored, n, nbytes as u8).expect("a Vec takes every byte");
    stored
}

pub fn common_inputs(i: u8) -> u8 {
    Builder::common_inputs()[i as usize]
}

pub fn common_inputs_inv(i: u8) -> u8 {
    Builder::common_inputs_inv()[i as usize]
}

// `common_idx` is private to node.rs: it is the low six bits of the state byte of a node with this one input, in the
// form 11 and in the form 10.
pub fn common_idx(i: u8) -> (u8, u8) {
    let next = Builder::pack(false, 0, Some((i, 0, 99)).into_iter(), 99, 100);
    let one = Builder::pack(false, 0, Some((i, 0, 50)).into_iter(), 99, 100);
    (next[next.len() - 1] % 64, one[one.len() - 1] % 64)
}

// Document 01: last_addr is F - 1, or 1 when F is 16.
pub fn pack(record: &Record, first: usize) -> Option<Vec<u8>> {
    let last_addr = if first == 16 { 1 } else { first - 1 };
    let transitions = record.transitions().map(|t| (t.inp, t.out, t.addr));
    caught(|| Builder::pack(record.is_final(), record.final_output, transitions, last_addr, first))
}

// How the Rust says that a node is stored.
pub fn state(at: At) -> &'static str {
    Node::new(at.version, at.addr, at.file).state()
}

// What the node means, and the place of each byte among its inputs; nothing where the Rust panics.
pub fn read(at: At) -> Option<(Meaning, [Place; 256])> {
    caught(|| {
        let node = Node::new(at.version, at.addr, at.file);
        // `end`, the Rust's name for F, is private; the node's bytes run from there to its address.
        let first = if at.addr == 0 { 0 } else { at.addr + 1 - node.as_slice().len() };
        let transitions: Vec<Transition> =
            node.transitions().map(|t| Transition { inp: t.inp, out: t.out.value(), addr: t.addr }).collect();
        assert_eq!(transitions.len(), node.len());
        for (i, t) in transitions.iter().enumerate() {
            assert_eq!(node.transition_addr(i), t.addr);
        }
        // where a byte is absent, what `seek_min` looks for
        let mut places = [Err(0); 256];
        for b in 0..=255u8 {
            places[usize::from(b)] = node
                .find_input(b)
                .ok_or_else(|| node.transitions().position(|t| t.inp > b).unwrap_or(node.len()));
        }
        let meaning =
            Meaning { first, is_final: node.is_final(), final_output: node.final_output().value(), transitions };
        (meaning, places)
    })
}
