// The given Rust on whole files, asked in our words: `Fst::new`, `get`, `get_key_into`, and its nodes along the chain.

use crate::answers::{Meaning, Meta, Transition};
use crate::given::caught;
use crate::raw::{Builder, Fst};
use crate::stream::Streamer;

// The Rust opens no file under this length; document 02, N3, takes shorter ones.
pub const LEAST: usize = 36;

pub struct Opened<'f> {
    pub fst: Fst<&'f [u8]>,
}

// The file, where the Rust opens it. Outside a panic it says no more than that it does not.
pub fn open(file: &[u8]) -> Option<Opened<'_>> {
    caught(|| Fst::new(file).ok()).expect("opening does not panic").map(|fst| Opened { fst })
}

impl<'f> Opened<'f> {
    pub fn meta(&self) -> Meta {
        let (version, ty, len, root, checksum) = Builder::meta(&self.fst);
        Meta { version, ty, len, root, checksum }
    }

    // The key's value, if it is held; nothing where the Rust panics.
    pub fn get(&self, key: &[u8]) -> Option<Option<u64>> {
        caught(|| self.fst.get(key).map(|out| out.value()))
    }

    // Whether a key is found, and its bytes then; nothing where the Rust panics. What is pushed before "false" is dropped.
    pub fn get_key(&self, value: u64) -> Option<Option<Vec<u8>>> {
        caught(|| {
            let mut key = Vec::new();
            if self.fst.get_key_into(value, &mut key) {
                Some(key)
            } else {
                None
            }
        })
    }

    // The first pairs of a stream, at most so many; nothing where the Rust panics.
    pub fn pairs(&self, most: usize) -> Option<Vec<(Vec<u8>, u64)>> {
        caught(|| {
            let mut stream = self.fst.stream();
            let mut pairs = Vec::new();
            while pairs.len() < most {
                match stream.next() {
                    Some((key, out)) => pairs.push((key.to_vec(), out.value())),
                    None => break,
                }
            }
            pairs
        })
    }

    // For timing: as above, into a list that is used again and with no panic caught.
    pub fn get_timed(&self, key: &[u8]) -> Option<u64> {
        self.fst.get(key).map(|out| out.value())
    }

    pub fn get_key_timed(&self, value: u64, key: &mut Vec<u8>) -> bool {
        key.clear();
        self.fst.get_key_into(value, key)
    }

    // The addresses of the nodes that a key enters.
    pub fn entered(&self, key: &[u8]) -> Vec<usize> {
        let mut node = self.fst.root();
        let mut addrs = vec![node.addr()];
        for &b in key {
            match node.find_input(b) {
                Some(i) => node = self.fst.node(node.transition_addr(i)),
                None => break,
            }
            addrs.push(node.addr());
        }
        addrs
    }

    // For timing: a node as the Rust reads it when it enters it.
    pub fn node_timed(&self, addr: usize) -> usize {
        let node = self.fst.node(addr);
        node.len() + node.is_final() as usize + node.final_output().value() as usize
    }

    pub fn root_len(&self) -> usize {
        self.fst.root().len()
    }

    // The nodes from the root down to 16 with their addresses; nothing where the Rust panics.
    pub fn chain(&self) -> Option<Vec<(usize, Meaning)>> {
        caught(|| {
            let mut nodes = Vec::new();
            let mut addr = self.fst.root().addr();
            while addr >= 16 {
                let node = self.fst.node(addr);
                let first = addr + 1 - node.as_slice().len();
                let transitions =
                    node.transitions().map(|t| Transition { inp: t.inp, out: t.out.value(), addr: t.addr }).collect();
                let (is_final, final_output) = (node.is_final(), node.final_output().value());
                nodes.push((addr, Meaning { first, is_final, final_output, transitions }));
                addr = first - 1;
            }
            nodes
        })
    }

    // For timing: the same nodes and all that they say, added up.
    pub fn walk_timed(&self) -> u64 {
        let mut all = 0u64;
        let mut addr = self.fst.root().addr();
        while addr >= 16 {
            let node = self.fst.node(addr);
            all = all.wrapping_add(node.is_final() as u64).wrapping_add(node.final_output().value());
            for t in node.transitions() {
                all = all.wrapping_add(u64::from(t.inp)).wrapping_add(t.out.value()).wrapping_add(t.addr as u64);
            }
            addr -= node.as_slice().len();
        }
        all
    }
}
