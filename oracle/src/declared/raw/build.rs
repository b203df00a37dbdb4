// What node.rs, registry.rs and mod.rs name of this module: a node record with the fields that node.rs uses, and a
// builder that is never called. The modules beside this one are private to `raw`, and `Builder` is the one name here
// that mod.rs makes public, so the harness's way to them is below it.

use crate::automaton::Automaton;
use crate::raw::common_inputs::{COMMON_INPUTS, COMMON_INPUTS_INV};
use crate::raw::registry::{Registry, RegistryEntry};
use crate::raw::{CompiledAddr, Fst, Output, Stream, Transition, EMPTY_ADDRESS, NONE_ADDRESS};

#[derive(Clone, Debug, Eq, PartialEq)]
pub struct BuilderNode {
    pub is_final: bool,
    pub final_output: Output,
    pub trans: Vec<Transition>,
}

impl Default for BuilderNode {
    fn default() -> BuilderNode {
        BuilderNode { is_final: false, final_output: Output::zero(), trans: Vec::new() }
    }
}

pub struct Builder;

// Named by mod.rs. Document 01 leaves the builder out, so there is nothing to compare.
impl Builder {
    pub fn memory() -> Builder {
        unreachable!("no file is built here")
    }

    pub fn add<K: AsRef<[u8]>>(&mut self, _: K) -> crate::error::Result<()> {
        unreachable!("no file is built here")
    }

    pub fn insert<K: AsRef<[u8]>>(&mut self, _: K, _: u64) -> crate::error::Result<()> {
        unreachable!("no file is built here")
    }

    pub fn into_fst(self) -> Fst<Vec<u8>> {
        unreachable!("no file is built here")
    }
}

// The harness's way in.
impl Builder {
    // What `compile_to` writes for this record.
    pub fn pack(
        is_final: bool,
        final_output: u64,
        transitions: impl Iterator<Item = (u8, u64, CompiledAddr)>,
        last_addr: CompiledAddr,
        addr: CompiledAddr,
    ) -> Vec<u8> {
        let trans = transitions.map(|(inp, out, addr)| Transition { inp, out: Output::new(out), addr }).collect();
        let node = BuilderNode { is_final, final_output: Output::new(final_output), trans };
        let mut bytes = Vec::new();
        node.compile_to(&mut bytes, last_addr, addr).expect("a Vec takes every byte");
        bytes
    }

    // A store of nodes over a `Registry` of so many rows of two cells, as the Rust's builder has it: the address of an equal node, or that of
    // this one, which `compile_to` writes behind the bytes.
    pub fn store(rows: usize) -> impl FnMut(bool, u64, &[(u8, u64, CompiledAddr)], &mut Vec<u8>) -> CompiledAddr {
        let mut registry = Registry::new(rows, 2);
        move |is_final, final_output, transitions, file| {
            if is_final && final_output == 0 && transitions.is_empty() {
                return EMPTY_ADDRESS;
            }
            let trans =
                transitions.iter().map(|&(inp, out, addr)| Transition { inp, out: Output::new(out), addr }).collect();
            let node = BuilderNode { is_final, final_output: Output::new(final_output), trans };
            match registry.entry(&node) {
                RegistryEntry::Found(addr) => addr,
                RegistryEntry::Rejected => unreachable!("there are rows"),
                RegistryEntry::NotFound(cell) => {
                    let first = file.len();
                    let last_addr = if first == 16 { NONE_ADDRESS } else { first - 1 };
                    node.compile_to(&mut *file, last_addr, first).expect("a Vec takes every byte");
                    cell.insert(file.len() - 1);
                    file.len() - 1
                }
            }
        }
    }

    // What `Fst::new` read: version, type, count, root and checksum.
    pub fn meta(fst: &Fst<&[u8]>) -> (u64, u64, u64, CompiledAddr, Option<u32>) {
        let meta = &fst.meta;
        (meta.version, meta.ty, meta.len as u64, meta.root_addr, meta.checksum)
    }

    // What a stream holds: address, next place and sum of each node on its stack, and the pending empty key's value.
    pub fn stack<A: Automaton>(stream: &Stream<A>) -> (Vec<(CompiledAddr, usize, u64)>, Option<u64>) {
        let inner = &stream.0;
        let stack = inner.stack.iter().map(|state| (state.node.addr(), state.trans, state.out.value())).collect();
        (stack, inner.empty_output.map(|out| out.value()))
    }

    // The key that a stream stands at.
    pub fn stands_at<'s, A: Automaton>(stream: &'s Stream<A>) -> &'s [u8] {
        &stream.0.inp
    }

    pub fn common_inputs() -> &'static [u8; 256] {
        &COMMON_INPUTS
    }

    pub fn common_inputs_inv() -> &'static [u8; 256] {
        &COMMON_INPUTS_INV
    }
}
