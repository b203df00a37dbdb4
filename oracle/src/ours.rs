// Our static library, target/staticlib/liboracle_node.a (crate `oracle_node`): its exported functions, and a safe
// function over each. A slice is passed as its pointer and then its length.

use crate::answers::{Answers, At, Record};

#[link(name = "oracle_node", kind = "static")]
extern "C" {
    fn oracle_pack_size(n: u64) -> u8;

    fn oracle_unpack_uint(slice: *const u8, slice_len: usize, nbytes: usize) -> u64;

    fn oracle_common_inputs(i: u8) -> u8;

    fn oracle_common_inputs_inv(i: u8) -> u8;

    fn oracle_common_idx(i: u8) -> u8;

    fn oracle_compile(
        is_final: u8,
        final_output: u64,
        inputs: *const u8,
        inputs_len: usize,
        outputs: *const u64,
        outputs_len: usize,
        targets: *const usize,
        targets_len: usize,
        first: usize,
        out: *mut u8,
        out_len: usize,
    ) -> u64;

    fn oracle_node(
        file: *const u8,
        file_len: usize,
        version: u64,
        root: usize,
        addr: usize,
        out: *mut u64,
        out_len: usize,
    ) -> u64;

    fn oracle_transition(
        file: *const u8,
        file_len: usize,
        version: u64,
        root: usize,
        addr: usize,
        i: usize,
        out: *mut u64,
        out_len: usize,
    ) -> u64;

    fn oracle_find_input(file: *const u8, file_len: usize, version: u64, root: usize, addr: usize, b: u8) -> u64;
}

pub struct Library;

// Each slice lives through the call, and a slice that is written is lent to nobody else.
impl Answers for Library {
    fn pack_size(&self, n: u64) -> u8 {
        unsafe { oracle_pack_size(n) }
    }

    fn unpack_uint(&self, slice: &[u8], nbytes: usize) -> u64 {
        // what the function asks of its caller
        assert!(nbytes <= 8 && nbytes <= slice.len());
        unsafe { oracle_unpack_uint(slice.as_ptr(), slice.len(), nbytes) }
    }

    fn common_inputs(&self, i: u8) -> u8 {
        unsafe { oracle_common_inputs(i) }
    }

    fn common_inputs_inv(&self, i: u8) -> u8 {
        unsafe { oracle_common_inputs_inv(i) }
    }

    fn common_idx(&self, i: u8) -> u8 {
        unsafe { oracle_common_idx(i) }
    }

    fn compile(&self, record: &Record, first: usize, out: &mut [u8]) -> u64 {
        unsafe {
            oracle_compile(
                record.final_flag,
                record.final_output,
                record.inputs.as_ptr(),
                record.inputs.len(),
                record.outputs.as_ptr(),
                record.outputs.len(),
                record.targets.as_ptr(),
                record.targets.len(),
                first,
                out.as_mut_ptr(),
                out.len(),
            )
        }
    }

    fn node(&self, at: At, out: &mut [u64]) -> u64 {
        unsafe {
            oracle_node(at.file.as_ptr(), at.file.len(), at.version, at.root, at.addr, out.as_mut_ptr(), out.len())
        }
    }

    fn transition(&self, at: At, i: usize, out: &mut [u64]) -> u64 {
        unsafe {
            oracle_transition(
                at.file.as_ptr(),
                at.file.len(),
                at.version,
                at.root,
                at.addr,
                i,
                out.as_mut_ptr(),
                out.len(),
            )
        }
    }

    fn find_input(&self, at: At, b: u8) -> u64 {
        unsafe { oracle_find_input(at.file.as_ptr(), at.file.len(), at.version, at.root, at.addr, b) }
    }
}
