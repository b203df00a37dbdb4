// Files by hand, for rows and for the replay list. Bytes are nodes from 16 up; `C5` is a/0 to the node before.

use crate::builder::Builder;
use crate::generate_file::file_of;

// Version 3, root 0, length 36: the empty key with value 0.
pub fn root_0() -> Vec<u8> {
    let mut file = vec![0; 36];
    file[0] = 3;
    file
}

// a and b to address 0, and so many nodes above it, each with a and b to the one before, all of them final or none; then these. The
// keys are 2, or 3, and twice as many with each node, or one more than that.
pub fn doubled(version: u64, finals: bool, above: usize, on_top: &[u8]) -> Vec<u8> {
    let state = if finals { 0x42 } else { 0x02 };
    let mut nodes = vec![0, 0, b'b', b'a', 0x10, state];
    for _ in 0..above {
        nodes.extend(&[1, 1, b'b', b'a', 0x10, state]);
    }
    nodes.extend(on_top);
    file_of(version, &nodes)
}

// c, b and a: one of them to a/0 at 16, which leads below 16 and is not sound, and the others to a final node with output 7.
pub fn unsound_under(input: u8) -> Vec<u8> {
    let delta = |b| if b == input { 5 } else { 1 };
    let (a, b, c) = (delta(b'a'), delta(b'b'), delta(b'c'));
    file_of(3, &[0xc1, 7, 1, 0, 0x40, c, b, a, b'c', b'b', b'a', 0x10, 3])
}

// Zeros with this version and this root, where a file of this length has them.
pub fn ends(len: usize, version: u64, root: u64) -> Vec<u8> {
    let mut file = vec![0; len];
    file[..8].copy_from_slice(&version.to_le_bytes());
    let root_at = len - if version == 3 { 12 } else { 8 };
    file[root_at..root_at + 8].copy_from_slice(&root.to_le_bytes());
    file
}

// Document 01's file D: a/1, at/3, e/4.
pub fn d() -> Vec<u8> {
    file_of(3, &[0x00, 0x02, 0x00, 0x74, 0x11, 0x41, 0x04, 0x01, 0x00, 0x01, 0x65, 0x61, 0x11, 0x02])
}

// a/low to 0, and above it a/high.
pub fn sums(low: u8, high: u64) -> Vec<u8> {
    above(&[low, 0, 0x11, 0x85], high)
}

// A final node with this output, and above it a/high.
pub fn final_sums(low: u8, high: u64) -> Vec<u8> {
    above(&[low, 1, 0, 0x40], high)
}

// Above these nodes a/high, to the last of them.
pub fn above(nodes: &[u8], high: u64) -> Vec<u8> {
    let mut nodes = nodes.to_vec();
    nodes.extend(&high.to_le_bytes());
    nodes.extend(&[1, 0x18, 0x85]);
    file_of(3, &nodes)
}

// One key of n bytes.
pub fn one_key(n: usize) -> Vec<u8> {
    let mut builder = Builder::new(3, 0);
    builder.insert(&vec![b'a'; n], 5);
    builder.finish(0)
}

// A path of 256 bytes whose sum passes 2^64 - 1.
pub fn deep_and_sum() -> Vec<u8> {
    let mut nodes = vec![1, 0, 0x11, 0x85];
    nodes.extend(&u64::max_value().to_le_bytes());
    nodes.extend(&[1, 0x18, 0x85]);
    nodes.extend(&[0xc5; 254]);
    file_of(3, &nodes)
}

// Over a final node with output 7 at 19: a/1 to 17, which is no node, and above that a/2^64 - 1.
pub fn unsound_after_sum() -> Vec<u8> {
    above(&[7, 1, 0, 0x40, 1, 3, 0x11, 0x85], u64::max_value())
}

// a/first and e/second, both to 0.
pub fn two_outputs(first: u8, second: u8) -> Vec<u8> {
    file_of(3, &[second, first, 0, 0, b'e', b'a', 0x11, 0x02])
}

// These bytes, and n nodes a/0 above them, each to the one before.
pub fn path_to(nodes: &[u8], n: usize) -> Vec<u8> {
    let mut nodes = nodes.to_vec();
    nodes.extend(vec![0xc5; n]);
    file_of(3, &nodes)
}

// A node that leads to address 0, and so many less 1 above it, each to the one below; then these.
pub fn unused_path(n: usize, above: &[u8]) -> Vec<u8> {
    let mut nodes = vec![0, 0x10, 0x85];
    nodes.extend(vec![0xc5; n - 1]);
    nodes.extend(above);
    file_of(3, &nodes)
}

// A path whose outputs are 2^64 - 1 and 1; then these.
pub fn unused_sum(above: &[u8]) -> Vec<u8> {
    let mut nodes = vec![1, 0, 0x11, 0x85, 0xff, 0xff, 0xff, 0xff, 0xff, 0xff, 0xff, 0xff, 1, 0x18, 0x85];
    nodes.extend(above);
    file_of(3, &nodes)
}
