// Files from keys with values, over the Rust's own `compile`: the construction of Mihov and Maurel, as in the Rust's builder,
// which is not among the given files. The part of a value that all keys through a transition have in common is pushed forward
// to it, and nodes that are alike are stored once.

use std::collections::HashMap;

use crate::answers::Record;
use crate::given;
use crate::model::{self, FIRST_NODE, INDEX_ABOVE};

// A node with everything below it stored: final, final output, and input, output and address of each transition.
#[derive(Clone, Default, Eq, Hash, PartialEq)]
struct Node {
    is_final: bool,
    final_output: u64,
    transitions: Vec<(u8, u64, usize)>,
}

// A node on the path of the last key: its last transition has no address yet.
#[derive(Default)]
struct Unfinished {
    node: Node,
    last: Option<(u8, u64)>,
}

impl Unfinished {
    // Adds to every value through this node.
    fn push(&mut self, output: u64) {
        if self.node.is_final {
            self.node.final_output += output;
        }
        for t in &mut self.node.transitions {
            t.1 += output;
        }
        if let Some(last) = &mut self.last {
            last.1 += output;
        }
    }

    // The last transition leads to this address.
    fn freeze(&mut self, addr: usize) {
        if let Some((inp, out)) = self.last.take() {
            self.node.transitions.push((inp, out, addr));
        }
    }
}

pub struct Builder {
    version: u64,
    bytes: Vec<u8>,
    // the stored nodes with their addresses; none is looked for where nothing is shared
    stored: HashMap<Node, usize>,
    shares: bool,
    path: Vec<Unfinished>,
    len: u64,
}

impl Builder {
    pub fn new(version: u64, ty: u64) -> Builder {
        let mut bytes = version.to_le_bytes().to_vec();
        bytes.extend(&ty.to_le_bytes());
        Builder { version, bytes, stored: HashMap::new(), shares: true, path: vec![Unfinished::default()], len: 0 }
    }

    // Every key gets nodes of its own, but for those that it begins with.
    pub fn without_sharing(mut self) -> Builder {
        self.shares = false;
        self
    }

    // How many bytes are stored so far.
    pub fn size(&self) -> usize {
        self.bytes.len()
    }

    // The next key, which is greater than the one before.
    pub fn insert(&mut self, key: &[u8], value: u64) {
        self.len += 1;
        if key.is_empty() {
            self.path[0].node.is_final = true;
            self.path[0].node.final_output = value;
            return;
        }
        let mut left = value;
        let mut shared = 0;
        while shared < key.len() {
            let rest = match &mut self.path[shared].last {
                Some(last) if last.0 == key[shared] => {
                    let common = last.1.min(left);
                    let rest = last.1 - common;
                    last.1 = common;
                    left -= common;
                    rest
                }
                _ => break,
            };
            shared += 1;
            self.path[shared].push(rest);
        }
        assert!(shared < key.len(), "keys come in ascending order");
        self.store_from(shared);
        self.path[shared].last = Some((key[shared], left));
        for &b in &key[shared + 1..] {
            self.path.push(Unfinished { node: Node::default(), last: Some((b, 0)) });
        }
        self.path.push(Unfinished { node: Node { is_final: true, ..Node::default() }, last: None });
    }

    // Stores the nodes of the last key that are farther than the one at this place.
    fn store_from(&mut self, place: usize) {
        while self.path.len() > place + 1 {
            let last = self.path.pop().expect("there are more than place + 1");
            let addr = self.store(last.node);
            self.path.last_mut().expect("the root stays").freeze(addr);
        }
    }

    // The node's address: 0, that of a node alike, or its own.
    fn store(&mut self, node: Node) -> usize {
        if node == (Node { is_final: true, ..Node::default() }) {
            return 0;
        }
        if let Some(&addr) = self.stored.get(&node) {
            return addr;
        }
        let bytes = packed(&node, self.bytes.len(), self.version);
        self.bytes.extend(bytes);
        let addr = self.bytes.len() - 1;
        if self.shares {
            self.stored.insert(node, addr);
        }
        addr
    }

    pub fn finish(mut self, checksum: u32) -> Vec<u8> {
        self.store_from(0);
        let root = self.path.pop().expect("the root stays").node;
        let root = self.store(root);
        self.end(root, checksum)
    }

    // A file of exactly this length: before the root stand final nodes that no path reaches.
    pub fn finish_at(mut self, len: usize, checksum: u32) -> Vec<u8> {
        self.store_from(0);
        let root = self.path.pop().expect("the root stays").node;
        let end = len - trailer_size(self.version);
        let size = packed(&root, end, self.version).len();
        let mut room = end - size - self.bytes.len();
        while room > 0 {
            // 3 bytes, or 4 with a final output of 7
            let node: &[u8] = if room % 3 == 0 { &[0, 0, 0x40] } else { &[7, 1, 0, 0x40] };
            self.bytes.extend(node);
            room -= node.len();
        }
        let bytes = packed(&root, self.bytes.len(), self.version);
        assert_eq!(bytes.len(), size, "the root's deltas are as wide a little farther up");
        self.bytes.extend(bytes);
        let root = self.bytes.len() - 1;
        self.end(root, checksum)
    }

    fn end(self, root: usize, checksum: u32) -> Vec<u8> {
        whole(self.bytes, self.len, root, checksum)
    }
}

pub fn trailer_size(version: u64) -> usize {
    if version == 3 {
        20
    } else {
        16
    }
}

// Header and nodes, and after them the trailer of the header's version.
pub fn whole(mut file: Vec<u8>, len: u64, root: usize, checksum: u32) -> Vec<u8> {
    let version = model::number(&file[..8]);
    file.extend(&len.to_le_bytes());
    file.extend(&(root as u64).to_le_bytes());
    if version == 3 {
        file.extend(&checksum.to_le_bytes());
    }
    file
}

// What the Rust packs; it has no version 1, in which there is no index.
fn packed(node: &Node, first: usize, version: u64) -> Vec<u8> {
    let record = Record {
        final_flag: node.is_final as u8,
        final_output: node.final_output,
        inputs: node.transitions.iter().map(|t| t.0).collect(),
        outputs: node.transitions.iter().map(|t| t.1).collect(),
        targets: node.transitions.iter().map(|t| t.2).collect(),
    };
    assert!(first >= FIRST_NODE);
    if version == 1 && record.inputs.len() > INDEX_ABOVE {
        return model::pack_in(&record, first, version);
    }
    given::pack(&record, first).expect("the Rust packs a record that breaks no rule")
}
