// The files of tests/list, each with the lines that the listing program is to write for it. Our program has no part in them: on an
// admitted file keys, values and the number of transitions are those of the Rust's own stream, and a refusal is the model's.

use std::collections::BTreeMap;
use std::fs;
use std::path::Path;

use crate::answers::{Bound, Kind, Record, DEEP, LARGE, NODE, ROOT, SHORT, SUM, VERSION};
use crate::builder::{self, Builder};
use crate::generate_file::{chained, distinct, file_of, header, nodes_of, word};
use crate::given_file;
use crate::hand_made::{self, ends, unused_path, unused_sum};
use crate::model;
use crate::model_file::{self, Admitted};
use crate::prng::Prng;

const FOLDER: &str = "tests/list/files";
const README: &str = "tests/list/README.md";
// The longest file that is listed.
const MOST: usize = 4_096;
// No refusal.
const ADMITTED: u64 = 0;
// The refusal of an admitted file with too many keys.
const COUNT: u64 = 19;
const TOP: u64 = u64::max_value();

const ALL: Bound = Bound { kind: Kind::Unbounded, bytes: Vec::new() };

// ---- the files

struct Row {
    name: &'static str,
    // what it is made for: ADMITTED, or a refusal
    verdict: u64,
    shows: &'static str,
    file: Vec<u8>,
}

fn row(name: &'static str, verdict: u64, shows: &'static str, file: Vec<u8>) -> Row {
    Row { name, verdict, shows, file }
}

fn keyed(version: u64, keys: &[(&[u8], u64)]) -> Vec<u8> {
    let mut builder = Builder::new(version, 0);
    for (key, value) in keys {
        builder.insert(key, *value);
    }
    builder.finish(0)
}

// Document 01's D with its count of 3, in this version.
fn d_in(version: u64) -> Vec<u8> {
    let mut file = header(version, 0);
    file.extend(&hand_made::d()[16..30]);
    builder::whole(file, 3, 29, 0)
}

// n bytes, spread over all values.
fn spread(n: usize) -> impl Iterator<Item = u8> {
    (0..n).map(move |i| (i * 256 / n) as u8)
}

// A root with n transitions, every fifth of them to a final node that goes on.
fn fan(version: u64, n: usize, empty_key: bool) -> Vec<u8> {
    let mut builder = Builder::new(version, 0);
    if empty_key {
        builder.insert(b"", 1_000);
    }
    for (i, b) in spread(n).enumerate() {
        builder.insert(&[b], 3 * i as u64);
        if i % 5 == 0 {
            builder.insert(&[b, b't'], 3 * i as u64 + 1);
        }
    }
    builder.finish(0)
}

// The bytes of one node at 16 with n transitions, all to 0. With 33 to 63 the index ends two bytes before its end.
fn one_node(n: usize) -> Vec<u8> {
    let record = Record {
        inputs: spread(n).collect(),
        outputs: (1..=n as u64).collect(),
        targets: vec![0; n],
        ..Record::default()
    };
    model::pack(&record, 16)
}

// A path of these bytes, each with this output and to the node before.
fn path(bytes: &[u8], output: u64) -> Vec<u8> {
    let mut file = header(3, 0);
    for &b in bytes.iter().rev() {
        let first = file.len();
        let target = if first == 16 { 0 } else { first - 1 };
        let record = Record { inputs: vec![b], outputs: vec![output], targets: vec![target], ..Record::default() };
        file.extend(model::pack(&record, first));
    }
    let root = file.len() - 1;
    builder::whole(file, 1, root, 0)
}

// n words, without doubles somewhat fewer, with ascending values.
fn words(version: u64, n: usize) -> Builder {
    let mut prng = Prng::new(71);
    let mut builder = Builder::new(version, 9);
    let mut value = 0;
    for key in distinct(n, || word(&mut prng)) {
        value += 1 + prng.next() % 900;
        builder.insert(&key, value);
    }
    builder
}

// Words that fill this length but for some bytes below the root, which are final nodes that no path reaches.
fn filled(len: usize) -> Vec<u8> {
    let mut n = 100;
    while words(3, n + 10).finish(0).len() + 20 <= len {
        n += 10;
    }
    words(3, n).finish_at(len, 0)
}

// Keys of 1 to 3 bytes out of 22, numbered in order: all beginnings of one length share a node.
fn shared() -> Vec<u8> {
    let letters = b"acdefgiklmnoprstuvwxyz";
    let mut builder = Builder::new(3, 0);
    let mut value = 0;
    let mut insert = |key: &[u8]| {
        builder.insert(key, value);
        value += 1;
    };
    for &a in letters {
        insert(&[a]);
        for &b in letters {
            insert(&[a, b]);
            for &c in letters {
                insert(&[a, b, c]);
            }
        }
    }
    builder.finish(0)
}

// So many nodes, each with a and b to the one before, the first to address 0, all with this state byte: 2 keys, or 3 where they are
// final, and twice as many with each node more, or one more than that.
fn doubled(n: usize, state: u8) -> Vec<u8> {
    let mut nodes = vec![0, 0, b'b', b'a', 0x10, state];
    for _ in 1..n {
        nodes.extend(&[1, 1, b'b', b'a', 0x10, state]);
    }
    nodes
}

// The ends of each count of decimal digits from 1 to 20, each the value of a key.
fn every_length() -> Vec<u8> {
    let mut values = vec![0];
    let mut power = 1;
    for _ in 0..19 {
        power *= 10;
        values.extend(&[power - 1, power]);
    }
    values.push(TOP);
    let mut builder = Builder::new(3, 0);
    for (b, value) in (b'A'..).zip(values) {
        builder.insert(&[b], value);
    }
    builder.finish(0)
}

// The first chain of nodes in layouts drawn at random (generate::any_layout) that is admitted and neither short nor long to list.
fn drawn(version: u64) -> Vec<u8> {
    let mut prng = Prng::new(40 + version);
    loop {
        let file = chained(&mut prng, version, 14, 7, false).file;
        if let Ok(found) = model_file::admitted(&file) {
            let mut steps = 1_500;
            let listed = model_file::reach_by_paths(&nodes_of(&found), found.meta.root, &mut steps).is_some();
            if listed && steps < 1_000 && file.len() <= MOST {
                return file;
            }
        }
    }
}

fn admitted_rows() -> Vec<Row> {
    let yes = |name, shows, file| row(name, ADMITTED, shows, file);
    let a_to_255 = [b'a'; 255];
    let long: Vec<(&[u8], u64)> =
        vec![(b"a", 9), (&a_to_255[..128], 8), (&a_to_255[..254], 7), (&a_to_255, 300), (b"ab", 70_000), (b"b", 0)];
    let bytes: Vec<u8> = (0..=255).collect();
    vec![
        yes("document-01-D", "document 01's file D", d_in(3)),
        yes("version-1", "the nodes of D in version 1, without a checksum", d_in(1)),
        yes("version-2", "the nodes of D in version 2, without a checksum", d_in(2)),
        yes("words-version-1", "words with ascending values, version 1: no index", words(1, 200).finish(5)),
        yes("words-version-2", "the same words, version 2", words(2, 200).finish(5)),
        yes("words-version-3", "the same words, version 3", words(3, 200).finish(5)),
        yes("root-0", "root 0: version 3, length 36; the empty key alone", hand_made::root_0()),
        yes("no-bytes", "a blank card: no byte at all", Vec::new()),
        yes("32-bytes-version-1", "header and trailer of version 1, root 0; the empty key alone", ends(32, 1, 0)),
        yes("32-bytes-version-2", "the same in version 2", ends(32, 2, 0)),
        yes("35-bytes-no-key", "version 2, three bytes of nodes: no key", file_of(2, &[0, 0, 0])),
        yes("35-bytes-empty-key", "version 1, three bytes of nodes: the empty key", file_of(1, &[0, 0, 0x40])),
        yes("35-bytes-one-key", "version 2, three bytes of nodes: one key", file_of(2, &[0, 0x10, 0x85])),
        yes("no-keys", "a root that is not final and has no transition", file_of(3, &[0, 0, 0])),
        yes(
            "no-keys-above-other-nodes",
            "the same above a final node, which no path reaches",
            file_of(3, &[7, 1, 0, 0x40, 0, 0, 0]),
        ),
        yes("shortest-version-1", "36 bytes in version 1, four of them nodes", file_of(1, &[7, 1, 0, 0x40])),
        yes("empty-key-alone", "the empty key alone, with a root that is stored", file_of(3, &[0, 0, 0x40])),
        yes("empty-key-alone-final-output", "its value is the final output", file_of(3, &[7, 1, 0, 0x40])),
        yes("empty-key-alone-largest-value", "its value is 2^64 - 1", keyed(3, &[(b"", TOP)])),
        yes("empty-key-and-others", "the empty key before others", keyed(3, &[(b"", 0), (b"a", 1), (b"at", 3)])),
        yes(
            "empty-key-and-others-final-output",
            "the empty key has a final output, which no other key gets",
            keyed(3, &[(b"", 260), (b"\x00", 0), (b"a", 2), (b"a\xff", 4)]),
        ),
        yes(
            "empty-key-and-others-largest-value",
            "the empty key has 2^64 - 1, and other keys small values",
            keyed(2, &[(b"", TOP), (b"a", 0), (b"b", 5)]),
        ),
        yes("empty-key-and-an-index", "a final root with 33 transitions", fan(3, 33, true)),
        yes("transitions-32", "32 transitions: no index", fan(3, 32, false)),
        yes("transitions-33", "33 transitions: an index", fan(3, 33, false)),
        yes("transitions-33-version-1", "33 transitions in version 1: no index", fan(1, 33, false)),
        yes("transitions-33-version-2", "33 transitions in version 2: an index", fan(2, 33, false)),
        yes("transitions-63", "63 transitions: the last count in the state byte", fan(3, 63, false)),
        yes("transitions-64", "64 transitions: a count byte", fan(3, 64, false)),
        yes("transitions-255", "255 transitions: the count byte 255", fan(3, 255, false)),
        yes(
            "transitions-256",
            "every byte value: the count byte 1, and an index in which 255 is a place",
            fan(3, 256, false),
        ),
        yes("transitions-256-version-1", "every byte value without an index", fan(1, 256, false)),
        yes("transitions-256-version-2", "every byte value with an index, without a checksum", fan(2, 256, false)),
        yes(
            "one-transition-form-11-low",
            "the bytes 00 to 7f as nodes of the form 11, common or spelled",
            path(&bytes[..128], 0),
        ),
        yes("one-transition-form-11-high", "the bytes 80 to ff as nodes of the form 11", path(&bytes[128..], 0)),
        yes(
            "one-transition-form-10-low",
            "the bytes 00 to 7f as nodes of the form 10, each with output 3",
            path(&bytes[..128], 3),
        ),
        yes("one-transition-form-10-high", "the bytes 80 to ff as nodes of the form 10", path(&bytes[128..], 3)),
        yes("key-255-bytes", "one key of 255 bytes", hand_made::one_key(255)),
        yes("key-255-bytes-and-others", "the same among keys that begin it and others", keyed(3, &long)),
        yes("path-255-to-a-stored-node", "255 bytes to a stored final node", hand_made::path_to(&[0, 0, 0x40], 255)),
        yes("largest-value-by-outputs", "2^64 - 1 as the sum of two outputs", hand_made::sums(1, TOP - 1)),
        yes(
            "largest-value-by-final-output",
            "2^64 - 1 as an output plus a final output",
            hand_made::final_sums(1, TOP - 1),
        ),
        yes(
            "values-of-every-length",
            "the least and the largest value of each count of digits, 1 to 20",
            every_length(),
        ),
        yes("shared-nodes", "over 10,000 keys in three nodes", shared()),
        yes("type-count-checksum", "type, count and checksum, which are not judged", {
            let mut file = header(3, TOP);
            file.extend(&d_in(3)[16..30]);
            builder::whole(file, TOP, 29, u32::max_value())
        }),
        yes("exactly-4096-bytes", "the longest file that is listed", filled(MOST)),
    ]
}

// OPEN-POINTS 1 and 2: what a packer would not write so, and what is sound.
fn unusual_rows() -> Vec<Row> {
    let yes = |name, shows, file| row(name, ADMITTED, shows, file);
    let mut spelled_count = one_node(63);
    spelled_count.pop();
    spelled_count.extend(&[63, 0]);
    let mut entries = one_node(40);
    let index = entries.len() - 2 - 256;
    for (i, entry) in entries[index..index + 256].iter_mut().enumerate() {
        if *entry == 255 {
            *entry = 40 + (i % 216) as u8;
        }
    }
    let mut far = [7, 1, 0, 0x40].repeat(71);
    far.extend(&[0x2c, 0x01, 0x20, 0x85]);
    vec![
        yes(
            "unusual-stored-final-node",
            "`00 00 40` as a target and a chain node of its own",
            file_of(3, &[0, 0, 0x40, 0xc5]),
        ),
        yes(
            "unusual-delta-size-8-of-none",
            "delta size 8 on a node without transitions",
            file_of(3, &[0x80, 0, 0x40, 0xc5]),
        ),
        yes(
            "unusual-root-without-keys",
            "delta size 8 on a root without transitions and not final",
            file_of(2, &[0, 0, 0x40, 0x80, 0, 0]),
        ),
        yes(
            "unusual-count-byte-2",
            "two transitions with a count byte",
            file_of(3, &[2, 1, 0, 0, b'e', b'a', 0x11, 2, 0]),
        ),
        yes("unusual-count-byte-63", "63 transitions with a count byte", file_of(3, &spelled_count)),
        yes("unusual-index-entries", "index entries of absent bytes anywhere from the count up", file_of(3, &entries)),
        yes(
            "unusual-wide-sizes",
            "output and delta of 8 bytes where less would do",
            file_of(3, &[5, 0, 0, 0, 0, 0, 0, 0, 0, 0, 0, 0, 0, 0, 0, 0, 0x88, 0x85]),
        ),
        yes(
            "unusual-stored-zero-outputs",
            "a final node with two transitions that stores outputs of 0",
            file_of(3, &[0, 0, 0, 0, 0, 0, 0, 0, b'e', b'a', 0x12, 0x42]),
        ),
        yes("unusual-one-as-many", "one transition in the form for many", file_of(3, &[0, b'a', 0x10, 1])),
        yes(
            "unusual-common-input-spelled",
            "common inputs stored beside the state byte, in both forms",
            file_of(3, &[0, 0x10, b'a', 0x80, b'e', 0xc0]),
        ),
        yes("unusual-delta-equal-to-F", "a delta equal to F: target 0", file_of(3, &[0x10, 0x10, 0x85])),
        yes(
            "unusual-delta-equal-to-F-of-two-bytes",
            "the same at F 300, above nodes that no path reaches",
            file_of(3, &far),
        ),
        yes("unusual-layouts-version-1", "nodes in layouts drawn at random, version 1", drawn(1)),
        yes("unusual-layouts-version-2", "nodes in layouts drawn at random, version 2", drawn(2)),
        yes("unusual-layouts-version-3", "nodes in layouts drawn at random, version 3", drawn(3)),
    ]
}

// Nodes that no path from the root reaches: neither their paths nor their sums count.
fn unused_rows() -> Vec<Row> {
    let yes = |name, shows, file| row(name, ADMITTED, shows, file);
    // a final root above another file's nodes, none of which it leads to
    let aside = |file: &[u8]| file_of(3, &[&file[16..file.len() - 20], &[7, 1, 0, 0x40]].concat());
    let b = [0, 0x10, 0x9a];
    vec![
        yes("unused-path-of-256", "a path of 256 bytes that no key takes", unused_path(256, &b)),
        yes(
            "unused-path-below-a-final-node",
            "the same below two used nodes",
            unused_path(256, &[7, 1, 0, 0x40, 0xc5]),
        ),
        yes("unused-sum", "outputs 2^64 - 1 and 1 on a path that no key takes", unused_sum(&b)),
        yes("unused-path-beside-a-key", "a key of 256 bytes put aside", aside(&hand_made::one_key(256))),
        yes("unused-sum-beside-a-key", "two outputs put aside", aside(&hand_made::sums(1, TOP))),
        yes(
            "unused-node-shares-a-target",
            "a final node that a used and an unused node lead to",
            file_of(3, &[7, 1, 0, 0x40, 1, 1, 0x11, 0x85, 5, 5, 0x11, 0x9a, 1, 1, 0x11, 0x8a]),
        ),
        yes(
            "unused-but-the-root",
            "every node but the root is unused",
            file_of(2, &[0, 0x10, 0x85, 0xc5, 0xc5, 0, 0, 0x40, 0, 0x10, 0x9a]),
        ),
        yes(
            "unused-above-a-node-reached-twice",
            "a node reached in two ways, to which an unused one leads too",
            file_of(1, &[0, 0x10, 0x85, 0xc5, 0xc6, 3, 2, b'b', b'a', 0x10, 0x02]),
        ),
        yes(
            "unused-too-many-keys",
            "2^64 keys from a node that no path reaches",
            file_of(3, &[&doubled(64, 2)[..], &b].concat()),
        ),
    ]
}

fn refused_rows() -> Vec<Row> {
    let d_with = |at: usize, b: u8| {
        let mut file = d_in(3);
        file[at] = b;
        file
    };
    // version 3 and this root, in so many bytes
    let rooted = |root: u64, len: usize| {
        let mut file = header(3, 0);
        file.resize(len - 12, 0);
        file.extend(&root.to_le_bytes());
        file.extend(&[0; 4]);
        file
    };
    let mut one_more = filled(MOST);
    one_more.push(0);
    let mut longer = filled(MOST);
    longer.resize(5_000, 0);
    vec![
        row("refused-1-1-byte", SHORT, "one byte", vec![1]),
        row("refused-1-31-bytes", SHORT, "one byte under header and trailer of version 1", ends(31, 1, 0)),
        row("refused-1-32-bytes-version-3", SHORT, "version 3 has a checksum, and needs 36 bytes", ends(32, 3, 0)),
        row("refused-1-35-bytes-version-3", SHORT, "the same, one byte under", ends(35, 3, 14)),
        row("refused-2-32-zeros", VERSION, "the shortest file of another version", vec![0; 32]),
        row("refused-2-33-zeros", VERSION, "one byte more", vec![0; 33]),
        row("refused-2-35-zeros", VERSION, "document 01's example, which document 02 changed from 1", vec![0; 35]),
        row("refused-2-version-0", VERSION, "document 01's example, 36 zeros", vec![0; 36]),
        row("refused-2-version-4", VERSION, "D with version 4", d_with(0, 4)),
        row("refused-2-version-high-byte", VERSION, "D with version 2^56 + 3", d_with(7, 1)),
        row("refused-3-root-17", ROOT, "document 01's example", rooted(17, 39)),
        row("refused-3-root-15", ROOT, "root plus 21 is the length, and the root is below 16", rooted(15, 36)),
        row("refused-3-root-0-in-39-bytes", ROOT, "root 0 with nodes", rooted(0, 39)),
        row("refused-3-root-0-version-2", ROOT, "root 0 needs 32 bytes in version 2", ends(36, 2, 0)),
        row("refused-3-root-0-in-35-bytes", ROOT, "the same in 35 bytes", ends(35, 2, 0)),
        row("refused-3-32-bytes-root-15", ROOT, "32 bytes have root 0", ends(32, 1, 15)),
        row("refused-3-32-bytes-root-16", ROOT, "the same", ends(32, 2, 16)),
        row("refused-3-32-bytes-root-17", ROOT, "the same", ends(32, 1, 17)),
        row("refused-3-root-off-by-one", ROOT, "D with root 28", d_with(38, 28)),
        row("refused-3-root-high-byte", ROOT, "D with root 2^56 + 29", d_with(45, 1)),
        row("refused-4-4097-bytes", LARGE, "sound in all but its length", filled(MOST + 1)),
        row("refused-4-one-byte-more", LARGE, "exactly-4096-bytes with a byte after it", one_more),
        row("refused-4-4097-zeros", LARGE, "4 comes before 2", vec![0; MOST + 1]),
        row("refused-4-5000-bytes", LARGE, "exactly-4096-bytes with 904 bytes after it", longer),
    ]
}

// Files that open and are not admitted.
fn not_admitted_rows() -> Vec<Row> {
    let no = |name, shows, nodes: &[u8]| row(name, NODE, shows, file_of(3, nodes));
    let deep = |name, shows, file| row(name, DEEP, shows, file);
    let sum = |name, shows, file| row(name, SUM, shows, file);
    let with_entry = |b: usize, entry: u8| {
        let mut node = one_node(33);
        let index = node.len() - 2 - 256;
        node[index + b] = entry;
        node
    };
    let d = hand_made::d()[16..30].to_vec();
    // 256 bytes, and a sum past 2^64 - 1, above a node that is unsound
    let mut all_three = vec![0, 0, 0];
    all_three.extend(&hand_made::deep_and_sum()[16..]);
    all_three.truncate(all_three.len() - 20);
    vec![
        row("refused-5-33-bytes", NODE, "a node of one byte at 16, version 2", file_of(2, &[0xc5])),
        row("refused-5-34-bytes", NODE, "two bytes of nodes, version 1", file_of(1, &[0, 0x40])),
        no("refused-5-first-node", "document 01's example: the target would be 15", &[0xc1]),
        no("refused-5-begins-below-16", "a node whose bytes begin before 16", &[0, 0x10, 5]),
        no("refused-5-output-size-9", "an output of 9 bytes", &[0, 0, 0, 0, 0, 0, 0, 0, 0, 0, 0x19, 0x85]),
        no("refused-5-delta-size-9", "a delta of 9 bytes", &[0, 0, 0, 0, 0, 0, 0, 0, 0, 0x90, 0x85]),
        no("refused-5-delta-size-0", "a transition without a delta", &[0, 0x85]),
        no("refused-5-inputs-descend", "inputs `65 61`", &[0, 0, b'a', b'e', 0x10, 2]),
        no("refused-5-inputs-equal", "inputs `61 61`", &[0, 0, b'a', b'a', 0x10, 2]),
        no("refused-5-entry-of-an-input", "an index entry that is not the place of its byte", &with_entry(0, 1)),
        no("refused-5-entry-of-an-absent-byte", "an absent byte with an entry below the count", &with_entry(1, 32)),
        no("refused-5-delta-above-F", "a delta of 17 at F 16", &[0x11, 0x10, 0x85]),
        no("refused-5-target-below-16", "a target of 15", &[7, 1, 0, 0x40, 5, 0x10, 0x85]),
        no("refused-5-neither-final-nor-transition", "a useless node that is not the root", &[0, 0, 0, 0xc5]),
        no("refused-5-unreached-node", "the same, and no path reaches it", &[0, 0, 0, 7, 1, 0, 0x40]),
        no("refused-5-unused-node", "an unused node whose target would be 15", &[0xc1, 0, 0x10, 0x9a]),
        no(
            "refused-5-unused-target",
            "an unused node whose target lies inside another",
            &[0, 0x10, 0x85, 2, 0x10, 0x9a, 0, 0x10, 0x9a],
        ),
        no("refused-5-broken-chain", "a byte below the nodes of D that no node takes", &[&[0], &d[..]].concat()),
        no(
            "refused-5-target-off-the-chain",
            "a target that reads as a sound node and lies inside another",
            &[0, 0, 0x40, 0, 0x13, 0x85, 4, 0x10, 0x85],
        ),
        row(
            "refused-5-and-a-sum",
            NODE,
            "a target off the chain, and a sum past 2^64 - 1",
            hand_made::unsound_after_sum(),
        ),
        no("refused-5-and-all-else", "an unsound node, a path of 256 bytes and a sum past 2^64 - 1", &all_three),
        deep("refused-6-key-256-bytes", "one key of 256 bytes", hand_made::one_key(256)),
        deep("refused-6-chain-of-256", "the chain of 256 nodes of `unused-path-of-256`, used", unused_path(256, &[])),
        deep("refused-6-and-a-sum", "a path of 256 bytes whose sum passes 2^64 - 1", hand_made::deep_and_sum()),
        deep("refused-6-and-too-many-keys", "a path of 256 bytes and 2^256 keys", file_of(3, &doubled(256, 2))),
        sum("refused-7-outputs", "outputs 2^64 - 1 and 1", hand_made::sums(1, TOP)),
        sum("refused-7-sum-of-two-nodes", "the nodes of `unused-sum`, used", unused_sum(&[])),
        sum("refused-7-final-output", "output 2^64 - 1 and final output 1", hand_made::final_sums(1, TOP)),
    ]
}

// Admitted files with over 2^64 - 1 keys.
fn too_many_rows() -> Vec<Row> {
    let many = |name, shows, nodes: &[u8]| row(name, COUNT, shows, file_of(3, nodes));
    vec![
        many("refused-19-too-many-keys", "2^64 keys in 64 nodes", &doubled(64, 2)),
        many("refused-19-final-nodes", "2^65 - 1 keys in 64 final nodes", &doubled(64, 0x42)),
    ]
}

// ---- their lines

// Keys with values in order, and how many transitions are followed.
type Listing = (Vec<(Vec<u8>, u64)>, u64);

// The Rust's own stream; nothing where it does not open the file, or panics.
fn by_rust(file: &[u8]) -> Option<Listing> {
    let opened = given_file::open(file)?;
    let mut range = opened.range(&ALL, &ALL)?;
    let mut keys = Vec::new();
    while let Some(key) = range.next()? {
        keys.push(key);
    }
    Some((keys, range.followed()))
}

// The held keys by following every path from the root, which the Rust's are held to.
fn by_paths(found: &Admitted) -> Listing {
    // no bytes, no node
    if found.meta.version == 0 {
        return (Vec::new(), 0);
    }
    let nodes = nodes_of(found);
    let (mut keys, mut entered) = (Vec::new(), 0);
    let mut paths = vec![(Vec::new(), found.meta.root, 0)];
    while let Some((key, addr, sum)) = paths.pop() {
        entered += 1;
        // address 0 is a final node with no transitions and output 0
        let (is_final, final_output, transitions) = match nodes.get(&addr) {
            Some(node) => (node.is_final, node.final_output, &node.transitions[..]),
            None => (true, 0, &[][..]),
        };
        if is_final {
            keys.push((key.clone(), sum + final_output));
        }
        for t in transitions.iter().rev() {
            paths.push(([&key[..], &[t.inp]].concat(), t.addr, sum + t.out));
        }
    }
    // the root is entered without a transition
    (keys, entered - 1)
}

// The number of held keys, up to 2^128 - 1: a node has those of its targets, which lie below it, and one if it is final.
fn held(found: &Admitted) -> u128 {
    // address 0 is a final node with no transitions; no bytes, no node
    let mut keys = BTreeMap::new();
    keys.insert(0, u128::from(found.meta.version != 0));
    for (addr, node, _) in found.chain.iter().rev() {
        let below = node.transitions.iter().map(|t| keys[&t.addr]);
        keys.insert(*addr, below.fold(u128::from(node.is_final), u128::saturating_add));
    }
    keys[&found.meta.root]
}

// Document 01's form: a line for each key, and the last line.
fn lines((keys, followed): &Listing) -> String {
    let mut lines = String::new();
    for (key, value) in keys {
        let hexadecimal: String = key.iter().map(|b| format!("{:02x}", b)).collect();
        lines += if key.is_empty() { "-" } else { &hexadecimal };
        lines += &format!(" {}\n", value);
    }
    lines + &format!("end {} {}\n", keys.len(), followed)
}

// What the program is to write, or why the row is not what it is made for.
fn expected(row: &Row) -> Result<String, String> {
    let judged = match model_file::admitted(&row.file) {
        _ if row.file.len() > MOST => Err(LARGE),
        Ok(found) if held(&found) > u128::from(TOP) => Err(COUNT),
        judged => judged,
    };
    let verdict = judged.as_ref().err().copied().unwrap_or(ADMITTED);
    if verdict != row.verdict {
        return Err(format!("{}: made for {}, judged {} by the model", row.name, row.verdict, verdict));
    }
    match judged {
        Err(why) => Ok(format!("refused {}\n", why)),
        // the Rust opens none under 36 bytes
        Ok(found) if row.file.len() < given_file::LEAST => Ok(lines(&by_paths(&found))),
        Ok(found) => match by_rust(&row.file) {
            Some(listing) if listing == by_paths(&found) => Ok(lines(&listing)),
            _ => Err(format!("{}: the Rust's stream is not the model's paths", row.name)),
        },
    }
}

// ---- the stored ones

// Every file of the folder by its name, and the table of README.md.
fn made() -> Result<(BTreeMap<String, Vec<u8>>, String), String> {
    let mut files = BTreeMap::new();
    let mut table = String::from("| File | Bytes | Last line | Shows |\n|---|---|---|---|\n");
    for rows in
        vec![admitted_rows(), unusual_rows(), unused_rows(), refused_rows(), not_admitted_rows(), too_many_rows()]
    {
        for row in rows {
            let out = expected(&row)?;
            let last = out.lines().last().unwrap_or("");
            table += &format!("| `{}` | {} | `{}` | {} |\n", row.name, row.file.len(), last, row.shows);
            if files.insert(format!("{}.fst", row.name), row.file).is_some() {
                return Err(format!("{}: two files of this name", row.name));
            }
            files.insert(format!("{}.out", row.name), out.into_bytes());
        }
    }
    Ok((files, table))
}

fn stored() -> std::io::Result<BTreeMap<String, Vec<u8>>> {
    let mut files = BTreeMap::new();
    for entry in fs::read_dir(FOLDER)? {
        let entry = entry?;
        files.insert(entry.file_name().to_string_lossy().into_owned(), fs::read(entry.path())?);
    }
    Ok(files)
}

fn hold() -> Result<usize, String> {
    let (made, table) = made()?;
    let stored = stored().map_err(|error| format!("{}: {}", FOLDER, error))?;
    if let Some(name) = stored.keys().chain(made.keys()).find(|&name| stored.get(name) != made.get(name)) {
        return Err(format!("{}/{} is not what `oracle/run listing` makes", FOLDER, name));
    }
    if !fs::read_to_string(README).map_or(false, |text| text.contains(&table)) {
        return Err(format!("{} has not the table that `oracle/run listing` prints", README));
    }
    Ok(made.len() / 2)
}

fn write() -> Result<String, String> {
    let (made, table) = made()?;
    for (name, bytes) in made {
        let path = Path::new(FOLDER).join(name);
        fs::write(&path, bytes).map_err(|error| format!("{}: {}", path.display(), error))?;
    }
    Ok(table)
}

// The stored files and outputs are those that would be made now.
pub fn kept() -> bool {
    match hold() {
        Ok(n) => println!("listings\n    {} files and their outputs as made", n),
        Err(why) => {
            println!("oracle: {}", why);
            return false;
        }
    }
    true
}

// Writes the files and outputs, and prints the table for README.md.
pub fn make() -> bool {
    match write() {
        Ok(table) => print!("{}", table),
        Err(why) => {
            println!("oracle: {}", why);
            return false;
        }
    }
    true
}
