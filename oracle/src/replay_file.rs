// The replay list of whole files, for a program that replays them with no Rust at hand: what opening and admission answer, and
// lookups. Values and keys on admitted files are the Rust's answers, everything else is the model's. crates/replay_fst/README.md
// has its layout.

use crate::answers::{HELD, KEY_REFUSED, NOT_HELD, NO_CHECKSUM, NO_KEY, SPACE};
use crate::generate_file::{damage, file_of, nodes_of, path, small, variant};
use crate::given_file::{self, Opened};
use crate::hand_made;
use crate::model_file::{self, Admitted, Answer, MAX_PATH};
use crate::prng::Prng;
use crate::replay_list::{List, FILE};

// The kinds of record beside the file.
const OPENING: u8 = 2;
const ADMISSION: u8 = 3;
const KEY: u8 = 4;
const VALUE: u8 = 5;

// The longest file of the list, and how many files there are beside those by hand: sound ones, and as many damaged.
pub const MOST: usize = 600;
const FILES: usize = 170;

// The names of what admission answers, for counts; refusals in the order of their numbers.
const ADMISSIONS: [&str; 9] = [
    "files admitted",
    "files refused: 1 SHORT",
    "files refused: 2 VERSION",
    "files refused: 3 ROOT",
    "files refused: 4 LARGE",
    "files refused: 5 NODE",
    "files refused: 6 DEEP",
    "files refused: 7 SUM",
    "files refused: 8 SPACE",
];

impl List {
    // The file, with what opening answers, and admission in tables of so many entries.
    fn file(&mut self, file: &[u8], lent: usize) -> Option<Admitted> {
        assert!(file.len() <= MOST);
        self.put(FILE, 0, 0, 0, file);
        self.count("files");
        let opened = model_file::open(file);
        match &opened {
            Ok(meta) => {
                let checksum = meta.checksum.map_or(NO_CHECKSUM, u64::from);
                let said = [meta.version, meta.ty, meta.len, meta.root as u64, checksum];
                let said: Vec<u8> = said.iter().flat_map(|n| n.to_le_bytes().to_vec()).collect();
                self.put(OPENING, 0, 0, 0, &said);
            }
            Err(why) => self.put(OPENING, *why, 0, 0, &[]),
        }
        let judged = match opened {
            Ok(_) if lent < file.len() => Err(SPACE),
            _ => model_file::admitted(file),
        };
        let number = judged.as_ref().err().copied().unwrap_or(0);
        // opening's refusals, which go up to 4, and SPACE leave the tables as they were
        let written = if (1..=4).contains(&number) || number == SPACE { 0 } else { file.len() };
        let mut nodes: Vec<_> = judged.iter().flat_map(|found| found.entries()).collect();
        nodes.sort();
        let mut rows = Vec::new();
        for (addr, depth, sum) in nodes {
            rows.extend(&(addr as u16).to_le_bytes());
            rows.extend(&depth.to_le_bytes());
            rows.extend(&sum.to_le_bytes());
            self.count("nodes");
        }
        self.put(ADMISSION, number, lent as u64, written as u64, &rows);
        self.count(ADMISSIONS[number as usize]);
        judged.ok()
    }

    fn key(&mut self, file: &[u8], rust: Option<&Opened>, key: &[u8]) {
        let answer = match rust {
            Some(rust) => match rust.get(key).expect("the Rust answers on an admitted file") {
                Some(value) => Answer::Found(value),
                None => Answer::None,
            },
            None => model_file::get(file, key),
        };
        let (number, value, what) = match answer {
            Answer::Found(value) => (HELD, value, "keys held"),
            Answer::None => (NOT_HELD, 0, "keys not held"),
            Answer::Refused(why) => (why, 0, "lookups by key refused"),
        };
        self.put(KEY, number, value, 0, key);
        self.count("lookups by key");
        self.count(what);
    }

    fn value(&mut self, file: &[u8], rust: Option<&Opened>, value: u64, space: usize) {
        let answer = match rust {
            Some(rust) if space >= MAX_PATH => match rust.get_key(value).expect("the Rust answers on an admitted file") {
                Some(key) => Answer::Found(key),
                None => Answer::None,
            },
            _ => model_file::get_key(file, value, space),
        };
        let (number, key, what) = match answer {
            Answer::Found(key) => (key.len() as u64, key, "values found"),
            Answer::None => (NO_KEY, Vec::new(), "values not found"),
            Answer::Refused(why) => (KEY_REFUSED + why, Vec::new(), "lookups by value refused"),
        };
        self.put(VALUE, number, value, space as u64, &key);
        self.count("lookups by value");
        self.count(what);
    }

    // A file with lookups from these keys: so many by key, and half as many by value.
    fn lookups(&mut self, prng: &mut Prng, file: &[u8], found: Option<&Admitted>, keys: &[Vec<u8>], asked: usize) {
        let opened = found.and_then(|_| given_file::open(file));
        let rust = opened.as_ref();
        for i in 0..asked {
            let kind = match prng.below(8) {
                0..=3 => 0,
                // those of 256 bytes and more would fill the list
                _ => prng.pick(&[1, 2, 3, 6, 7]),
            };
            let base = &keys[prng.below(keys.len())];
            let key = variant(prng, kind, base);
            self.key(file, rust, &key);
            if i % 2 == 0 {
                let value = match (model_file::get(file, &key), prng.below(4)) {
                    (Answer::Found(value), 0..=2) => value,
                    (Answer::Found(value), _) => value.wrapping_add(1),
                    (_, 0) => prng.next() >> prng.below(64),
                    _ => prng.next() % 9,
                };
                let space = if prng.one_in(20) { prng.pick(&[0, 1, 254]) } else { MAX_PATH + prng.below(30) };
                self.value(file, rust, value, space);
            }
        }
    }
}

// Document 01's D and examples, and files at the limits of paths and sums.
pub fn by_hand() -> Vec<Vec<u8>> {
    let top = u64::max_value();
    vec![
        hand_made::d(),
        hand_made::root_0(),
        file_of(3, &[0, 0, 0]),
        file_of(1, &[7, 1, 0, 0x40]),
        // files without a node, and under 36 bytes: the Rust opens none of them
        Vec::new(),
        vec![0; 31],
        hand_made::ends(32, 2, 0),
        file_of(2, &[0xc5]),
        file_of(2, &[0, 0x10, 0x85]),
        vec![0; 35],
        vec![0; 36],
        // version 3, root 17 in 39 bytes
        [&3u64.to_le_bytes()[..], &[0; 19], &17u64.to_le_bytes(), &[0; 4]].concat(),
        file_of(3, &[0xc1]),
        file_of(3, &[0, 0, 0x40, 2, 0x10, 0x85]),
        file_of(3, &[9, 1, 0, 0x00, 0, 0x10, 0x85]),
        hand_made::sums(1, top - 1),
        hand_made::sums(1, top),
        hand_made::final_sums(1, top - 1),
        hand_made::final_sums(1, top),
        hand_made::unsound_after_sum(),
        hand_made::two_outputs(5, 1),
        hand_made::two_outputs(1, 1),
        hand_made::one_key(255),
        hand_made::one_key(256),
        hand_made::deep_and_sum(),
        hand_made::path_to(&[0, 0, 0x40], 255),
        hand_made::path_to(&[0, 0, 0x40], 256),
        hand_made::path_to(&[0xc1], 255),
        hand_made::path_to(&[0xc1], 256),
    ]
}

// The list, and how many answers of each kind it has.
pub fn list() -> (Vec<u8>, Vec<(&'static str, usize)>) {
    let mut prng = Prng::new(11);
    let mut list = List::default();
    for file in by_hand() {
        let found = list.file(&file, file.len());
        let opened = found.as_ref().and_then(|_| given_file::open(&file));
        for key in &[&b""[..], b"a", b"aa", b"aaa", b"at", b"e", b"b", &[b'a'; 255], &[b'a'; 256]] {
            list.key(&file, opened.as_ref(), key);
        }
        for &value in &[0, 1, 2, 3, 4, 5, 6, u64::max_value()] {
            list.value(&file, opened.as_ref(), value, MAX_PATH);
        }
    }
    let mut made = 0;
    while made < FILES {
        let subject = small(&mut prng);
        let n = subject.file.len();
        if n > 260 {
            continue;
        }
        let found = match model_file::admitted(&subject.file) {
            // the Rust opens none under 36 bytes
            Ok(found) if n >= given_file::LEAST => found,
            _ => continue,
        };
        made += 1;
        let nodes = nodes_of(&found);
        let mut keys = subject.keys;
        for _ in 0..4 {
            keys.push(path(&mut prng, &nodes, found.meta.root, true).0);
        }
        // tables one entry short now and then, before the file itself
        if prng.one_in(8) {
            list.file(&subject.file, n - 1);
        }
        let lent = n + prng.below(3);
        let recorded = list.file(&subject.file, lent);
        list.lookups(&mut prng, &subject.file, recorded.as_ref(), &keys, 10);

        let mut damaged = subject.file.clone();
        for _ in 0..prng.between(1, 2) {
            let i = if prng.one_in(6) { prng.below(n) } else { prng.between(16.min(n - 1), n - 1) };
            damaged[i] = damage(&mut prng, damaged[i]);
        }
        if prng.one_in(12) {
            damaged.truncate(prng.below(n));
        }
        let recorded = list.file(&damaged, damaged.len() + 2);
        list.lookups(&mut prng, &damaged, recorded.as_ref(), &keys, 6);
    }
    list.finish()
}
