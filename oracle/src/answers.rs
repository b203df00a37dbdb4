// The questions that are asked, and the words for their answers. The numbers are those of the exported functions.

use crate::model_pattern;
use crate::model_reading;

// A node record, as the packer takes it. Any other flag than 0 means final.
#[derive(Clone, Debug, Default, Eq, PartialEq)]
pub struct Record {
    pub final_flag: u8,
    pub final_output: u64,
    pub inputs: Vec<u8>,
    pub outputs: Vec<u64>,
    pub targets: Vec<usize>,
}

impl Record {
    pub fn is_final(&self) -> bool {
        self.final_flag != 0
    }

    pub fn transitions(&self) -> impl DoubleEndedIterator<Item = Transition> + ExactSizeIterator + '_ {
        (0..self.inputs.len()).map(move |i| Transition {
            inp: self.inputs[i],
            out: self.outputs[i],
            addr: self.targets[i],
        })
    }
}

#[derive(Clone, Copy, Debug, Eq, PartialEq)]
pub struct Transition {
    pub inp: u8,
    pub out: u64,
    pub addr: usize,
}

// What a stored node means. `first` is F, and 0 at address 0.
#[derive(Clone, Debug, Eq, PartialEq)]
pub struct Meaning {
    pub first: usize,
    pub is_final: bool,
    pub final_output: u64,
    pub transitions: Vec<Transition>,
}

impl Meaning {
    pub fn of_record(record: &Record, first: usize) -> Meaning {
        Meaning {
            first,
            is_final: record.is_final(),
            final_output: record.final_output,
            transitions: record.transitions().collect(),
        }
    }
}

// Where a node is read: a file of this version and root, and an address.
#[derive(Clone, Copy)]
pub struct At<'f> {
    pub file: &'f [u8],
    pub version: u64,
    pub root: usize,
    pub addr: usize,
}

// The refusals of packing, as the packer's answer carries them.
pub const REFUSED: u64 = 1 << 32;
pub const SPACE: u64 = 8;
pub const RECORD: u64 = 10;

// What reading a node answers.
pub const UNSOUND: u64 = 0;
pub const SOUND: u64 = 1;

// The place of a byte among a node's inputs, or, where it is absent, that of the first greater input.
pub type Place = Result<usize, usize>;

// What finding an input answers beside a place: the first with the place of the first greater input added.
pub const INPUT_ABSENT: u64 = 256;
pub const NODE_UNSOUND: u64 = 513;

pub fn place_number(place: Place) -> u64 {
    match place {
        Ok(place) => place as u64,
        Err(place) => INPUT_ABSENT + place as u64,
    }
}

// One who answers: our library, or in the self-test the model in its place.
pub trait Answers {
    fn pack_size(&self, n: u64) -> u8;

    // nbytes is at most 8 and at most the slice's length.
    fn unpack_uint(&self, slice: &[u8], nbytes: usize) -> u64;

    fn common_inputs(&self, i: u8) -> u8;

    fn common_inputs_inv(&self, i: u8) -> u8;

    fn common_idx(&self, i: u8) -> u8;

    // The node's length, its bytes at the front of `out` and the rest as given; or REFUSED plus a refusal, `out` as given.
    fn compile(&self, record: &Record, first: usize, out: &mut [u8]) -> u64;

    // SOUND, with F, final (0 or 1), final output and transition count in `out` where it has four places; or UNSOUND.
    // Every other place of `out` stays as given.
    fn node(&self, at: At, out: &mut [u64]) -> u64;

    // 1, with input, output and target in `out`, where the node is sound, has a transition i, and `out` has three places;
    // else 0. Every other place of `out` stays as given.
    fn transition(&self, at: At, i: usize, out: &mut [u64]) -> u64;

    // The place of b among the node's inputs, INPUT_ABSENT and the place of the first greater input, or NODE_UNSOUND.
    fn find_input(&self, at: At, b: u8) -> u64;
}

// ---- whole files

// What the header and the trailer of a file say. Versions 1 and 2 have no checksum.
#[derive(Clone, Copy, Debug, Eq, PartialEq)]
pub struct Meta {
    pub version: u64,
    pub ty: u64,
    pub len: u64,
    pub root: usize,
    pub checksum: Option<u32>,
}

// The refusals of a file and of a walk in it; SPACE is above.
pub const SHORT: u64 = 1;
pub const VERSION: u64 = 2;
pub const ROOT: u64 = 3;
pub const LARGE: u64 = 4;
pub const NODE: u64 = 5;
pub const DEEP: u64 = 6;
pub const SUM: u64 = 7;

// What opening puts in the checksum's place where there is none.
pub const NO_CHECKSUM: u64 = 1 << 32;

// What a lookup by key answers beside a refusal.
pub const HELD: u64 = 0;
pub const NOT_HELD: u64 = 100;

// What a search by value answers beside a found key's length. A refusal is added to the last.
pub const NO_KEY: u64 = 1000;
pub const KEY_REFUSED: u64 = 2000;

// One who answers about whole files: our library, or in the self-test the model in its place.
pub trait FileAnswers {
    // 0, with version, type, count, root and checksum in `out` where it has five places; or a refusal. Every other place of
    // `out` stays as given.
    fn open(&self, file: &[u8], out: &mut [u64]) -> u64;

    // 0 for an admitted file, or a refusal. Both tables are left as document 01 says.
    fn admit(&self, file: &[u8], depths: &mut [u16], sums: &mut [u64]) -> u64;

    // 0 where the table of keys is filled, or a refusal. The three tables are left as document 02, N11, says.
    fn count_keys(&self, file: &[u8], depths: &mut [u16], sums: &mut [u64], counts: &mut [u64]) -> u64;

    // HELD, with the value in `out` where it has a place; NOT_HELD; or a refusal. Every other place of `out` stays as given.
    fn get(&self, file: &[u8], key: &[u8], out: &mut [u64]) -> u64;

    // The found key's length, the key at the front of `key` and the rest as given; or NO_KEY, or KEY_REFUSED plus a refusal,
    // `key` as given.
    fn get_key(&self, file: &[u8], value: u64, key: &mut [u8]) -> u64;
}

// One who converts: our library, or in the self-test the model in its place.
pub trait ConvertAnswers {
    // The new file's length, with the file at the front of `out` and each node's new address in `table`; or REFUSED plus a refusal. The
    // first two tables are left as admission leaves them, and every other place stays as given.
    fn convert(
        &self,
        file: &[u8],
        limit: u32,
        depths: &mut [u16],
        sums: &mut [u64],
        out: &mut [u8],
        table: &mut [u32],
    ) -> u64;
}

// ---- readings

// The refusals of a bound and of a reading; the others are above.
pub const BOUND: u64 = 9;
pub const STATE: u64 = 11;
// That of a pattern of too many positions.
pub const PATTERN: u64 = 12;
// That of a table of keys; filling one answers it too.
pub const COUNT: u64 = 19;

// The numbers of the kinds are 0, 1, and any other.
#[derive(Clone, Copy, Debug, Eq, PartialEq)]
pub enum Kind {
    Included,
    Excluded,
    Unbounded,
}

pub const BOUND_KINDS: [Kind; 3] = [Kind::Included, Kind::Excluded, Kind::Unbounded];

impl Kind {
    pub fn number(self) -> u64 {
        self as u64
    }

    fn of(number: u64) -> Kind {
        BOUND_KINDS.get(number as usize).copied().unwrap_or(Kind::Unbounded)
    }
}

// A bound as it is handed in. The bytes beside an unbounded one carry no meaning.
#[derive(Clone, Debug)]
pub struct Bound {
    pub kind: Kind,
    pub bytes: Vec<u8>,
}

// A level: the node's address, the byte that led there, the next place, and the running sum.
#[derive(Clone, Copy, Debug, Default, Eq, PartialEq)]
pub struct Level {
    pub addr: u32,
    pub inp: u8,
    pub place: u16,
    pub sum: u64,
}

// How many levels and how many bytes of a bound a reading has room for.
pub const LEVELS: usize = 256;
pub const BOUND_BYTES: usize = 255;

// What a reading says, without the entries that carry no meaning. It may state more levels or a longer bound than it has
// room for; then the lists have as many entries as there is room.
#[derive(Clone, Debug, Eq, PartialEq)]
pub struct Reading {
    pub file_len: usize,
    pub kind: Kind,
    pub bound_len: usize,
    pub bound: Vec<u8>,
    pub pending: Option<u64>,
    pub total: u64,
    // the number of keys to come
    pub keys: u64,
    pub level_count: usize,
    pub levels: Vec<Level>,
}

// A reading as it is lent to the exported functions.
#[derive(Clone)]
pub struct Held {
    // file length, the bound's kind and length, 1 where an empty key is pending, its value, total, level count
    pub head: [u64; 7],
    pub bound: [u8; BOUND_BYTES],
    pub addrs: [u32; LEVELS],
    pub inps: [u8; LEVELS],
    pub places: [u16; LEVELS],
    pub sums: [u64; LEVELS],
    // the number of keys to come
    pub keys: [u64; 1],
}

impl Held {
    pub fn new() -> Held {
        Held {
            head: [0; 7],
            bound: [0; BOUND_BYTES],
            addrs: [0; LEVELS],
            inps: [0; LEVELS],
            places: [0; LEVELS],
            sums: [0; LEVELS],
            keys: [0],
        }
    }

    // What carries no meaning stays as given.
    pub fn put(&mut self, reading: &Reading) {
        let value = reading.pending.unwrap_or(self.head[4]);
        self.head = [
            reading.file_len as u64,
            reading.kind.number(),
            reading.bound_len as u64,
            reading.pending.is_some() as u64,
            value,
            reading.total,
            reading.level_count as u64,
        ];
        self.keys = [reading.keys];
        self.bound[..reading.bound.len()].copy_from_slice(&reading.bound);
        for (i, level) in reading.levels.iter().enumerate() {
            self.addrs[i] = level.addr;
            self.inps[i] = level.inp;
            self.places[i] = level.place;
            self.sums[i] = level.sum;
        }
    }

    pub fn reading(&self) -> Reading {
        let kind = Kind::of(self.head[1]);
        let (bound_len, level_count) = (self.head[2] as usize, self.head[6] as usize);
        let bytes = if kind == Kind::Unbounded { 0 } else { bound_len.min(BOUND_BYTES) };
        let level = |i| Level { addr: self.addrs[i], inp: self.inps[i], place: self.places[i], sum: self.sums[i] };
        Reading {
            file_len: self.head[0] as usize,
            kind,
            bound_len,
            bound: self.bound[..bytes].to_vec(),
            pending: if self.head[3] == 0 { None } else { Some(self.head[4]) },
            total: self.head[5],
            keys: self.keys[0],
            level_count,
            levels: (0..level_count.min(LEVELS)).map(level).collect(),
        }
    }

    // Every entry.
    pub fn all(&self) -> (&[u64], &[u8], &[u32], &[u8], &[u16], &[u64], &[u64]) {
        (&self.head, &self.bound, &self.addrs, &self.inps, &self.places, &self.sums, &self.keys)
    }
}

impl Reading {
    pub fn set_levels(&mut self, levels: Vec<Level>) {
        self.level_count = levels.len();
        self.levels = levels;
    }
}

// A pattern: below 256 a position is its byte, any other number is any byte. It may state more positions than a reading has room for.
#[derive(Clone, Debug)]
pub struct Pattern {
    pub positions: Vec<u16>,
    pub rest: bool,
}

// How many positions a reading has room for.
pub const POSITIONS: usize = 255;

// What a start answers where it gives a reading.
pub const STARTED: u64 = 0;

// What a next answers beside a key's length. A refusal is added to the last.
pub const END: u64 = 1000;
pub const NEXT_REFUSED: u64 = 2000;

// The names of what a start and a next answer, for counts; refusals in the order of their numbers.
const STARTS: [&str; 13] = [
    "starts: a reading",
    "starts, refused: 1 SHORT",
    "starts, refused: 2 VERSION",
    "starts, refused: 3 ROOT",
    "starts, refused: 4 LARGE",
    "starts, refused: 5 NODE",
    "starts, refused: 6 DEEP",
    "starts, refused: 7 SUM",
    "starts, refused: 8 SPACE",
    "starts, refused: 9 BOUND",
    "starts, refused: 10 RECORD",
    "starts, refused: 11 STATE",
    "starts, refused: 12 PATTERN",
];
const STARTS_COUNT: &str = "starts, refused: 19 COUNT";

pub fn start_name(number: u64) -> &'static str {
    if number == COUNT {
        STARTS_COUNT
    } else {
        STARTS[number as usize]
    }
}

pub const NEXTS: [&str; 13] = [
    "nexts: a key or the end",
    "nexts, refused: 1 SHORT",
    "nexts, refused: 2 VERSION",
    "nexts, refused: 3 ROOT",
    "nexts, refused: 4 LARGE",
    "nexts, refused: 5 NODE",
    "nexts, refused: 6 DEEP",
    "nexts, refused: 7 SUM",
    "nexts, refused: 8 SPACE",
    "nexts, refused: 9 BOUND",
    "nexts, refused: 10 RECORD",
    "nexts, refused: 11 STATE",
    "nexts, refused: 12 PATTERN",
];

// One who answers about readings: our library, or in the self-test the model in its place.
pub trait ReadingAnswers {
    // STARTED, with the reading in `held`; or a refusal, `held` as given. `counts` is the table of keys.
    fn start(&self, file: &[u8], lower: &Bound, upper: &Bound, counts: &[u64], held: &mut Held) -> u64;

    // The key's length, the key at the front of `key` and its value in `value`; END; or NEXT_REFUSED plus a refusal. `held` has
    // the reading afterwards. Everything else that is lent stays as given.
    fn next(&self, file: &[u8], held: &mut Held, key: &mut [u8], value: &mut [u64; 1]) -> u64;

    // By pattern, as start and next, without a table, and the pattern is lent. Such a reading holds no number of keys to come, and what
    // stands there stays. In another's place than our library's the model answers.
    fn start_by(&self, file: &[u8], pattern: &Pattern, lower: &Bound, upper: &Bound, held: &mut Held) -> u64 {
        match model_pattern::start(file, pattern, lower, upper) {
            Ok(started) => {
                held.put(&Reading { keys: held.keys[0], ..started });
                STARTED
            }
            Err(why) => why,
        }
    }

    fn next_by(&self, file: &[u8], pattern: &Pattern, held: &mut Held, key: &mut [u8], value: &mut [u64; 1]) -> u64 {
        let (told, after) = model_pattern::next(file, pattern, &held.reading(), key.len());
        held.put(&after);
        model_reading::tell(&told, key, value)
    }

    // How many calls after a start give a key, up to the first that does not and at most so many; none where it is refused.
    // `key` holds what they left there.
    fn keys(&self, file: &[u8], lower: &Bound, upper: &Bound, counts: &[u64], most: u64, key: &mut [u8]) -> u64 {
        let mut held = Held::new();
        if self.start(file, lower, upper, counts, &mut held) != STARTED {
            return 0;
        }
        let mut n = 0;
        while n < most && self.next(file, &mut held, key, &mut [0]) < END {
            n += 1;
        }
        n
    }

    // The same of readings without the number of keys to come, which take no table.
    fn bare_keys(&self, file: &[u8], lower: &Bound, upper: &Bound, most: u64, key: &mut [u8]) -> u64;
}
