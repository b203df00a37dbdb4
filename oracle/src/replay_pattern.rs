// The replay list of readings by pattern, for a program that replays them with no Rust at hand: starts and the calls of next after them. On admitted
// files keys, values and totals are the Rust's answers, everything else is the model's. crates/replay_pattern/README.md has its layout.

use crate::answers::{start_name, Bound, Kind, Pattern, Reading, END, NEXTS, NEXT_REFUSED, POSITIONS, STARTED, STATE};
use crate::compare::pattern_near;
use crate::generate_file::{damage, file_of, small};
use crate::generate_reading::{bounds, strings};
use crate::given_file;
use crate::given_pattern::Search;
use crate::hand_made;
use crate::model_file::{self, MAX_PATH};
use crate::model_pattern;
use crate::model_reading::Told;
use crate::prng::Prng;
use crate::replay_list::{List, FILE};

// The kinds of record beside the file.
const START: u8 = 2;
const NEXT: u8 = 3;
const HELD: u8 = 4;

// How many files there are beside those by hand, sound ones, and as many damaged.
const FILES: usize = 80;
// The longest bound and pattern of the list, but for those by hand.
const SHORT: usize = 40;

const ANY: u16 = 256;

const ALL: Bound = Bound { kind: Kind::Unbounded, bytes: Vec::new() };

fn bound(kind: Kind, bytes: &[u8]) -> Bound {
    Bound { kind, bytes: bytes.to_vec() }
}

// A text in which ? is any byte, and a last * any rest.
fn pattern(text: &str) -> Pattern {
    let rest = text.ends_with('*');
    let positions = text.trim_end_matches('*').bytes().map(|b| if b == b'?' { ANY } else { u16::from(b) }).collect();
    Pattern { positions, rest }
}

impl List {
    fn asked_file(&mut self, file: &[u8]) {
        self.put(FILE, 0, 0, 0, file);
        self.count("files");
    }

    fn start_by(&mut self, file: &[u8], pattern: &Pattern, lower: &Bound, upper: &Bound) -> Option<Reading> {
        let begun = model_pattern::start(file, pattern, lower, upper);
        let kinds = 9 * pattern.rest as u64 + 3 * lower.kind.number() + upper.kind.number();
        let mut part: Vec<u8> = pattern.positions.iter().flat_map(|p| p.to_le_bytes().to_vec()).collect();
        part.extend(&lower.bytes);
        part.extend(&upper.bytes);
        let number = begun.as_ref().err().copied().unwrap_or(STARTED);
        let lens = pattern.positions.len() + 65_536 * lower.bytes.len();
        self.put(START, number, lens as u64, kinds, &part);
        self.count("starts");
        self.count(start_name(number));
        begun.ok()
    }

    // A call, by the Rust where its search is given and the buffer is long enough, and what it leaves.
    fn next_by(&mut self, file: &[u8], pattern: &Pattern, reading: &Reading, space: usize, rust: Option<&mut Search>) -> (Told, Reading) {
        let (told, after) = model_pattern::next(file, pattern, reading, space);
        let (told, total) = match rust {
            Some(search) if space >= MAX_PATH && told != Told::Refused(STATE) => {
                let key = search.next().expect("the Rust answers on an admitted file");
                (key.map_or(Told::End, |(bytes, value)| Told::Key(bytes, value)), search.followed())
            }
            _ => (told, after.total),
        };
        let (number, value, key, what) = match &told {
            Told::Key(key, value) => (key.len() as u64, *value, &key[..], "nexts: a key"),
            Told::End => (END, 0, &[][..], "nexts: the end"),
            Told::Refused(why) => (NEXT_REFUSED + why, 0, &[][..], NEXTS[*why as usize]),
        };
        let levels = (after.level_count as u16).to_le_bytes();
        self.put(NEXT, number, value, space as u64, &[&total.to_le_bytes()[..], &levels, key].concat());
        self.count("nexts");
        self.count(what);
        (told, after)
    }

    // So many levels and positions, stated by the reading that was left, and a call.
    fn held(&mut self, file: &[u8], pattern: &mut Pattern, reading: &mut Reading, levels: usize, positions: usize) {
        pattern.positions.resize(positions, 0);
        reading.level_count = levels;
        self.put(HELD, levels as u64, positions as u64, 0, &[]);
        self.count("levels and positions stated");
        self.next_by(file, pattern, reading, 255, None);
    }

    // A start and so many calls, or one more than up to the end. Now and then a buffer is short.
    fn search(&mut self, prng: &mut Prng, file: &[u8], pattern: &Pattern, lower: &Bound, upper: &Bound, calls: usize) {
        let mut reading = match self.start_by(file, pattern, lower, upper) {
            Some(reading) => reading,
            None => return,
        };
        let opened = if model_file::admitted(file).is_ok() { given_file::open(file) } else { None };
        let mut rust = opened.as_ref().and_then(|rust| rust.search(pattern, lower, upper));
        let mut ended = false;
        for _ in 0..calls {
            if prng.one_in(20) {
                let short = prng.pick(&[0, 1, 254]);
                reading = self.next_by(file, pattern, &reading, short, rust.as_mut()).1;
            }
            let (told, after) = self.next_by(file, pattern, &reading, 255, rust.as_mut());
            reading = after;
            if ended || matches!(told, Told::Refused(_)) {
                break;
            }
            ended = told == Told::End;
        }
    }
}

// The rows of document 02's N1, as the request's plan lists them.
fn rows(list: &mut List, prng: &mut Prng) {
    let d = hand_made::d();
    list.asked_file(&d);
    for text in &["?", "a?", "a", "e", "", "*", "a*", "?*", "b"] {
        list.search(prng, &d, &pattern(text), &ALL, &ALL, 9);
    }
    let (at, e) = (bound(Kind::Included, b"at"), bound(Kind::Excluded, b"e"));
    list.search(prng, &d, &pattern("a?"), &at, &e, 9);
    list.search(prng, &d, &pattern("e"), &ALL, &bound(Kind::Included, b"a"), 9);
    // 255 positions are taken, 256 given are not, nor 256 held, and 257 levels come before them
    let any = |n: usize, rest: bool| Pattern { positions: vec![ANY; n], rest };
    list.search(prng, &d, &any(POSITIONS, false), &ALL, &ALL, 2);
    list.search(prng, &d, &any(POSITIONS, true), &ALL, &ALL, 2);
    list.start_by(&d, &any(POSITIONS + 1, false), &ALL, &ALL);
    list.start_by(&d, &any(POSITIONS + 1, false), &bound(Kind::Included, &[b'a'; 256]), &ALL);
    list.start_by(&d, &any(POSITIONS, false), &bound(Kind::Included, &[b'a'; 256]), &ALL);
    for &(levels, positions) in &[(1, 256), (257, 256), (257, 255)] {
        let mut held = any(2, false);
        let mut reading = list.start_by(&d, &held, &ALL, &ALL).expect("two positions are taken");
        list.held(&d, &mut held, &mut reading, levels, positions);
    }

    // "" 5, a 1, ab 2
    let three = file_of(2, &[0x00, 0x01, 0x00, 0x62, 0x11, 0x41, 0x05, 0x01, 0x01, 0x61, 0x11, 0x41]);
    list.asked_file(&three);
    let no_bytes = bound(Kind::Excluded, b"");
    list.search(prng, &three, &pattern("a"), &ALL, &ALL, 9);
    list.search(prng, &three, &pattern(""), &ALL, &ALL, 9);
    list.search(prng, &three, &pattern("*"), &ALL, &ALL, 9);
    list.search(prng, &three, &pattern("a"), &ALL, &no_bytes, 9);
    list.search(prng, &three, &pattern("a"), &no_bytes, &no_bytes, 9);

    // a final output makes the sum pass: judged for a key that fits alone
    let heavy = file_of(3, &[0x01, 0x01, 0x00, 0x40, 0xff, 0xff, 0xff, 0xff, 0xff, 0xff, 0xff, 0xff, 0x01, 0x18, 0x85]);
    list.asked_file(&heavy);
    list.search(prng, &heavy, &pattern("a"), &ALL, &ALL, 9);
    list.search(prng, &heavy, &pattern("b"), &ALL, &ALL, 9);

    // no bytes, and a file that does not open
    for file in vec![Vec::new(), d[..35].to_vec()] {
        list.asked_file(&file);
        list.search(prng, &file, &pattern("*"), &ALL, &ALL, 2);
        list.start_by(&file, &any(POSITIONS + 1, false), &ALL, &ALL);
    }
}

// The list, and how many records of each kind it has.
pub fn list() -> (Vec<u8>, Vec<(&'static str, usize)>) {
    let mut prng = Prng::new(15);
    let mut list = List::default();
    rows(&mut list, &mut prng);
    let mut files = 0;
    while files < FILES {
        let file = small(&mut prng).file;
        let found = match model_file::admitted(&file) {
            Ok(found) if (given_file::LEAST..=200).contains(&file.len()) => found,
            _ => continue,
        };
        let spelled = match strings(&found, 60) {
            Some(spelled) if spelled.len() > 1 => spelled,
            _ => continue,
        };
        files += 1;
        let near: Vec<_> = spelled.into_iter().map(|s| s.bytes).collect();
        let mut damaged = file.clone();
        for _ in 0..prng.between(1, 2) {
            let i = prng.between(16, file.len() - 1);
            damaged[i] = damage(&mut prng, damaged[i]);
        }
        for (asked, searches) in vec![(&file, 6), (&damaged, 3)] {
            list.asked_file(asked);
            for _ in 0..searches {
                let pattern = pattern_near(&mut prng, &near);
                let ((lower, _), (upper, _)) = if prng.one_in(2) { ((ALL, 0), (ALL, 0)) } else { bounds(&mut prng, &near) };
                // longer ones would fill the list
                if lower.bytes.len() <= SHORT && upper.bytes.len() <= SHORT && pattern.positions.len() <= SHORT {
                    list.search(&mut prng, asked, &pattern, &lower, &upper, 12);
                }
            }
        }
    }
    list.finish()
}
