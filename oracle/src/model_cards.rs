// A plain model of one call of an operation over several files, from any cards whatsoever (docs/FORMAT.md, "Operations"): rounds of steps, each followed by a look at the keys that are held. Readings are stepped by model_reading.rs.

use crate::answers::{Held, Reading, LEVELS, SPACE, STATE};
use crate::model::Model;
use crate::model_file::MAX_PATH;
use crate::model_ops::{takes, Op, CARDS, MOST_FILES};
use crate::model_reading::{self, Told};

#[derive(Clone, Copy, Debug, Eq, PartialEq)]
pub enum Slot {
    Used,
    Holds,
    Ended,
}

pub const SLOTS: [Slot; 3] = [Slot::Used, Slot::Holds, Slot::Ended];

// The value carries no meaning but where a key is held.
#[derive(Clone, Debug)]
pub struct Card {
    pub reading: Reading,
    pub slot: Slot,
    pub value: u64,
}

impl Card {
    // The bytes of the levels after the first.
    fn key(&self) -> Vec<u8> {
        self.reading.levels.iter().skip(1).map(|level| level.inp).collect()
    }

    // The key, where one is held.
    fn held(&self) -> Option<Vec<u8>> {
        if self.slot == Slot::Holds {
            Some(self.key())
        } else {
            None
        }
    }
}

#[derive(Clone, Debug, Eq, PartialEq)]
pub enum Came {
    Item(Vec<u8>, Vec<(u64, usize)>),
    End,
    Refused(u64),
}

// A call that takes more rounds is left out of the comparison: files of few bytes may hold very many keys.
const ROUNDS: usize = 3_000;

// What a round comes to once its steps are made; nothing where there is another round.
fn decide(op: Op, cards: &mut [Card]) -> Option<Came> {
    let least = cards.iter().filter_map(Card::held).min();
    if op == Op::Difference {
        let first = match cards[0].held() {
            Some(key) => key,
            None => return Some(Came::End),
        };
        if least.map_or(false, |key| key < first) {
            for card in cards.iter_mut().filter(|card| card.held().map_or(false, |key| key < first)) {
                card.slot = Slot::Used;
            }
            return None;
        }
        return at_key(op, first, cards);
    }
    match least {
        Some(key) => at_key(op, key, cards),
        None => Some(Came::End),
    }
}

// The cards that hold this key are used up, and it is the item or not.
fn at_key(op: Op, key: Vec<u8>, cards: &mut [Card]) -> Option<Came> {
    let n = cards.len();
    let mut pairs = Vec::new();
    for (i, card) in cards.iter_mut().enumerate() {
        if card.held().as_ref() == Some(&key) {
            pairs.push((card.value, i));
            card.slot = Slot::Used;
        }
    }
    pairs.sort();
    if takes(op, n, &pairs) {
        Some(Came::Item(key, pairs))
    } else {
        None
    }
}

// Each used-up reading is stepped, in file order; whether one was.
fn step(files: &[&[u8]], cards: &mut [Card], space: usize) -> Result<bool, u64> {
    let mut stepped = false;
    for (file, card) in files.iter().zip(cards) {
        match card.slot {
            Slot::Ended => {}
            Slot::Holds if card.reading.level_count > LEVELS => return Err(STATE),
            Slot::Holds => {}
            Slot::Used => {
                let (told, after) = model_reading::next(file, &card.reading, space);
                stepped = true;
                card.reading = after;
                match told {
                    Told::Refused(why) => return Err(why),
                    Told::End => card.slot = Slot::Ended,
                    Told::Key(_, value) => {
                        card.slot = Slot::Holds;
                        card.value = value;
                    }
                }
            }
        }
    }
    Ok(stepped)
}

// What a call answers and the cards after it; nothing where it takes too many rounds.
pub fn next_item(op: Op, count: usize, files: &[&[u8]], cards: &[Card], space: usize) -> Option<(Came, Vec<Card>)> {
    let refused = |why| Some((Came::Refused(why), cards.to_vec()));
    if count == 0 || count > MOST_FILES {
        return refused(CARDS);
    }
    let (mut all, mut before) = (cards.to_vec(), false);
    for _ in 0..ROUNDS {
        match step(&files[..count], &mut all[..count], space) {
            Err(why) => return refused(why),
            Ok(stepped) => before |= stepped,
        }
        if !before && space < MAX_PATH {
            return refused(SPACE);
        }
        if let Some(came) = decide(op, &mut all[..count]) {
            return Some((came, all));
        }
    }
    None
}

// ---- the cards as they are lent to the exported function

#[derive(Clone)]
pub struct HeldCards {
    pub slots: [u8; MOST_FILES],
    pub values: [u64; MOST_FILES],
    pub readings: Vec<Held>,
}

impl HeldCards {
    pub fn cards(&self) -> Vec<Card> {
        (0..MOST_FILES)
            .map(|i| Card {
                reading: self.readings[i].reading(),
                slot: SLOTS[usize::from(self.slots[i].min(2))],
                value: self.values[i],
            })
            .collect()
    }

    // What carries no meaning stays as given, but for the value of a card that holds no key.
    pub fn put(&mut self, cards: &[Card]) {
        for (i, card) in cards.iter().enumerate() {
            self.slots[i] = card.slot as u8;
            self.values[i] = card.value;
            self.readings[i].put(&card.reading);
        }
    }
}

// The values of an item and the numbers of their files, 0 from the count on.
#[derive(Clone, Copy, Debug, Default, Eq, PartialEq)]
pub struct Pairs {
    pub count: usize,
    pub files: [u8; MOST_FILES],
    pub values: [u64; MOST_FILES],
}

pub const ITEMS_END: u64 = 1_000;
pub const ITEMS_REFUSED: u64 = 2_000;

// What a call answers as a number, with what it writes.
pub fn tell(came: &Came, key: &mut [u8]) -> (u64, Pairs) {
    let mut pairs = Pairs::default();
    match came {
        Came::Refused(why) => (ITEMS_REFUSED + why, pairs),
        Came::End => (ITEMS_END, pairs),
        Came::Item(bytes, its) => {
            key[..bytes.len()].copy_from_slice(bytes);
            pairs.count = its.len();
            for (i, &(value, file)) in its.iter().enumerate() {
                pairs.files[i] = file as u8;
                pairs.values[i] = value;
            }
            (bytes.len() as u64, pairs)
        }
    }
}

// One who answers single calls from any cards: our library, or in the self-test the model with a slip in its place.
pub trait CardAnswers {
    fn next_item(
        &self,
        op: Op,
        count: usize,
        files: &[&[u8]; MOST_FILES],
        held: &mut HeldCards,
        key: &mut [u8],
    ) -> (u64, Pairs);
}

impl CardAnswers for Model {
    fn next_item(
        &self,
        op: Op,
        count: usize,
        files: &[&[u8]; MOST_FILES],
        held: &mut HeldCards,
        key: &mut [u8],
    ) -> (u64, Pairs) {
        let (came, after) = next_item(op, count, files, &held.cards(), key.len()).expect("few rounds");
        if let Came::Item(..) | Came::End = came {
            held.put(&after[..count]);
        }
        tell(&came, key)
    }
}
