// Single calls of an operation over several files (document 02, N5), from any cards and on any files: damaged files, readings that no start gave, slots and
// counts that no begin gave, buffers of any size, files of another length. By the model and by ours: the answer, the item with its pairs, the key buffer, and
// the cards after the call.

use super::ops::{pool, source};
use super::ranges::describe_reading;
use super::{describe_file, same, Checked, Difference, Run};
use crate::answers::{Held, DEEP, LARGE, NODE, ROOT, SHORT, SPACE, STATE, SUM, VERSION};
use crate::generate_reading::{addresses, bounds, made};
use crate::model::MAX_LEN;
use crate::model_cards::{next_item, tell, Came, Card, HeldCards, Slot, SLOTS};
use crate::model_file::MAX_PATH;
use crate::model_ops::{Op, CARDS, MOST_FILES, OPS};
use crate::model_reading::{self, Told};
use crate::prng::Prng;
use crate::sparse::Zeros;

const CARD_CALLS: usize = 120_000;
const LARGE_CALLS: usize = 160;

const CALLS: [&str; 15] = [
    "calls: an item or the end",
    "calls, refused: 1 SHORT",
    "calls, refused: 2 VERSION",
    "calls, refused: 3 ROOT",
    "calls, refused: 4 LARGE",
    "calls, refused: 5 NODE",
    "calls, refused: 6 DEEP",
    "calls, refused: 7 SUM",
    "calls, refused: 8 SPACE",
    "calls, refused: 9 BOUND",
    "calls, refused: 10 RECORD",
    "calls, refused: 11 STATE",
    "calls, refused: 12 PATTERN",
    "calls, refused: 13 LIST",
    "calls, refused: 14 CARDS",
];

// One call: its operation, the held count, and the size of the key buffer.
#[derive(Clone, Copy, Debug)]
struct Call {
    op: Op,
    count: usize,
    space: usize,
}

fn describe(call: Call, files: &[&[u8]; MOST_FILES], cards: &[Card]) -> String {
    let each = |i: usize| {
        let card = &cards[i];
        format!("{:?} {}, {}, {}", card.slot, card.value, describe_reading(&card.reading), describe_file(files[i]))
    };
    let n = call.count.min(MOST_FILES);
    format!("{:?}; {}", call, (0..n).map(each).collect::<Vec<_>>().join("; "))
}

// What is compared of a card after a call: a value carries no meaning where no key is held.
fn seen(card: &Card) -> (Slot, Option<u64>, crate::answers::Reading) {
    let value = if card.slot == Slot::Holds { Some(card.value) } else { None };
    (card.slot, value, card.reading.clone())
}

// The arrays of a reading, where the value of a key that is not pending is 0, as the exported function puts it back.
fn meant(held: &Held) -> Held {
    let mut held = held.clone();
    if held.head[3] == 0 {
        held.head[4] = 0;
    }
    held
}

// A reading's arrays with something in every entry.
fn filled(prng: &mut Prng) -> Held {
    let mut held = Held::new();
    let keep = prng.next();
    held.bound.iter_mut().for_each(|b| *b = keep as u8);
    held.addrs.iter_mut().for_each(|a| *a = keep as u32);
    held.inps.iter_mut().for_each(|b| *b = keep as u8);
    held.places.iter_mut().for_each(|p| *p = keep as u16);
    held.sums.iter_mut().for_each(|s| *s = keep);
    held
}

impl<'a> Run<'a> {
    // Eight files, each beside the one that it was before it was damaged.
    fn card_files(&mut self) -> Vec<(Vec<u8>, Vec<u8>)> {
        let pool = pool(&mut self.prng);
        let sound = self.prng.one_in(3);
        (0..MOST_FILES)
            .map(|_| {
                let whole = match self.prng.below(24) {
                    0 => Vec::new(),
                    1..=3 if !sound => self.to_damage().0,
                    _ => {
                        let version = self.prng.between(1, 3);
                        source(&mut self.prng, &pool, version as u64).file
                    }
                };
                let hurt = !whole.is_empty() && !sound && self.prng.one_in(3);
                let file = if hurt { self.damaged_file(&whole) } else { whole.clone() };
                (whole, file)
            })
            .collect()
    }

    // A card of a file: from a start and some calls, with or without a change, or made from nothing.
    fn card(&mut self, whole: &[u8], file: &[u8]) -> Card {
        let (mut slot, mut value) = (Slot::Used, self.prng.next());
        let leading = self.leading(whole, Vec::new());
        let on = if self.prng.one_in(2) { whole } else { file };
        let (lower, upper) = if leading.is_empty() || self.prng.one_in(2) {
            let none = crate::answers::Bound { kind: crate::answers::Kind::Unbounded, bytes: Vec::new() };
            (none.clone(), none)
        } else {
            let ((lower, _), (upper, _)) = bounds(&mut self.prng, &leading);
            (lower, upper)
        };
        let mut begun = model_reading::bare_start(on, &lower, &upper).ok();
        if let Some(reading) = &mut begun {
            reading.keys = self.prng.pick(&[u64::max_value(), u64::max_value(), u64::max_value(), 0, 1, 3]);
            for _ in 0..self.prng.below(4) {
                let (told, after) = model_reading::next(on, reading, MAX_PATH);
                *reading = after;
                match told {
                    Told::Key(_, its) => {
                        slot = if self.prng.one_in(2) { Slot::Holds } else { Slot::Used };
                        value = its;
                    }
                    Told::End => slot = if self.prng.one_in(2) { Slot::Ended } else { Slot::Used },
                    Told::Refused(_) => {}
                }
            }
        }
        let addrs = addresses(whole);
        let reading = match (begun, self.prng.below(8)) {
            (Some(reading), 0..=4) => return Card { reading, slot, value },
            (Some(reading), 5) => made(&mut self.prng, file, &addrs, Some(&reading)),
            _ => {
                self.count("cards made from nothing");
                made(&mut self.prng, file, &addrs, None)
            }
        };
        let slot = self.prng.pick(&SLOTS);
        Card { reading, slot, value }
    }

    // One call, by the model and by ours; whether it was made.
    fn card_call(&mut self, call: Call, files: &[&[u8]; MOST_FILES], held: &mut HeldCards) -> Result<bool, Difference> {
        let cards = held.cards();
        let input = || describe(call, files, &cards);
        let Call { op, count, space } = call;
        let (came, after) = match next_item(op, count, files, &cards, space) {
            Some(answered) => answered,
            None => {
                self.count("calls left out: over 3,000 rounds");
                return Ok(false);
            }
        };
        let keep = self.prng.next();
        let given: Vec<u8> = (0..space).map(|i| keep as u8 ^ i as u8).collect();
        let mut written = given.clone();
        let wanted = tell(&came, &mut written);
        if let Some(ours) = self.ours_cards {
            let (mut lent, mut key) = (held.clone(), given);
            let found = ours.next_item(op, count, files, &mut lent, &mut key);
            same("a call's answer and pairs", input, ("model", wanted), ("ours", found))?;
            same("the key buffer", input, ("model", &written), ("ours", &key))?;
            if let Came::Refused(_) = came {
                same("slots after a refusal", input, ("as given", held.slots), ("ours", lent.slots))?;
                same("values after a refusal", input, ("as given", held.values), ("ours", lent.values))?;
                for (was, is) in held.readings.iter().zip(&lent.readings) {
                    let (was, is) = (meant(was), meant(is));
                    same("a reading after a refusal", input, ("as given", was.all()), ("ours", is.all()))?;
                }
            } else {
                let ours: Vec<_> = lent.cards()[..count].iter().map(seen).collect();
                same("the cards", input, ("model", after[..count].iter().map(seen).collect()), ("ours", ours))?;
            }
        }
        self.count("calls");
        match came {
            Came::Item(..) => self.count("calls: an item"),
            Came::End => self.count("calls: the end"),
            Came::Refused(why) => {
                self.count(CALLS[why as usize]);
                return Ok(true);
            }
        }
        held.put(&after[..count]);
        Ok(true)
    }

    fn held_cards(&mut self, files: &[(Vec<u8>, Vec<u8>)]) -> HeldCards {
        let readings = (0..MOST_FILES).map(|_| filled(&mut self.prng)).collect();
        let mut held = HeldCards { slots: [0; MOST_FILES], values: [0; MOST_FILES], readings };
        let cards: Vec<Card> = files.iter().map(|(whole, file)| self.card(whole, file)).collect();
        held.put(&cards);
        held
    }

    pub fn made_cards(&mut self) -> Checked {
        self.prng = Prng::new(37);
        let mut done = 0;
        while done < CARD_CALLS / self.one_in {
            let files = self.card_files();
            let mut held = self.held_cards(&files);
            let op = self.prng.pick(&OPS);
            let count = match self.prng.below(40) {
                0 => self.prng.pick(&[0, 9, 10, usize::max_value()]),
                _ => self.prng.between(1, MOST_FILES),
            };
            for _ in 0..self.prng.between(1, 6) {
                let space = match self.prng.below(16) {
                    0 => self.prng.pick(&[0, 1, 254]),
                    _ => self.prng.pick(&[255, 255, 256, 300]),
                };
                let mut lent: [&[u8]; MOST_FILES] = [&[]; MOST_FILES];
                for (place, (whole, file)) in lent.iter_mut().zip(&files) {
                    // now and then the file that it was, often of the same length
                    *place = if self.prng.one_in(30) { whole } else { file };
                }
                done += 1;
                if !self.card_call(Call { op, count, space }, &lent, &mut held)? {
                    break;
                }
            }
        }
        self.cards_on_large()?;
        self.require(&["calls"], 100_000)?;
        self.require(&["cards made from nothing", "calls: an item", "calls: the end"], 10_000)?;
        for &why in &[SHORT, VERSION, ROOT, LARGE, NODE, DEEP, SUM, SPACE, STATE, CARDS] {
            self.require(&[CALLS[why as usize]], 120)?;
        }
        Ok(())
    }

    // Calls with a file of 2^32 bytes among them.
    fn cards_on_large(&mut self) -> Checked {
        let mut large = Zeros::new(MAX_LEN + 1);
        large[0] = 3;
        for _ in 0..LARGE_CALLS / self.one_in.min(LARGE_CALLS) {
            let files = self.card_files();
            let mut held = self.held_cards(&files);
            let mut lent: [&[u8]; MOST_FILES] = [&[]; MOST_FILES];
            for (place, (_, file)) in lent.iter_mut().zip(&files) {
                *place = file;
            }
            // the first that is stepped
            lent[0] = &large;
            held.slots[0] = 0;
            let op = self.prng.pick(&OPS);
            let call = Call { op, count: self.prng.between(1, MOST_FILES), space: self.prng.pick(&[0, 255]) };
            self.card_call(call, &lent, &mut held)?;
        }
        Ok(())
    }
}
