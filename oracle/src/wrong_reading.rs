// Wrong answers about readings, to see that the comparisons notice them: documents 01 and 02 with one slip each.

use crate::answers::{
    Bound, Held, Kind, Level, Meta, Pattern, Reading, ReadingAnswers, BOUND, BOUND_BYTES, COUNT, DEEP, END, LARGE, LEVELS,
    NEXT_REFUSED, NODE, PATTERN, POSITIONS, ROOT, SHORT, SPACE, STARTED, STATE, SUM, VERSION,
};
use crate::model::Model;
use crate::model_file::{judge, open, MAX_PATH, MAX_SUM};
use crate::model_reading::{cross, passes, tell, Told};
use crate::wrong::Wrong;

pub const SLIPS: &[&str] = &[
    // start
    "a start on no bytes enters a node",
    "a start on no bytes has a level",
    "a start on no bytes has a pending key",
    "the pending empty key is lost",
    "the empty key is pending from an excluded bound",
    "the lower bound's own key is skipped",
    "an excluded lower bound is handed out",
    "a bound that leaves the file starts one transition late",
    "a bound that leaves the file starts at the first transition",
    "the transitions of the start count",
    "the total starts at 1",
    "the sums of the start are left out",
    "the first level has a byte",
    "a bound of 255 bytes is refused",
    "a bound of 256 bytes is taken",
    "the upper bound's length is not judged",
    "an unbounded bound's length is judged",
    "9 comes before opening's refusals",
    "9 comes after the walk",
    "an unbounded start judges no node",
    "the node that the lower bound leads to is not judged",
    "7 comes before 5 in a start",
    "a start judges the final output",
    "a refused start writes a number",
    // the number of a start
    "a start's table is not judged",
    "a start's table one entry short is taken",
    "a start's table is judged only where it is read",
    "8 comes before a start's opening",
    "8 comes before 9 in a start",
    "8 comes after the walk of a start",
    "a start on no bytes has a number",
    "crossed bounds are read",
    "equal bounds do not cross",
    "crossed bounds judge the upper bound's nodes",
    "the number is the root's entry",
    "the number counts an excluded upper bound",
    "the number leaves an included upper bound out",
    "the number counts an excluded lower bound",
    "the number leaves an included lower bound out",
    "keys that begin a bound are left out of the number",
    "an equal input counts in the number",
    "a target of 0 has an entry",
    "a target of 0 counts none",
    "the upper bound's nodes are not judged",
    "the upper bound's last node is not judged",
    "7 is judged along the upper bound",
    "19 comes before the upper bound's 5",
    "the number wraps",
    "the number is 0 where fewer keys are within than before",
    "19 is not judged of the keys before the lower bound",
    // next
    "a key does not lower the number",
    "the pending key does not lower the number",
    "the end lowers the number",
    "the end leaves no key to come",
    "a refusal lowers the number",
    "a key comes where the number says none",
    "the pending key comes where the number says none",
    "11 comes at the end where the number says none",
    "the number is judged first",
    "the number is judged before the final output",
    "the late 11 writes the key",
    "the late 11 leaves the reading that it reached",
    "a reading ends at the first call",
    "the first key is repeated",
    "a place is not advanced",
    "an included upper bound is not handed out",
    "an excluded upper bound is handed out",
    "the upper bound is judged for held keys alone",
    "a shorter key is before the upper bound",
    "the upper bound is left out",
    "the step past the upper bound does not count",
    "the total counts keys",
    "the total counts used-up levels",
    "the total wraps",
    "a level has the sum of the one below",
    "a value leaves the final output out",
    "a value wraps",
    "a refusal counts",
    "a refusal leaves the levels that it reached",
    "a pending key is gone after a refusal",
    "255 levels are the most",
    "257 levels are taken",
    "a held bound of 256 bytes is taken",
    "a held bound of 255 bytes is refused",
    "an unbounded reading's bound is not judged",
    "a file of another length is taken",
    "8 comes before 11",
    "11 comes before opening's refusals",
    "a next takes a buffer of 254 bytes",
    "after the end nothing is refused",
    "a used-up level is not judged",
    "a level is used up one place early",
    "a place is cut to a byte",
    "an address is cut to 24 bits",
    "an address of the start is cut to 24 bits",
    "6 comes one level late",
    "6 comes one level early",
    "6 comes after 7",
    "6 comes where nothing is followed",
    "5 comes before 7 in a step",
    "the upper bound comes before 7",
    "the upper bound comes before the target's 5",
    "the final output is judged past the upper bound",
    "levels stay after the end",
    "a pending key stays pending",
    "used-up levels go with the last key",
    "the pending key is handed out past the upper bound",
    "the pending key ends, and the levels stay",
    "the levels are judged before the pending key",
    "the key has the first level's byte",
    "the rest of a next's buffer is cleared",
    "the buffer holds a key past the upper bound",
    "the end writes a value",
    // by pattern
    "by pattern: any rest is always taken",
    "by pattern: no rest is taken",
    "by pattern: the last position is any byte",
    "by pattern: any byte is the byte 0",
    "by pattern: a position more",
    "by pattern: 256 positions are taken by a start",
    "by pattern: 256 positions are taken by a next",
    "by pattern: 12 comes before 11",
    "by pattern: 12 comes after 8",
    "by pattern: an empty key that does not fit is handed out",
    "by pattern: an empty key that does not fit ends the call",
    "by pattern: a call follows one transition too few",
];

impl Wrong {
    fn too_long(&self, bound: &Bound) -> bool {
        let most = if self.slips("a bound of 255 bytes is refused") {
            BOUND_BYTES - 1
        } else if self.slips("a bound of 256 bytes is taken") {
            BOUND_BYTES + 1
        } else {
            BOUND_BYTES
        };
        let counts = bound.kind != Kind::Unbounded || self.slips("an unbounded bound's length is judged");
        counts && bound.bytes.len() > most
    }

    // A start, without the number where no table is given.
    fn begun(&self, file: &[u8], lower: &Bound, upper: &Bound, counts: Option<&[u64]>) -> Result<Reading, u64> {
        let judges_upper = !self.slips("the upper bound's length is not judged");
        let too_long = self.too_long(lower) || judges_upper && self.too_long(upper);
        if self.slips("9 comes before opening's refusals") && too_long {
            return Err(BOUND);
        }
        let short = counts.map_or(false, |counts| self.too_short(file, lower, upper, counts));
        if self.slips("8 comes before a start's opening") && short {
            return Err(SPACE);
        }
        let meta = open(file)?;
        if self.slips("8 comes before 9 in a start") && short {
            return Err(SPACE);
        }
        if too_long && !self.slips("9 comes after the walk") {
            return Err(BOUND);
        }
        if short && !self.slips("8 comes after the walk of a start") {
            return Err(SPACE);
        }
        let (levels, pending) = if !file.is_empty() {
            self.sought(file, &meta, lower)?
        } else if self.slips("a start on no bytes enters a node") {
            return Err(NODE);
        } else if self.slips("a start on no bytes has a level") {
            (vec![Level::default()], None)
        } else if self.slips("a start on no bytes has a pending key") {
            (Vec::new(), Some(0))
        } else {
            (Vec::new(), None)
        };
        if too_long {
            return Err(BOUND);
        }
        if short {
            return Err(SPACE);
        }
        let keys = match counts {
            Some(counts) => self.number_to_come(file, &meta, lower, upper, counts)?,
            None => 0,
        };
        let counted = if self.slips("the transitions of the start count") { (levels.len() as u64).saturating_sub(1) } else { 0 };
        let bound: &[u8] = if upper.kind == Kind::Unbounded { &[] } else { &upper.bytes };
        Ok(Reading {
            file_len: file.len(),
            kind: upper.kind,
            bound_len: bound.len(),
            bound: bound[..bound.len().min(BOUND_BYTES)].to_vec(),
            pending,
            total: if self.slips("the total starts at 1") { 1 } else { counted },
            keys,
            level_count: levels.len(),
            levels,
        })
    }

    fn too_short(&self, file: &[u8], lower: &Bound, upper: &Bound, counts: &[u64]) -> bool {
        if self.slips("a start's table is not judged") {
            return false;
        }
        if self.slips("a start's table is judged only where it is read") && cross(lower, upper) {
            return false;
        }
        let more = self.slips("a start's table one entry short is taken") as usize;
        counts.len() + more < file.len()
    }

    fn entry(&self, counts: &[u64], addr: usize) -> u128 {
        if addr == 0 && self.slips("a target of 0 counts none") {
            return 0;
        }
        if addr == 0 && !self.slips("a target of 0 has an entry") {
            return 1;
        }
        u128::from(counts.get(addr).copied().unwrap_or(0))
    }

    // The keys up to a bound.
    fn keys_up_to(&self, file: &[u8], meta: &Meta, bound: &Bound, counts: &[u64], own: bool, is_upper: bool) -> Result<u128, u64> {
        let (mut addr, mut keys, mut sum) = (meta.root, 0u128, 0u128);
        for i in 0..=bound.bytes.len() {
            let last = i == bound.bytes.len();
            let unjudged = is_upper
                && (self.slips("the upper bound's nodes are not judged")
                    || last && self.slips("the upper bound's last node is not judged"));
            let node = match judge(file, meta, addr) {
                Some(node) => node,
                None if unjudged => return Ok(keys),
                None => return Err(NODE),
            };
            if self.slips("7 is judged along the upper bound") && sum > MAX_SUM {
                return Err(SUM);
            }
            if last {
                return Ok(keys + u128::from(own && node.is_final));
            }
            let b = bound.bytes[i];
            keys += u128::from(node.is_final && !self.slips("keys that begin a bound are left out of the number"));
            let equal = self.slips("an equal input counts in the number");
            for t in node.transitions.iter().filter(|t| t.inp < b || equal && t.inp == b) {
                keys += self.entry(counts, t.addr);
            }
            if self.slips("19 comes before the upper bound's 5") && keys > MAX_SUM {
                return Err(COUNT);
            }
            match node.transitions.iter().find(|t| t.inp == b) {
                Some(t) => {
                    addr = t.addr;
                    sum += u128::from(t.out);
                }
                None => return Ok(keys),
            }
        }
        unreachable!("the last place answers")
    }

    fn number_to_come(&self, file: &[u8], meta: &Meta, lower: &Bound, upper: &Bound, counts: &[u64]) -> Result<u64, u64> {
        if file.is_empty() {
            return Ok(self.slips("a start on no bytes has a number") as u64);
        }
        let own_upper = match upper.kind {
            Kind::Included => !self.slips("the number leaves an included upper bound out"),
            _ => self.slips("the number counts an excluded upper bound"),
        };
        let own_lower = match lower.kind {
            Kind::Included => self.slips("the number leaves an included lower bound out"),
            _ => !self.slips("the number counts an excluded lower bound"),
        };
        let mut crossed = cross(lower, upper) && !self.slips("crossed bounds are read");
        if self.slips("equal bounds do not cross") && lower.bytes == upper.bytes {
            crossed = false;
        }
        if crossed {
            if self.slips("crossed bounds judge the upper bound's nodes") {
                self.keys_up_to(file, meta, upper, counts, own_upper, true)?;
            }
            return Ok(0);
        }
        let root = self.entry(counts, meta.root);
        if self.slips("the number is the root's entry") {
            return Ok(root as u64);
        }
        let within = match upper.kind {
            Kind::Unbounded => root,
            _ => self.keys_up_to(file, meta, upper, counts, own_upper, true)?,
        };
        let below = match lower.kind {
            Kind::Unbounded => 0,
            _ => self.keys_up_to(file, meta, lower, counts, own_lower, false)?,
        };
        if self.slips("the number wraps") {
            return Ok(within.wrapping_sub(below) as u64);
        }
        if self.slips("19 is not judged of the keys before the lower bound") && below > MAX_SUM {
            return Ok(0);
        }
        if self.slips("the number is 0 where fewer keys are within than before") && within < below {
            return Ok(0);
        }
        if within > MAX_SUM || below > MAX_SUM || within < below {
            return Err(COUNT);
        }
        Ok((within - below) as u64)
    }

    // The levels and the pending key of a start.
    fn sought(&self, file: &[u8], meta: &Meta, lower: &Bound) -> Result<(Vec<Level>, Option<u64>), u64> {
        let bytes: &[u8] = if lower.kind == Kind::Unbounded { &[] } else { &lower.bytes };
        let included = if self.slips("the lower bound's own key is skipped") {
            lower.kind == Kind::Unbounded
        } else {
            lower.kind != Kind::Excluded || self.slips("an excluded lower bound is handed out")
        };
        if self.slips("an unbounded start judges no node") && lower.kind == Kind::Unbounded {
            let pending = judge(file, meta, meta.root).filter(|root| root.is_final).map(|root| root.final_output);
            return Ok((vec![Level { addr: meta.root as u32, ..Level::default() }], pending));
        }
        let mut levels: Vec<Level> = Vec::new();
        let mut pending = None;
        let (mut addr, mut sum, mut led) = (meta.root, 0u128, 0);
        if self.slips("the first level has a byte") {
            led = 1;
        }
        for i in 0..=bytes.len() {
            if self.slips("7 comes before 5 in a start") && sum >> 64 != 0 {
                return Err(SUM);
            }
            let unjudged = self.slips("the node that the lower bound leads to is not judged") && i == bytes.len();
            let node = match judge(file, meta, addr) {
                Some(node) => node,
                None if unjudged && i > 0 && included => break,
                None => return Err(NODE),
            };
            let with_final = if self.slips("a start judges the final output") && i == bytes.len() {
                u128::from(node.final_output)
            } else {
                0
            };
            if (sum + with_final) >> 64 != 0 {
                return Err(SUM);
            }
            let kept = if self.slips("the sums of the start are left out") { 0 } else { sum as u64 };
            let cut = self.slips("an address of the start is cut to 24 bits") && i > 0;
            let mut level =
                Level { addr: if cut { addr % (1 << 24) } else { addr } as u32, inp: led, place: 0, sum: kept };
            let b = match bytes.get(i) {
                Some(&b) => b,
                None => {
                    let pends =
                        lower.kind != Kind::Excluded || self.slips("the empty key is pending from an excluded bound");
                    let lost = self.slips("the pending empty key is lost");
                    if i == 0 && node.is_final && pends && !lost {
                        pending = Some(node.final_output);
                    }
                    if i == 0 || !included {
                        levels.push(level);
                    }
                    break;
                }
            };
            match node.transitions.iter().position(|t| t.inp == b) {
                Some(place) => {
                    let own = i + 1 == bytes.len() && included;
                    level.place = place as u16 + if own { 0 } else { 1 };
                    levels.push(level);
                    let t = node.transitions[place];
                    addr = t.addr;
                    sum += u128::from(t.out);
                    led = b;
                }
                None => {
                    let above = node.transitions.iter().filter(|t| t.inp < b).count() as u16;
                    level.place = if self.slips("a bound that leaves the file starts at the first transition") {
                        0
                    } else if self.slips("a bound that leaves the file starts one transition late") {
                        above + 1
                    } else {
                        above
                    };
                    levels.push(level);
                    break;
                }
            }
        }
        Ok((levels, pending))
    }

    fn past(&self, reading: &Reading, key: &[u8]) -> bool {
        if self.slips("the upper bound is left out") {
            return false;
        }
        if self.slips("a shorter key is before the upper bound") && key.len() < reading.bound.len() {
            return false;
        }
        let kind = match reading.kind {
            Kind::Included if self.slips("an included upper bound is not handed out") => Kind::Excluded,
            Kind::Excluded if self.slips("an excluded upper bound is handed out") => Kind::Included,
            kind => kind,
        };
        passes(kind, &reading.bound, key)
    }

    fn stated_wrong(&self, file: &[u8], reading: &Reading) -> bool {
        let levels = if self.slips("255 levels are the most") {
            LEVELS - 1
        } else if self.slips("257 levels are taken") {
            LEVELS + 1
        } else {
            LEVELS
        };
        let bytes = if self.slips("a held bound of 256 bytes is taken") {
            BOUND_BYTES + 1
        } else if self.slips("a held bound of 255 bytes is refused") {
            BOUND_BYTES - 1
        } else {
            BOUND_BYTES
        };
        let judges_bound = reading.kind != Kind::Unbounded || !self.slips("an unbounded reading's bound is not judged");
        reading.level_count > levels
            || judges_bound && reading.bound_len > bytes
            || reading.file_len != file.len() && !self.slips("a file of another length is taken")
    }

    // What a next answers. `after` is what the reading says then, also where it is refused.
    fn went(&self, file: &[u8], reading: &Reading, after: &mut Reading, key: &mut [u8]) -> Result<Told, u64> {
        let done = reading.levels.is_empty() && reading.pending.is_none();
        if self.slips("after the end nothing is refused") && done {
            return Ok(Told::End);
        }
        let stated_wrong = self.stated_wrong(file, reading);
        if self.slips("11 comes before opening's refusals") && stated_wrong {
            return Err(STATE);
        }
        let meta = open(file)?;
        let least = if self.slips("a next takes a buffer of 254 bytes") { MAX_PATH - 1 } else { MAX_PATH };
        if self.slips("8 comes before 11") && key.len() < least {
            return Err(SPACE);
        }
        if stated_wrong {
            return Err(STATE);
        }
        if self.slips("a pending key is gone after a refusal") {
            after.pending = None;
        }
        if key.len() < least {
            return Err(SPACE);
        }
        if self.slips("a reading ends at the first call") {
            after.pending = None;
            after.set_levels(Vec::new());
            return Ok(Told::End);
        }
        if let Some(value) = reading.pending {
            if self.slips("the levels are judged before the pending key") {
                for level in &reading.levels {
                    judge(file, &meta, level.addr as usize).ok_or(NODE)?;
                }
            }
            if !self.slips("a pending key stays pending") {
                after.pending = None;
            }
            if self.past(reading, b"") && !self.slips("the pending key is handed out past the upper bound") {
                if !self.slips("the pending key ends, and the levels stay") {
                    after.set_levels(Vec::new());
                }
                return Ok(Told::End);
            }
            return Ok(Told::Key(Vec::new(), value));
        }
        self.followed(file, &meta, reading, after, key)
    }

    fn followed(
        &self,
        file: &[u8],
        meta: &Meta,
        reading: &Reading,
        after: &mut Reading,
        key: &mut [u8],
    ) -> Result<Told, u64> {
        let mut total = u128::from(reading.total);
        let mut levels = reading.levels.clone();
        while let Some(&level) = levels.last() {
            let judged = judge(file, meta, level.addr as usize);
            let place = if self.slips("a place is cut to a byte") { level.place % 256 } else { level.place };
            if judged.is_none() && self.slips("a used-up level is not judged") && place > 0 {
                levels.pop();
                continue;
            }
            let node = judged.ok_or(NODE)?;
            let most = if self.slips("6 comes one level late") {
                MAX_PATH + 1
            } else if self.slips("6 comes one level early") {
                MAX_PATH - 1
            } else {
                MAX_PATH
            };
            let deep = levels.len() > most;
            if self.slips("6 comes where nothing is followed") && deep {
                return Err(DEEP);
            }
            let early = self.slips("a level is used up one place early") as usize;
            let t = match node.transitions.get(usize::from(place) + early) {
                Some(_) => node.transitions[usize::from(place)],
                None => {
                    levels.pop();
                    if self.slips("the total counts used-up levels") {
                        total += 1;
                    }
                    continue;
                }
            };
            let sum = u128::from(level.sum) + u128::from(t.out);
            let heavy = sum >> 64 != 0 && !self.slips("a value wraps");
            if self.slips("6 comes after 7") && heavy {
                return Err(SUM);
            }
            if deep {
                return Err(DEEP);
            }
            let target = judge(file, meta, t.addr);
            if self.slips("5 comes before 7 in a step") && target.is_none() {
                return Err(NODE);
            }

            let here = levels.len() - 1;
            if !self.slips("a place is not advanced") {
                levels[here].place += 1;
            }
            let kept = if self.slips("a level has the sum of the one below") { level.sum } else { sum as u64 };
            let addr = if self.slips("an address is cut to 24 bits") { t.addr % (1 << 24) } else { t.addr };
            levels.push(Level { addr: addr as u32, inp: t.inp, place: 0, sum: kept });
            let skipped = if self.slips("the key has the first level's byte") { 0 } else { 1 };
            let mut found: Vec<u8> = levels.iter().skip(skipped).map(|level| level.inp).collect();
            found.truncate(MAX_PATH);
            let past = self.past(reading, &found);
            if past && self.slips("the upper bound comes before 7") {
                after.total = reading.total.saturating_add(1);
                after.set_levels(Vec::new());
                return Ok(Told::End);
            }
            if heavy {
                return self.refused(SUM, levels, after);
            }
            let target = match target {
                Some(target) => target,
                None if past && self.slips("the upper bound comes before the target's 5") => {
                    after.total = reading.total.saturating_add(1);
                    after.set_levels(Vec::new());
                    return Ok(Told::End);
                }
                None => return self.refused(NODE, levels, after),
            };
            let value = sum + u128::from(target.final_output);
            let too_much = target.is_final && value >> 64 != 0 && !self.slips("a value wraps");
            if self.slips("the final output is judged past the upper bound") && too_much {
                return self.refused(SUM, levels, after);
            }
            if !(past && self.slips("the step past the upper bound does not count"))
                && !(self.slips("the total counts keys") && !target.is_final)
            {
                total += 1;
            }
            if past && !(self.slips("the upper bound is judged for held keys alone") && !target.is_final) {
                if self.slips("the buffer holds a key past the upper bound") {
                    key[..found.len()].copy_from_slice(&found);
                }
                if self.slips("levels stay after the end") {
                    levels.pop();
                } else {
                    levels.clear();
                }
                break;
            }
            if target.is_final {
                if self.slips("the number is judged before the final output") && reading.keys == 0 {
                    return self.refused(STATE, levels, after);
                }
                if too_much {
                    return self.refused(SUM, levels, after);
                }
                after.total = self.total(total);
                let value = if self.slips("a value leaves the final output out") { sum } else { value };
                if self.slips("used-up levels go with the last key")
                    && usize::from(levels[here].place) == node.transitions.len()
                {
                    levels.remove(here);
                }
                let repeats = self.slips("the first key is repeated") && reading.total == 0;
                if !repeats {
                    after.set_levels(levels);
                }
                return Ok(Told::Key(found, value as u64));
            }
        }
        after.total = self.total(total);
        after.set_levels(levels);
        Ok(Told::End)
    }

    fn total(&self, total: u128) -> u64 {
        if self.slips("the total wraps") {
            total as u64
        } else {
            total.min((1 << 64) - 1) as u64
        }
    }

    // What a call tells once the number of keys to come is looked at.
    fn number_judged(&self, before: &Reading, after: &mut Reading, told: Told, key: &mut [u8]) -> Told {
        let none = before.keys == 0;
        let pending = before.pending.is_some();
        let late = match &told {
            Told::Key(..) => {
                let comes = self.slips("a key comes where the number says none")
                    || pending && self.slips("the pending key comes where the number says none");
                none && !comes
            }
            Told::End => none && self.slips("11 comes at the end where the number says none"),
            Told::Refused(_) => false,
        };
        if late || none && self.slips("the number is judged first") {
            if let (Told::Key(found, _), true) = (&told, self.slips("the late 11 writes the key")) {
                key[..found.len()].copy_from_slice(found);
            }
            if !self.slips("the late 11 leaves the reading that it reached") {
                *after = before.clone();
            }
            return Told::Refused(STATE);
        }
        let lowers = match &told {
            Told::Key(..) => {
                !self.slips("a key does not lower the number")
                    && !(pending && self.slips("the pending key does not lower the number"))
            }
            Told::End => self.slips("the end lowers the number"),
            Told::Refused(_) => self.slips("a refusal lowers the number"),
        };
        after.keys = before.keys.saturating_sub(lowers as u64);
        if told == Told::End && self.slips("the end leaves no key to come") {
            after.keys = 0;
        }
        told
    }

    // A refusal in the middle of a walk.
    fn refused(&self, why: u64, mut levels: Vec<Level>, after: &mut Reading) -> Result<Told, u64> {
        if self.slips("a refusal counts") {
            after.total = after.total.wrapping_add(1);
        }
        if self.slips("a refusal leaves the levels that it reached") {
            levels.pop();
            after.set_levels(levels);
        }
        Err(why)
    }
}

impl ReadingAnswers for Wrong {
    fn start(&self, file: &[u8], lower: &Bound, upper: &Bound, counts: &[u64], held: &mut Held) -> u64 {
        match self.begun(file, lower, upper, Some(counts)) {
            Ok(begun) => {
                held.put(&begun);
                STARTED
            }
            Err(why) => {
                if self.slips("a refused start writes a number") {
                    held.head[6] = 0;
                }
                why
            }
        }
    }

    fn next(&self, file: &[u8], held: &mut Held, key: &mut [u8], value: &mut [u64; 1]) -> u64 {
        let before = held.reading();
        let mut after = before.clone();
        let mut told = self.went(file, &before, &mut after, key).unwrap_or_else(Told::Refused);
        // a slip may go on where there is no room for the levels or the key
        after.levels.truncate(LEVELS);
        if let Told::Key(found, _) = &mut told {
            found.truncate(key.len());
        }
        told = self.number_judged(&before, &mut after, told, key);
        held.put(&after);
        if let (Told::Key(found, _), true) = (&told, self.slips("the rest of a next's buffer is cleared")) {
            key[found.len()..].iter_mut().for_each(|b| *b = 0);
        }
        if told == Told::End && self.slips("the end writes a value") {
            *value = [0];
        }
        tell(&told, key, value)
    }

    fn start_by(&self, file: &[u8], pattern: &Pattern, lower: &Bound, upper: &Bound, held: &mut Held) -> u64 {
        let mut taken = pattern.clone();
        if self.slips("by pattern: 256 positions are taken by a start") && taken.positions.len() == 256 {
            taken.positions.truncate(POSITIONS);
        }
        Model.start_by(file, &taken, lower, upper, held)
    }

    fn next_by(&self, file: &[u8], pattern: &Pattern, held: &mut Held, key: &mut [u8], value: &mut [u64; 1]) -> u64 {
        let mut taken = pattern.clone();
        let n = taken.positions.len();
        if self.slips("by pattern: any rest is always taken") {
            taken.rest = true;
        }
        if self.slips("by pattern: no rest is taken") {
            taken.rest = false;
        }
        match taken.positions.last_mut() {
            Some(last) if self.slips("by pattern: the last position is any byte") => *last = 256,
            _ => {}
        }
        if self.slips("by pattern: any byte is the byte 0") {
            taken.positions.iter_mut().filter(|p| **p >= 256).for_each(|p| *p = 0);
        }
        if self.slips("by pattern: a position more") && n < POSITIONS {
            taken.positions.push(256);
        }
        if self.slips("by pattern: 256 positions are taken by a next") && n == 256 {
            taken.positions.truncate(POSITIONS);
        }
        let before = held.reading();
        let opens = open(file).is_ok();
        if self.slips("by pattern: 12 comes before 11") && opens && n > POSITIONS {
            return NEXT_REFUSED + PATTERN;
        }
        if self.slips("by pattern: 12 comes after 8") && n > POSITIONS {
            taken.positions.truncate(POSITIONS);
            let answer = Model.next_by(file, &taken, &mut held.clone(), &mut key.to_vec(), &mut [0]);
            let earlier = [SHORT, VERSION, ROOT, LARGE, STATE, SPACE].iter().any(|why| answer == NEXT_REFUSED + why);
            return if earlier { answer } else { NEXT_REFUSED + PATTERN };
        }
        let answer = Model.next_by(file, &taken, held, key, value);
        let dropped = before.pending.is_some() && n > 0 && answer < NEXT_REFUSED && held.reading().level_count > 0;
        if dropped && self.slips("by pattern: an empty key that does not fit is handed out") {
            held.put(&Reading { pending: None, ..before });
            return 0;
        }
        if dropped && self.slips("by pattern: an empty key that does not fit ends the call") {
            let mut ended = Reading { pending: None, ..before };
            ended.set_levels(Vec::new());
            held.put(&ended);
            return END;
        }
        if self.slips("by pattern: a call follows one transition too few") && held.head[5] > before.total {
            held.head[5] -= 1;
        }
        answer
    }

    fn bare_keys(&self, file: &[u8], lower: &Bound, upper: &Bound, most: u64, key: &mut [u8]) -> u64 {
        let mut reading = match self.begun(file, lower, upper, None) {
            Ok(reading) => reading,
            Err(_) => return 0,
        };
        for n in 0..most {
            // the number stands in no key's way
            reading.keys = 1;
            let mut after = reading.clone();
            let mut told = self.went(file, &reading, &mut after, key).unwrap_or_else(Told::Refused);
            after.levels.truncate(LEVELS);
            if let Told::Key(found, _) = &mut told {
                found.truncate(key.len());
            }
            if tell(&told, key, &mut [0]) >= END {
                return n;
            }
            reading = after;
        }
        most
    }
}
