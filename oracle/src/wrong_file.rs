// Wrong answers about whole files, to see that the comparisons notice them: documents 01 and 02 with one slip each.

use std::collections::{HashMap, HashSet};

use crate::answers::{
    At, FileAnswers, Meaning, Meta, COUNT, DEEP, HELD, KEY_REFUSED, LARGE, NODE, NOT_HELD, NO_CHECKSUM, NO_KEY, ROOT, SHORT,
    SPACE, SUM, VERSION,
};
use crate::model::{self, number, FIRST_NODE, MAX_LEN};
use crate::model_file::{self, MAX_PATH, MIN_LEN};
use crate::wrong::Wrong;

pub const SLIPS: &[&str] = &[
    // opening
    "31 bytes are enough",
    "36 bytes are asked for in every version",
    "35 bytes are enough in version 3",
    "a file without bytes is too short",
    "a file without bytes has a checksum",
    "4,294,967,295 bytes are too large",
    "4,294,967,296 bytes are not too large",
    "a length is cut to 32 bits",
    "16,777,217 bytes are too large",
    "2 comes before 4",
    "3 comes before 2",
    "version 0 opens",
    "version 4 opens",
    "a wrong root opens, as in the Rust",
    "root 15 opens",
    "root 0 opens in version 2 at 36 bytes",
    "root 0 opens at 33 to 35 bytes",
    "root 0 opens at any length",
    "version 2 has a checksum",
    "four places are written",
    "a refused file's places are written",
    // admission
    "every file that opens is admitted",
    "every file is turned down",
    "a path of 256 is admitted",
    "a path of 255 is too deep",
    "the chain may stop above 16",
    "a target may be no address of the chain",
    "nodes that no path reaches are not judged",
    "paths from nodes that are not reached count",
    "sums from nodes that are not reached count",
    "nodes that are not reached have entries",
    "targets of nodes that are not reached are not judged",
    "7 is decided before 6",
    "sums leave the final output out",
    "sums wrap",
    "the sum of 2^64 - 1 is too large",
    "an entry is the longest path, and not 1 more",
    "address 0 has an entry",
    "the entries of nodes that are not final have no sum",
    "a table stays as it was after 5",
    "a table stays filled after 6",
    "tables are wiped where a file does not open",
    "tables are wiped before 8",
    "a table is written beyond the file",
    "8 comes before opening's refusals",
    // the table of keys
    "address 0 counts no key",
    "a final node's own key is left out",
    "equal targets of a node count once",
    "keys from nodes that are not reached count",
    "nodes that are not reached have a number of keys",
    "2^64 - 1 keys are too many",
    "2^64 keys wrap",
    "the third table's length is not judged",
    "a third table one entry short is taken",
    "the first two tables are filled before the third's 8",
    "the third table is wiped after 5",
    "the third table stays as it was after 19",
    "the third table stays filled up to the node of 19",
    "the first two tables are wiped after 19",
    "the third table keeps what stood beside its entries",
    "the third table is written beyond the file",
    "a table one entry short is taken",
    "the second table's length is not judged",
    "a file without bytes is turned down",
    // by key
    "a file without bytes is refused by key",
    "a file without bytes holds the empty key",
    "every key has the same value",
    "a value leaves the final output out",
    "a value wraps",
    "7 is judged before 5",
    "the node at the end is not judged",
    "a key may end at any node",
    "keys over 255 bytes are not held",
    "an absent key writes a place",
    // by value
    "a file without bytes is refused by value",
    "a file without bytes is looked at before 8",
    "the first fitting transition is followed",
    "a fitting transition is looked for behind one that does not fit",
    "a key may be found at any node",
    "final outputs count",
    "6 comes one byte late",
    "6 comes one byte early",
    "6 comes after the target's 5",
    "the node that is reached is not judged",
    "the key buffer is written on the way",
    "the rest of the key buffer is cleared",
    "a key buffer of 254 bytes is taken",
    "8 comes before the search's opening",
];

impl Wrong {
    fn opened(&self, file: &[u8]) -> Result<Meta, u64> {
        let n = file.len();
        if n == 0 && !self.slips("a file without bytes is too short") {
            let checksum = if self.slips("a file without bytes has a checksum") { Some(0) } else { None };
            return Ok(Meta { version: 0, ty: 0, len: 0, root: 0, checksum });
        }
        let least = if self.slips("31 bytes are enough") {
            MIN_LEN - 1
        } else if self.slips("36 bytes are asked for in every version") {
            MIN_LEN + 4
        } else {
            MIN_LEN
        };
        if n < least {
            return Err(SHORT);
        }
        let most = if self.slips("4,294,967,295 bytes are too large") {
            MAX_LEN - 1
        } else if self.slips("4,294,967,296 bytes are not too large") {
            MAX_LEN + 1
        } else {
            MAX_LEN
        };
        let version = number(&file[..8]);
        let low = if self.slips("version 0 opens") { 0 } else { 1 };
        let high = if self.slips("version 4 opens") { 4 } else { 3 };
        let versions = low..=high;
        if self.slips("2 comes before 4") && !versions.contains(&version) {
            return Err(VERSION);
        }
        let long = if self.slips("a length is cut to 32 bits") { n % (1 << 32) } else { n };
        if long > most || self.slips("16,777,217 bytes are too large") && n > 16_777_216 {
            return Err(LARGE);
        }
        let tail = if version == 3 { 4 } else { 0 };
        let root = number(&file[n - tail - 8..n - tail]);
        let right = if root == 0 {
            n == MIN_LEN + tail
                || self.slips("root 0 opens in version 2 at 36 bytes") && version == 2 && n == 36
                || self.slips("root 0 opens at 33 to 35 bytes") && n < 36
                || self.slips("root 0 opens at any length")
        } else {
            let least = if self.slips("root 15 opens") { 15 } else { 16 };
            root >= least && u128::from(root) + 17 + tail as u128 == n as u128
                || self.slips("a wrong root opens, as in the Rust")
        };
        if self.slips("3 comes before 2") && !right {
            return Err(ROOT);
        }
        if !versions.contains(&version) {
            return Err(VERSION);
        }
        if n < MIN_LEN + tail - self.slips("35 bytes are enough in version 3") as usize {
            return Err(SHORT);
        }
        if !right {
            return Err(ROOT);
        }
        let summed = version == 3 || self.slips("version 2 has a checksum") && version == 2;
        Ok(Meta {
            version,
            ty: number(&file[8..16]),
            len: number(&file[n - tail - 16..n - tail - 8]),
            root: root as usize,
            checksum: if summed { Some(number(&file[n - 4..]) as u32) } else { None },
        })
    }

    fn judged(&self, file: &[u8], meta: &Meta, addr: usize) -> Option<Meaning> {
        model::judge(At { file, version: meta.version, root: meta.root, addr }).ok()
    }

    fn entries(&self, file: &[u8], meta: &Meta) -> Result<Vec<(usize, u16, u64)>, u64> {
        if self.slips("every file is turned down") {
            return Err(NODE);
        }
        if self.slips("nodes that no path reaches are not judged") {
            return self.reached_entries(file, meta);
        }
        let mut nodes = Vec::new();
        let mut addr = meta.root;
        while addr != 0 {
            let node = match self.judged(file, meta, addr) {
                Some(node) => node,
                None if self.slips("the chain may stop above 16") && addr == FIRST_NODE => break,
                None if self.slips("every file that opens is admitted") => break,
                None => return Err(NODE),
            };
            let first = node.first;
            nodes.push((addr, node));
            if first == FIRST_NODE {
                break;
            }
            addr = first - 1;
        }
        self.entries_of(nodes, meta.root)
    }

    // Only the nodes that a path from the root reaches.
    fn reached_entries(&self, file: &[u8], meta: &Meta) -> Result<Vec<(usize, u16, u64)>, u64> {
        let mut nodes = HashMap::new();
        let mut to_meet = vec![meta.root];
        while let Some(addr) = to_meet.pop() {
            if addr != 0 && !nodes.contains_key(&addr) {
                let node = self.judged(file, meta, addr).ok_or(NODE)?;
                to_meet.extend(node.transitions.iter().map(|t| t.addr));
                nodes.insert(addr, node);
            }
        }
        let mut nodes: Vec<_> = nodes.into_iter().collect();
        nodes.sort_by(|one, other| other.0.cmp(&one.0));
        self.entries_of(nodes, meta.root)
    }

    fn entries_of(&self, nodes: Vec<(usize, Meaning)>, root: usize) -> Result<Vec<(usize, u16, u64)>, u64> {
        let by_addr: HashMap<usize, &Meaning> = nodes.iter().map(|(addr, node)| (*addr, node)).collect();
        let mut used = HashSet::new();
        let mut to_meet = vec![root];
        while let Some(addr) = to_meet.pop() {
            if addr != 0 && used.insert(addr) {
                // a target that is no address of the chain is refused below
                to_meet.extend(by_addr.get(&addr).iter().flat_map(|node| node.transitions.iter().map(|t| t.addr)));
            }
        }
        let mut reach: HashMap<usize, (usize, u128)> = HashMap::new();
        reach.insert(0, (0, 0));
        for (addr, node) in nodes.iter().rev() {
            let final_output = if self.slips("sums leave the final output out") { 0 } else { node.final_output };
            let mut here = (0, u128::from(final_output));
            for t in &node.transitions {
                let there = match reach.get(&t.addr) {
                    Some(there) => *there,
                    None if self.slips("a target may be no address of the chain") => (0, 0),
                    None if self.slips("every file that opens is admitted") => (0, 0),
                    None if self.slips("targets of nodes that are not reached are not judged")
                        && !used.contains(addr) =>
                    {
                        (0, 0)
                    }
                    None => return Err(NODE),
                };
                here = (here.0.max(1 + there.0), here.1.max(u128::from(t.out) + there.1));
            }
            if self.slips("sums wrap") {
                here.1 %= 1 << 64;
            }
            reach.insert(*addr, here);
        }
        let longest = if self.slips("a path of 256 is admitted") {
            256
        } else if self.slips("a path of 255 is too deep") {
            254
        } else {
            255
        };
        let top = if self.slips("the sum of 2^64 - 1 is too large") { (1u128 << 64) - 2 } else { (1u128 << 64) - 1 };
        let all_paths = self.slips("paths from nodes that are not reached count");
        let all_sums = self.slips("sums from nodes that are not reached count");
        let deep = nodes.iter().any(|(addr, _)| (all_paths || used.contains(addr)) && reach[addr].0 > longest);
        let heavy = nodes.iter().any(|(addr, _)| (all_sums || used.contains(addr)) && reach[addr].1 > top);
        if !self.slips("every file that opens is admitted") {
            if self.slips("7 is decided before 6") && heavy {
                return Err(SUM);
            }
            if deep {
                return Err(DEEP);
            }
            if heavy {
                return Err(SUM);
            }
        }
        let more = if self.slips("an entry is the longest path, and not 1 more") { 0 } else { 1 };
        let all = self.slips("nodes that are not reached have entries");
        let nodes: Vec<_> = nodes.iter().filter(|(addr, _)| all || used.contains(addr)).collect();
        let mut entries: Vec<_> =
            nodes.iter().map(|(addr, _)| (*addr, more + reach[addr].0 as u16, reach[addr].1 as u64)).collect();
        if self.slips("the entries of nodes that are not final have no sum") {
            for (entry, (_, node)) in entries.iter_mut().zip(nodes) {
                if !node.is_final {
                    entry.2 = 0;
                }
            }
        }
        if self.slips("address 0 has an entry") {
            entries.push((0, 1, 0));
        }
        Ok(entries)
    }

    // The entries of the table of keys of an admitted file, up to the first that is too large, and whether there is one.
    fn keys_of_nodes(&self, file: &[u8]) -> (Vec<(usize, u64)>, bool) {
        let found = model_file::admitted(file).ok().expect("it was admitted");
        let mut all: HashMap<usize, u128> = HashMap::new();
        let mut entries = Vec::new();
        for (addr, node, _) in found.chain.iter().rev() {
            let mut keys = u128::from(node.is_final && !self.slips("a final node's own key is left out"));
            let mut met = HashSet::new();
            for t in &node.transitions {
                if !met.insert(t.addr) && self.slips("equal targets of a node count once") {
                    continue;
                }
                let none = self.slips("address 0 counts no key");
                keys = keys.saturating_add(if t.addr == 0 { u128::from(!none) } else { all[&t.addr] });
            }
            if self.slips("2^64 keys wrap") {
                keys %= 1 << 64;
            }
            all.insert(*addr, keys);
            let reached = found.reached.contains(addr);
            let top = (1u128 << 64) - 1 - self.slips("2^64 - 1 keys are too many") as u128;
            if keys > top && (reached || self.slips("keys from nodes that are not reached count")) {
                return (entries, true);
            }
            if reached || self.slips("nodes that are not reached have a number of keys") {
                entries.push((*addr, keys as u64));
            }
        }
        (entries, false)
    }

    fn find(&self, file: &[u8], value: u64, space: usize, key: &mut [u8]) -> Result<Option<Vec<u8>>, u64> {
        let least = if self.slips("a key buffer of 254 bytes is taken") { MAX_PATH - 1 } else { MAX_PATH };
        if self.slips("8 comes before the search's opening") && space < least {
            return Err(SPACE);
        }
        let meta = model_file::open(file)?;
        if self.slips("a file without bytes is looked at before 8") && file.is_empty() {
            return Ok(None);
        }
        if space < least {
            return Err(SPACE);
        }
        if file.is_empty() {
            return if self.slips("a file without bytes is refused by value") { Err(NODE) } else { Ok(None) };
        }
        let (mut addr, mut left, mut found) = (meta.root, value, Vec::new());
        loop {
            let node = match self.judged(file, &meta, addr) {
                Some(node) => node,
                None if self.slips("the node that is reached is not judged") && left == 0 => return Ok(Some(found)),
                None => return Err(NODE),
            };
            let enough = if self.slips("final outputs count") { node.final_output } else { 0 };
            if left == enough && (node.is_final || self.slips("a key may be found at any node")) {
                return Ok(Some(found));
            }
            let ts = &node.transitions;
            let leading = ts.iter().position(|t| t.out > left).unwrap_or(ts.len());
            let mut place = leading.checked_sub(1);
            if self.slips("the first fitting transition is followed") {
                place = place.map(|_| 0);
            }
            if self.slips("a fitting transition is looked for behind one that does not fit") {
                place = ts.iter().rposition(|t| t.out <= left);
            }
            let t = match place {
                Some(place) => ts[place],
                None => return Ok(None),
            };
            let most = if self.slips("6 comes one byte late") {
                MAX_PATH + 1
            } else if self.slips("6 comes one byte early") {
                MAX_PATH - 1
            } else {
                MAX_PATH
            };
            if found.len() == most {
                let unsound = self.judged(file, &meta, t.addr).is_none();
                return Err(if self.slips("6 comes after the target's 5") && unsound { NODE } else { DEEP });
            }
            if self.slips("the key buffer is written on the way") {
                key[found.len()] = t.inp;
            }
            found.push(t.inp);
            left -= t.out;
            addr = t.addr;
        }
    }

    fn value(&self, file: &[u8], key: &[u8]) -> Result<Option<u64>, u64> {
        let meta = model_file::open(file)?;
        if self.slips("keys over 255 bytes are not held") && key.len() > MAX_PATH {
            return Ok(None);
        }
        if file.is_empty() {
            return match key {
                _ if self.slips("a file without bytes is refused by key") => Err(NODE),
                b"" if self.slips("a file without bytes holds the empty key") => Ok(Some(0)),
                _ => Ok(None),
            };
        }
        let (mut addr, mut sum) = (meta.root, 0u128);
        for place in 0..=key.len() {
            if self.slips("7 is judged before 5") && sum >> 64 != 0 {
                return Err(SUM);
            }
            let node = match self.judged(file, &meta, addr) {
                Some(node) => node,
                None if self.slips("the node at the end is not judged") && place == key.len() => return Ok(None),
                None => return Err(NODE),
            };
            if self.slips("a value wraps") {
                sum %= 1 << 64;
            }
            if sum >> 64 != 0 {
                return Err(SUM);
            }
            if place == key.len() {
                if !node.is_final && !self.slips("a key may end at any node") {
                    return Ok(None);
                }
                let final_output =
                    if self.slips("a value leaves the final output out") { 0 } else { node.final_output };
                let total = sum + u128::from(final_output);
                if total >> 64 != 0 && !self.slips("a value wraps") {
                    return Err(SUM);
                }
                return Ok(Some(if self.slips("every key has the same value") { 7 } else { total as u64 }));
            }
            match node.transitions.iter().find(|t| t.inp == key[place]) {
                Some(t) => {
                    sum += u128::from(t.out);
                    addr = t.addr;
                }
                None => return Ok(None),
            }
        }
        unreachable!("the last place answers")
    }
}

fn wipe(depths: &mut [u16], sums: &mut [u64], n: usize) {
    depths.iter_mut().take(n).for_each(|entry| *entry = 0);
    sums.iter_mut().take(n).for_each(|entry| *entry = 0);
}

impl FileAnswers for Wrong {
    fn open(&self, file: &[u8], out: &mut [u64]) -> u64 {
        match self.opened(file) {
            Ok(meta) => {
                let checksum = meta.checksum.map_or(NO_CHECKSUM, u64::from);
                let said = [meta.version, meta.ty, meta.len, meta.root as u64, checksum];
                if out.len() >= 5 {
                    out[..5].copy_from_slice(&said);
                } else if self.slips("four places are written") {
                    out.copy_from_slice(&said[..4]);
                }
                0
            }
            Err(why) => {
                if self.slips("a refused file's places are written") {
                    out[0] ^= 1;
                }
                why
            }
        }
    }

    fn admit(&self, file: &[u8], depths: &mut [u16], sums: &mut [u64]) -> u64 {
        let n = file.len();
        let short = if self.slips("a table one entry short is taken") {
            depths.len() + 1 < n || sums.len() + 1 < n
        } else if self.slips("the second table's length is not judged") {
            depths.len() < n
        } else {
            depths.len() < n || sums.len() < n
        };
        if self.slips("8 comes before opening's refusals") && short {
            return SPACE;
        }
        let meta = match model_file::open(file) {
            Ok(meta) => meta,
            Err(why) => {
                if self.slips("tables are wiped where a file does not open") {
                    wipe(depths, sums, n);
                }
                return why;
            }
        };
        if self.slips("tables are wiped before 8") {
            wipe(depths, sums, n);
        }
        if short {
            return SPACE;
        }
        if self.slips("a file without bytes is turned down") && file.is_empty() {
            return NODE;
        }
        let entries = self.entries(file, &meta);
        if self.slips("a table stays as it was after 5") && entries == Err(NODE) {
            return NODE;
        }
        wipe(depths, sums, n);
        if self.slips("a table stays filled after 6") && entries == Err(DEEP) {
            depths[meta.root] = 257;
        }
        if self.slips("a table is written beyond the file") && depths.len() > n {
            depths[n] = 0;
        }
        match entries {
            Ok(entries) => {
                for (addr, depth, sum) in entries {
                    depths[addr] = depth;
                    sums[addr] = sum;
                }
                0
            }
            Err(why) => why,
        }
    }

    fn count_keys(&self, file: &[u8], depths: &mut [u16], sums: &mut [u64], counts: &mut [u64]) -> u64 {
        let n = file.len();
        if let Err(why) = model_file::open(file) {
            return why;
        }
        let third = !self.slips("the third table's length is not judged");
        let more = self.slips("a third table one entry short is taken") as usize;
        if self.slips("the first two tables are filled before the third's 8") {
            model::Model.admit(file, depths, sums);
        }
        if depths.len() < n || sums.len() < n || third && counts.len() + more < n {
            return SPACE;
        }
        let why = model::Model.admit(file, depths, sums);
        if why != 0 {
            if why == NODE && self.slips("the third table is wiped after 5") {
                counts.iter_mut().take(n).for_each(|entry| *entry = 0);
            }
            return why;
        }
        let (keys, many) = self.keys_of_nodes(file);
        let kept = many && self.slips("the third table stays as it was after 19")
            || self.slips("the third table keeps what stood beside its entries");
        if !kept {
            counts.iter_mut().take(n).for_each(|entry| *entry = 0);
        }
        if self.slips("the third table is written beyond the file") && counts.len() > n {
            counts[n] = 0;
        }
        if many && self.slips("the first two tables are wiped after 19") {
            wipe(depths, sums, n);
        }
        if !many || self.slips("the third table stays filled up to the node of 19") {
            for (addr, keys) in keys {
                counts.iter_mut().skip(addr).take(1).for_each(|entry| *entry = keys);
            }
        }
        if many {
            COUNT
        } else {
            0
        }
    }

    fn get(&self, file: &[u8], key: &[u8], out: &mut [u64]) -> u64 {
        match self.value(file, key) {
            Ok(Some(value)) => {
                out.iter_mut().take(1).for_each(|place| *place = value);
                HELD
            }
            Ok(None) => {
                if self.slips("an absent key writes a place") {
                    out.iter_mut().take(1).for_each(|place| *place = 0);
                }
                NOT_HELD
            }
            Err(why) => why,
        }
    }

    fn get_key(&self, file: &[u8], value: u64, key: &mut [u8]) -> u64 {
        match self.find(file, value, key.len(), key) {
            Ok(Some(found)) => {
                let n = found.len().min(key.len());
                key[..n].copy_from_slice(&found[..n]);
                if self.slips("the rest of the key buffer is cleared") {
                    key[n..].iter_mut().for_each(|b| *b = 0);
                }
                found.len() as u64
            }
            Ok(None) => NO_KEY,
            Err(why) => KEY_REFUSED + why,
        }
    }
}
