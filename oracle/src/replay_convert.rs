// The replay list of conversions, for a program that replays them with no Rust at hand: document 02's rows of N7 and small files of version 1, with the new file and the
// table of new addresses. The answers are the model's, which the comparison holds to the Rust's reading of both files. crates/replay_convert/README.md has its layout.

use crate::answers::{LARGE, SPACE};
use crate::compare::{conversion_rows, old_file};
use crate::generate_file::{self, damage, small};
use crate::model::MAX_LEN;
use crate::model_convert::{self, Converted, EDITION};
use crate::model_file;
use crate::prng::Prng;
use crate::replay_list::{List, FILE};

// The kinds of record beside the file.
const NEW_FILE: u8 = 2;
const NEW_ADDRESSES: u8 = 3;
const WORK_TABLES: u8 = 4;

// The longest file of the list, what a refusal is added to, the bytes of a whole output and the entries of a whole table, and how many files there are beside those by hand.
const MOST: usize = 1_000;
const REFUSED: u64 = 20_000;
const OUT: usize = 4_096;
const CELLS: usize = 1_024;
const FILES: usize = 60;

// What a conversion answers in work tables, an output and a table of these lengths, within the limit.
fn answer(file: &[u8], limit: usize, work: usize, out: usize, table: usize) -> Result<Converted, u64> {
    model_file::open(file)?;
    if work < file.len() {
        return Err(SPACE);
    }
    let new = model_convert::convert(file, limit)?;
    if out < new.file.len() || table < file.len() {
        return Err(SPACE);
    }
    Ok(new)
}

fn number(answer: &Result<Converted, u64>) -> u64 {
    match answer {
        Ok(new) => new.file.len() as u64,
        Err(why) => REFUSED + why,
    }
}

impl List {
    fn converted(&mut self, answer: &Result<Converted, u64>) {
        self.count(match answer {
            Ok(_) => "conversions: converted",
            Err(LARGE) => "conversions: 4 LARGE",
            Err(SPACE) => "conversions: 8 SPACE",
            Err(EDITION) => "conversions: 15 EDITION",
            Err(_) => "conversions: another refusal",
        });
    }

    fn new_file(&mut self, file: &[u8], limit: usize, out: usize) {
        let answer = answer(file, limit, CELLS, out, CELLS);
        let part = answer.as_ref().map(|new| new.file.clone()).unwrap_or_default();
        self.put(NEW_FILE, number(&answer), limit as u64, out as u64, &part);
        self.count("new files");
        self.converted(&answer);
    }

    fn new_addresses(&mut self, file: &[u8], table: usize, work: usize) {
        let answer = answer(file, MAX_LEN, work, OUT, table);
        let mut rows = Vec::new();
        for (addr, &to) in answer.iter().flat_map(|new| new.table.iter().enumerate()).filter(|(_, &to)| to != 0) {
            rows.extend(&(addr as u16).to_le_bytes());
            rows.extend(&to.to_le_bytes());
        }
        self.put(NEW_ADDRESSES, number(&answer), table as u64, work as u64, &rows);
        self.count("tables of new addresses");
        self.converted(&answer);
    }

    fn work_tables(&mut self, file: &[u8], limit: usize, out: usize, work: usize) {
        let answer = answer(file, limit, work, out, CELLS);
        let part = [&(limit as u32).to_le_bytes()[..], &(out as u16).to_le_bytes()].concat();
        self.put(WORK_TABLES, number(&answer), 0, work as u64, &part);
        self.count("work tables");
        self.converted(&answer);
    }

    // The file, with what it is converted to in roomy buffers.
    fn old_file(&mut self, file: &[u8]) {
        assert!(file.len() <= MOST);
        self.put(FILE, 0, 0, 0, file);
        self.count("files");
        self.new_file(file, MAX_LEN, OUT);
        self.new_addresses(file, file.len(), file.len());
        self.work_tables(file, MAX_LEN, OUT, file.len() + 2);
    }

    // The same file with each buffer just long enough and too short, and with limits around the new file's length.
    fn limits(&mut self, file: &[u8]) {
        let len = model_convert::convert(file, MAX_LEN).map(|new| new.file.len()).unwrap_or(40);
        let n = file.len();
        for &(limit, out) in &[(len, len), (len - 1, OUT), (len - 1, len - 1), (MAX_LEN, len - 1), (0, 0)] {
            self.new_file(file, limit, out);
            self.work_tables(file, limit, out, n);
        }
        for &(table, work) in &[(n.max(1) - 1, n), (n, n.max(1) - 1), (CELLS, CELLS)] {
            self.new_addresses(file, table, work);
        }
        self.work_tables(file, MAX_LEN, OUT, n.max(1) - 1);
    }
}

// The list, and how many answers of each kind it has.
pub fn list() -> (Vec<u8>, Vec<(&'static str, usize)>) {
    let mut prng = Prng::new(22);
    let mut list = List::default();
    for (name, file, _) in conversion_rows() {
        list.old_file(&file);
        if file.len() < 120 || name == "33-transitions" {
            list.limits(&file);
        }
    }
    let mut made = 0;
    while made < FILES {
        let file = match made % 3 {
            0 => generate_file::unused(&mut prng),
            1 => generate_file::chained(&mut prng, 1, 1 + made % 9, made % 8, false).file,
            _ => small(&mut prng).file,
        };
        if file.len() < 40 || file.len() > 160 {
            continue;
        }
        let cut = crate::builder::trailer_size(u64::from(file[0]));
        let mut old = old_file(&file[16..file.len() - cut]);
        if model_convert::convert(&old, MAX_LEN).is_err() {
            continue;
        }
        made += 1;
        list.old_file(&old);
        list.limits(&old);
        let at = prng.between(16, old.len() - 1);
        old[at] = damage(&mut prng, old[at]);
        list.old_file(&old);
    }
    list.finish()
}
