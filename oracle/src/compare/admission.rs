// Admission, and the filling of the table of keys, by each: the verdict, and the tables entry by entry.

use std::collections::HashMap;
use std::time::Instant;

use super::counting::{counted, COUNTS_REFUSED};
use super::opening::{refusal_name, REFUSALS};
use super::{
    describe_file, same, smallest, Checked, Difference, Run, FILES_DAMAGED, LARGE_FILES_DAMAGED, UNUSED_FILES,
};
use crate::answers::{FileAnswers, Meaning, DEEP, NODE, SHORT, SPACE, SUM};
use crate::generate_file::{self, damage, file_of, medium, small};
use crate::given_file;
use crate::hand_made::{d, deep_and_sum, final_sums, one_key, root_0, sums, unused_path, unused_sum};
use crate::model::{INDEX_ABOVE, MAX_LEN};
use crate::model_file::{self, Admitted, MAX_PATH, MAX_SUM};
use crate::prng::Prng;
use crate::sparse::Zeros;

// A file by hand with its verdict; where it is admitted, the address of each reached node with 1 plus its longest path and its
// largest sum.
struct Row {
    name: &'static str,
    file: fn() -> Vec<u8>,
    want: u64,
    entries: &'static [(usize, u16, u64)],
}

const TOP: u64 = u64::max_value();

const ROWS: &[Row] = &[
    Row { name: "root-0", file: root_0, want: 0, entries: &[] },
    Row { name: "root-of-nothing", file: || file_of(3, &[0, 0, 0]), want: 0, entries: &[(18, 1, 0)] },
    Row { name: "D", file: d, want: 0, entries: &[(21, 2, 2), (29, 3, 4)] },
    Row { name: "one-node-version-1", file: || file_of(1, &[7, 1, 0, 0x40]), want: 0, entries: &[(19, 1, 7)] },
    Row { name: "short", file: || vec![0; 31], want: SHORT, entries: &[] },
    // a/0 at 16 leads to 15
    Row { name: "first-node-next", file: || file_of(3, &[0xc1]), want: NODE, entries: &[] },
    // the root's F - 1 is 17, and the node there begins at 15
    Row { name: "chain-ends-below-16", file: || file_of(3, &[0, 0x40, 0xc5]), want: NODE, entries: &[] },
    Row { name: "chain-ends-above-16", file: || file_of(3, &[0x40, 0, 0, 0x40]), want: NODE, entries: &[] },
    // the delta of 2 leads into the first node
    Row { name: "target-in-a-node", file: || file_of(3, &[0, 0, 0x40, 2, 0x10, 0x85]), want: NODE, entries: &[] },
    Row {
        name: "target-on-the-chain",
        file: || file_of(3, &[0, 0, 0x40, 1, 0x10, 0x85]),
        want: 0,
        entries: &[(18, 1, 0), (21, 2, 0)],
    },
    // no path from the root reaches the node at 19
    Row {
        name: "unreached-node",
        file: || file_of(3, &[9, 1, 0, 0x40, 0, 0x10, 0x85]),
        want: 0,
        entries: &[(22, 2, 0)],
    },
    // paths over 255 and sums past 2^64 - 1 count only from reached nodes
    Row { name: "unused-path-of-256", file: || unused_path(256, &B_TO_0), want: 0, entries: &[(276, 2, 0)] },
    Row { name: "path-of-256", file: || unused_path(256, &[]), want: DEEP, entries: &[] },
    Row { name: "unused-path-of-65536", file: || unused_path(65_536, &B_TO_0), want: 0, entries: &[(65_556, 2, 0)] },
    Row { name: "unused-path-of-65792", file: || unused_path(65_792, &B_TO_0), want: 0, entries: &[(65_812, 2, 0)] },
    Row { name: "unused-sum", file: || unused_sum(&B_TO_0), want: 0, entries: &[(33, 2, 0)] },
    Row { name: "sum", file: || unused_sum(&[]), want: SUM, entries: &[] },
    // the node at 19 is shared with the unused one at 23
    Row {
        name: "shared-with-an-unused-node",
        file: || file_of(3, &[7, 1, 0, 0x40, 1, 1, 0x11, 0x85, 5, 5, 0x11, 0x9a, 1, 1, 0x11, 0x8a]),
        want: 0,
        entries: &[(19, 1, 7), (27, 2, 12), (31, 3, 13)],
    },
    Row { name: "unused-and-unsound", file: || file_of(3, &[0xc1, 0, 0x10, 0x9a]), want: NODE, entries: &[] },
    Row {
        name: "unused-target-in-a-node",
        file: || file_of(3, &[0, 0x10, 0x85, 2, 0x10, 0x9a, 0, 0x10, 0x9a]),
        want: NODE,
        entries: &[],
    },
    // the root alone is reached
    Row {
        name: "all-unused-but-the-root",
        file: || file_of(2, &[0, 0x10, 0x85, 0xc5, 0xc5, 0, 0, 0x40, 0, 0x10, 0x9a]),
        want: 0,
        entries: &[(26, 2, 0)],
    },
    // 18 is reached from 19 and from the root, and 20 is unused
    Row {
        name: "reached-twice-and-from-an-unused-node",
        file: || file_of(1, &[0, 0x10, 0x85, 0xc5, 0xc6, 3, 2, b'b', b'a', 0x10, 0x02]),
        want: 0,
        entries: &[(18, 2, 0), (19, 3, 0), (26, 4, 0)],
    },
    Row {
        name: "unreached-node-unsound",
        file: || file_of(3, &[9, 1, 0, 0x00, 0, 0x10, 0x85]),
        want: NODE,
        entries: &[],
    },
    Row { name: "sum-exact", file: || sums(0, TOP), want: 0, entries: &[(19, 2, 0), (30, 3, TOP)] },
    Row { name: "sum-exact-of-two", file: || sums(1, TOP - 1), want: 0, entries: &[(19, 2, 1), (30, 3, TOP)] },
    Row { name: "sum-one-more", file: || sums(1, TOP), want: SUM, entries: &[] },
    Row { name: "final-sum-exact", file: || final_sums(1, TOP - 1), want: 0, entries: &[(19, 1, 1), (30, 2, TOP)] },
    Row { name: "final-sum-one-more", file: || final_sums(2, TOP - 1), want: SUM, entries: &[] },
    Row { name: "final-sum-top-and-one", file: || final_sums(1, TOP), want: SUM, entries: &[] },
    Row { name: "key-of-256", file: || one_key(256), want: DEEP, entries: &[] },
    // 6 is decided before 7
    Row { name: "deep-and-sum", file: deep_and_sum, want: DEEP, entries: &[] },
];

// "b" to address 0, alone.
const B_TO_0: [u8; 3] = [0, 0x10, 0x9a];

// ---- one file

// What admission was given beside the file: the lengths of both tables, with that of the table of keys for the filling, and what
// stands in them.
#[derive(Clone, Copy)]
pub struct Lent {
    pub depths: usize,
    pub sums: usize,
    pub counts: usize,
    pub keep: u64,
}

pub fn describe_lent(file: &[u8], lent: Lent) -> String {
    format!("tables of {}, {} and {} entries, {}", lent.depths, lent.sums, lent.counts, describe_file(file))
}

// Admission and the filling by the model and by ours. What the model says of admission.
pub fn admitted(ours: Option<&dyn FileAnswers>, file: &[u8], lent: Lent) -> Result<Result<Admitted, u64>, Difference> {
    let input = || describe_lent(file, lent);
    let mut depths = vec![lent.keep as u16; lent.depths];
    let mut sums = vec![lent.keep; lent.sums];
    let judged = match model_file::open(file) {
        Err(why) => Err(why),
        Ok(_) if lent.depths < file.len() || lent.sums < file.len() => Err(SPACE),
        Ok(_) => {
            let judged = model_file::admitted(file);
            model_file::fill(file.len(), &judged, &mut depths, &mut sums);
            judged
        }
    };
    if let Some(ours) = ours {
        let want = verdict(&judged);
        let mut our_depths = vec![lent.keep as u16; lent.depths];
        let mut our_sums = vec![lent.keep; lent.sums];
        same("admission", input, ("model", want), ("ours", ours.admit(file, &mut our_depths, &mut our_sums)))?;
        same("the table of paths", input, ("model", &depths), ("ours", &our_depths))?;
        same("the table of sums", input, ("model", &sums), ("ours", &our_sums))?;
        counted(ours, file, lent, &judged, (depths, sums))?;
    }
    Ok(judged)
}

fn verdict(judged: &Result<Admitted, u64>) -> u64 {
    judged.as_ref().err().copied().unwrap_or(0)
}

// The Rust opens an admitted file and reads the same nodes along the whole chain; and where the paths are few, the numbers
// are those of the paths themselves.
fn walked(file: &[u8], admitted: &Admitted) -> Result<bool, Difference> {
    let input = || describe_file(file);
    // only the definition takes a shorter file
    if file.len() >= given_file::LEAST {
        let rust = given_file::open(file);
        same(
            "what an admitted file says",
            input,
            ("the Rust", rust.as_ref().map(|r| r.meta())),
            ("model", Some(admitted.meta)),
        )?;
        let chain: Vec<(usize, Meaning)> = admitted.chain.iter().map(|(addr, node, _)| (*addr, node.clone())).collect();
        same("the nodes of an admitted file", input, ("the Rust", rust.and_then(|r| r.chain())), ("model", Some(chain)))?;
    }
    let nodes: HashMap<usize, &Meaning> = admitted.chain.iter().map(|(addr, node, _)| (*addr, node)).collect();
    let mut steps = 600;
    for (addr, _, reach) in &admitted.chain {
        match model_file::reach_by_paths(&nodes, *addr, &mut steps) {
            Some(by_paths) => {
                let input = || format!("node {}, {}", addr, describe_file(file));
                same("longest path and largest sum", input, ("every path", by_paths), ("model", *reach))?;
            }
            None => return Ok(false),
        }
    }
    Ok(true)
}

impl<'a> Run<'a> {
    pub fn admission(&mut self) -> Checked {
        self.prng = Prng::new(5);
        self.admission_rows()?;
        self.counting_rows()?;
        self.many_keys()?;
        self.admission_limits()?;
        self.admission_deep()?;

        // small files, each damaged at every byte
        let mut done = 0;
        while done < FILES_DAMAGED / self.one_in {
            let made = small(&mut self.prng);
            self.count("small files, undamaged");
            self.admission_of(&made.file)?;
            let mut file = made.file.clone();
            for i in 0..file.len() {
                let b = file[i];
                file[i] = damage(&mut self.prng, b);
                if file[i] != b {
                    self.count("small files, one byte damaged");
                    done += 1;
                    self.admission_of(&file)?;
                }
                file[i] = b;
            }
            // cut short, or longer
            file.truncate(self.prng.below(made.file.len()));
            self.count("files cut short, or longer");
            self.admission_of(&file)?;
            let mut file = made.file.clone();
            file.insert(self.prng.below(made.file.len()), self.prng.byte());
            self.count("files cut short, or longer");
            self.admission_of(&file)?;
        }
        // larger ones, damaged at random
        let mut done = 0;
        while done < LARGE_FILES_DAMAGED / self.one_in {
            let made = medium(&mut self.prng);
            self.count("larger files, undamaged");
            self.admission_of(&made.file)?;
            for _ in 0..200 {
                let mut file = made.file.clone();
                for _ in 0..self.prng.pick(&[1, 1, 1, 2, 5]) {
                    let i = self.prng.below(file.len());
                    file[i] = damage(&mut self.prng, file[i]);
                }
                self.count("larger files, damaged at random");
                done += 1;
                self.admission_of(&file)?;
            }
        }
        // chains put on top of others, each damaged at random too
        for _ in 0..UNUSED_FILES / 5 / self.one_in {
            let whole = generate_file::unused(&mut self.prng);
            self.count("chains on top of others");
            self.admission_of(&whole)?;
            for _ in 0..4 {
                let mut file = whole.clone();
                let i = self.prng.below(file.len());
                file[i] = damage(&mut self.prng, file[i]);
                self.count("chains on top of others, one byte damaged");
                self.admission_of(&file)?;
            }
        }
        self.require(&["files"], 200_000)?;
        self.require(&["admitted", "admitted: unused nodes"], 20_000)?;
        self.require(&["chains on top of others, one byte damaged"], 80_000)?;
        self.require(&REFUSALS, 100)?;
        self.require(&[COUNTS_REFUSED, "the table of keys alone too short", "files with 2^64 - 1 keys"], 120)?;
        self.require(&["files with over 2^64 - 1 keys from an unused node alone"], 120)?;
        self.require(
            &[
                "admitted: version 1",
                "admitted: version 2",
                "admitted: version 3",
                "admitted: root 0",
                "admitted: a root of nothing",
                "admitted: a node shared",
                "admitted: a node with an index",
                "admitted: 256 transitions",
                "admitted: numbered",
                "admitted: every path followed",
                "admitted: an unused path over 255",
                "admitted: an unused sum past 2^64 - 1",
                "admitted: unused nodes that lead to reached ones",
            ],
            100,
        )
    }

    // One file: tables with some entries more than the file has bytes, and now and then tables that are short.
    pub fn admission_of(&mut self, file: &[u8]) -> Checked {
        let n = file.len();
        let keep = self.prng.next() | 1;
        let (depths, sums) = (n + self.prng.below(3), n + self.prng.below(3));
        let lent = Lent { depths, sums, counts: n + keep as usize / 2 % 3, keep };
        let ours = self.ours_file;
        self.count("files");
        match smallest(file, |file| admitted(ours, file, lent))? {
            Ok(found) => {
                if walked(file, &found)? {
                    self.count("admitted: every path followed");
                }
                self.count_admitted(&found);
                self.count(if found.counts(n).is_ok() { "tables of keys filled" } else { COUNTS_REFUSED });
            }
            Err(why) => self.count(refusal_name(why)),
        }
        if self.prng.one_in(10) {
            let short = match self.prng.below(3) {
                0 => n.saturating_sub(1),
                1 => self.prng.below(n + 1),
                _ => 0,
            };
            // the table of keys alone is short too
            let third = Lent { counts: short, ..lent };
            smallest(file, |file| admitted(ours, file, third).map(|_| ()))?;
            if short < n && model_file::open(file).is_ok() {
                self.count("the table of keys alone too short");
            }
            let lent = match self.prng.below(3) {
                0 => Lent { depths: short, ..lent },
                1 => Lent { sums: short, ..lent },
                _ => Lent { depths: short, sums: short, ..lent },
            };
            if let Err(SPACE) = smallest(file, |file| admitted(ours, file, lent))? {
                self.count(refusal_name(SPACE));
            }
        }
        Ok(())
    }

    fn count_admitted(&mut self, found: &Admitted) {
        self.count("admitted");
        self.count(match found.meta.version {
            1 => "admitted: version 1",
            2 => "admitted: version 2",
            _ => "admitted: version 3",
        });
        let mut targets: Vec<usize> =
            found.chain.iter().flat_map(|(_, node, _)| node.transitions.iter().map(|t| t.addr)).collect();
        targets.sort();
        let nothing = |(_, node, _): &(usize, Meaning, _)| !node.is_final && node.transitions.is_empty();
        let indexed = |(_, node, _): &(usize, Meaning, _)| node.transitions.len() > INDEX_ABOVE;
        let unused = || found.chain.iter().filter(|(addr, _, _)| !found.reached.contains(addr));
        let leads_in =
            |(_, node, _): &(usize, Meaning, _)| node.transitions.iter().any(|t| found.reached.contains(&t.addr));
        for &(there, what) in &[
            (found.meta.root == 0, "admitted: root 0"),
            (found.chain.first().map_or(false, nothing), "admitted: a root of nothing"),
            (targets.windows(2).any(|t| t[0] == t[1] && t[0] != 0), "admitted: a node shared"),
            (found.meta.version > 1 && found.chain.iter().any(indexed), "admitted: a node with an index"),
            (found.chain.iter().any(|(_, node, _)| node.transitions.len() == 256), "admitted: 256 transitions"),
            (model_file::numbered(found), "admitted: numbered"),
            (unused().next().is_some(), "admitted: unused nodes"),
            (unused().any(|(_, _, r)| r.longest > MAX_PATH), "admitted: an unused path over 255"),
            (unused().any(|(_, _, r)| r.largest > MAX_SUM), "admitted: an unused sum past 2^64 - 1"),
            (unused().any(leads_in), "admitted: unused nodes that lead to reached ones"),
        ] {
            if there {
                self.count(what);
            }
        }
    }

    fn admission_rows(&mut self) -> Checked {
        for row in ROWS {
            let file = (row.file)();
            let input = || format!("row \"{}\", {}", row.name, describe_file(&file));
            let judged = model_file::admitted(&file);
            same("a row", input, ("row", row.want), ("model", verdict(&judged)))?;
            if let Ok(found) = &judged {
                let mut entries = found.entries();
                entries.reverse();
                same("a row's entries", input, ("row", row.entries), ("model", &entries[..]))?;
            }
            self.count("rows by hand");
            self.admission_of(&file)?;
        }
        Ok(())
    }

    // Paths of 255 and 256 bytes, and tables one entry short, equal and longer.
    fn admission_limits(&mut self) -> Checked {
        let longest = one_key(255);
        let n = longest.len();
        let keep = self.prng.next() | 1;
        let space = [
            (n, n, 0),
            (n + 1, n, 0),
            (n, n + 1, 0),
            (n + 9, n + 4, 0),
            (n - 1, n, SPACE),
            (n, n - 1, SPACE),
            (n - 1, n - 1, SPACE),
            (0, n, SPACE),
            (n, 0, SPACE),
            (n - 1, n + 1, SPACE),
        ];
        for &(depths, sums, want) in &space {
            let lent = Lent { depths, sums, counts: depths.max(sums), keep };
            let judged = admitted(self.ours_file, &longest, lent)?;
            same("tables", || describe_lent(&longest, lent), ("wanted", want), ("model", verdict(&judged)))?;
            self.count("tables at the limit");
        }
        // opening's refusals come before SPACE
        let mut lent = Lent { depths: 0, sums: 0, counts: 0, keep };
        let large = Zeros::new(MAX_LEN + 128);
        for i in 1..=120 {
            lent.depths = i;
            let judged = admitted(self.ours_file, &large[..MAX_LEN + i], lent)?;
            self.count("files");
            self.count(refusal_name(verdict(&judged)));
        }
        for _ in 0..120 {
            for file in vec![root_0(), file_of(3, &[0, 0, 0]), longest.clone()] {
                self.admission_of(&file)?;
            }
        }
        Ok(())
    }

    // Paths around 255, and around the numbers at which an entry of 16 bits would wrap.
    fn admission_deep(&mut self) -> Checked {
        for i in 0..(600 / self.one_in).max(20) {
            let prng = &mut self.prng;
            let n = if i % 4 == 0 { prng.between(250, 260) } else { prng.between(240, 300) };
            let (version, size) = (prng.pick(&[1, 2, 3]), prng.pick(&[0, 0, 1, 7, 8]));
            let nodes: &[u8] = if prng.one_in(2) { &[0, 0, 0x40] } else { &[0, 0x10, 0x85] };
            let finals = prng.one_in(2);
            let file = generate_file::path_over(prng, version, nodes, n, size, finals);
            self.count("paths around 255");
            self.admission_of(&file)?;
        }
        for &n in &[65_278, 65_533, 65_534, 65_535, 65_536, 65_537, 65_790, 65_791, 131_071, 131_072, 131_100] {
            let mut nodes = vec![0, 0, 0x40];
            nodes.extend(vec![0xc5; n]);
            self.count("paths around 65,536");
            self.admission_of(&file_of(3, &nodes))?;
        }
        Ok(())
    }

    // ---- dense files

    // A file of 16,777,217 bytes, and one in which its nodes stand 15 times: admitted, and walked by the Rust. The times are of
    // this run. The tables of the second have 2.5 GiB; those of the longest file would have 40, so it is not among these.
    pub fn admission_of_dense(&mut self) -> Checked {
        if self.one_in != 1 {
            return Ok(());
        }
        let file = generate_file::dense(&mut Prng::new(8), 16_777_217);
        let lent = Lent { depths: file.len(), sums: file.len(), counts: file.len(), keep: 1 };
        let judged = admitted(self.ours_file, &file, lent)?;
        same("a dense file", || describe_file(&file), ("wanted", 0), ("model", verdict(&judged)))?;
        let found = judged.ok().expect("its verdict is 0");
        walked(&file, &found)?;
        // the model that keeps no node says the same
        let kept: Vec<_> = found.entries().into_iter().rev().map(|(a, d, s)| (a as u32, d, s)).collect();
        drop(found);
        let entries = model_file::entries(&file).map(|entries| entries.nodes);
        same(
            "the entries of the tables",
            || describe_file(&file),
            ("all nodes kept", Ok(kept)),
            ("none kept", entries),
        )?;
        self.dense(&file)?;
        self.count("files of 16,777,217 bytes admitted");
        self.dense(&generate_file::repeated(&file, 268_435_456))?;
        self.count("files of 268,435,456 bytes admitted");
        Ok(())
    }

    // Both tables entry by entry, and the times.
    fn dense(&mut self, file: &[u8]) -> Checked {
        let input = || describe_file(file);
        let want = model_file::entries(file);
        same("a dense file", input, ("wanted", None), ("model", want.as_ref().err()))?;
        let want = want.ok().expect("it is admitted");
        let best = |mut run: Box<dyn FnMut() -> u64 + '_>| {
            (0..3)
                .map(|_| {
                    let start = Instant::now();
                    std::hint::black_box(run());
                    start.elapsed().as_secs_f64()
                })
                .fold(f64::INFINITY, f64::min)
        };
        let per_byte = |seconds: f64| seconds * 1e9 / file.len() as f64;
        let rust = given_file::open(file).expect("the Rust opens an admitted file");
        same("all that the nodes say", input, ("the Rust", rust.walk_timed()), ("model", want.said))?;
        let walk = best(Box::new(|| rust.walk_timed()));
        println!("dense file: {} bytes, {} nodes", file.len(), want.all);
        println!("    the Rust walks its nodes:  {:.3} s, {:.2} ns a byte", walk, per_byte(walk));
        if let Some(ours) = self.ours_file {
            let (mut depths, mut sums) = (Zeros::<u16>::new(file.len()), Zeros::<u64>::new(file.len()));
            same("admission", input, ("model", 0), ("ours", ours.admit(file, &mut depths, &mut sums)))?;
            let mut nodes = want.nodes.iter().peekable();
            for i in 0..file.len() {
                let here = nodes.next_if(|node| node.0 as usize == i);
                let entry = here.map_or((0, 0), |node| (node.1, node.2));
                let input = || format!("entry {}, {}", i, describe_file(file));
                same("the tables", input, ("model", entry), ("ours", (depths[i], sums[i])))?;
            }
            same("the nodes in the tables", input, ("model", None), ("ours", nodes.next()))?;
            let admit = best(Box::new(|| ours.admit(file, &mut depths, &mut sums)));
            println!("    ours admits it:            {:.3} s, {:.2} ns a byte", admit, per_byte(admit));
            println!("    ratio:                     {:.2}", admit / walk);
        }
        Ok(())
    }
}
