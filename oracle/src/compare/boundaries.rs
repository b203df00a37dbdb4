// Nodes at each boundary of judging: the groups that inputs are compared in, deltas of each size, the index's entries, and files
// that end with a node or a few bytes after it. Each is read alone, in a file that ends with it, and as the root of a whole file by
// lookups that enter it. All are held to the model.

use super::lookup::{got, got_key};
use super::{describe_at, same, Checked, Run};
use crate::answers::At;
use crate::builder;
use crate::generate::largest;
use crate::generate_file::header;
use crate::model::{self, FIRST_NODE, INDEX_ABOVE};
use crate::model_file::MAX_PATH;
use crate::prng::Prng;

// A whole file whose root has any number of transitions, and where the root's parts stand.
struct Made {
    file: Vec<u8>,
    version: u64,
    addr: usize,
    first: usize,
    deltas_at: usize,
    inputs_at: usize,
    index_at: usize,
}

// A right root with n transitions at F, deltas and outputs of these sizes; between the header and it are nodes a/0.
fn root(prng: &mut Prng, version: u64, n: usize, tsize: usize, osize: usize, first: usize) -> Made {
    let mut inputs: Vec<u8> = (0..=255).collect();
    while inputs.len() > n {
        inputs.remove(prng.below(inputs.len()));
    }
    let mut file = header(version, 0);
    file.resize(first, 0xc5);
    let is_final = n == 0 || prng.one_in(2);
    let outputs = if is_final { n + 1 } else { n };
    for _ in 0..outputs * osize {
        file.push(prng.byte());
    }
    let deltas_at = file.len();
    for _ in 0..n {
        let reach = (first - FIRST_NODE).min(largest(tsize) as usize);
        let delta = if prng.one_in(3) { reach } else { prng.between(0, reach) };
        file.extend(&(delta as u64).to_le_bytes()[..tsize]);
    }
    let inputs_at = file.len();
    file.extend(inputs.iter().rev());
    let index_at = file.len();
    if version >= 2 && n > INDEX_ABOVE {
        for b in 0..=255 {
            let absent = if n < 256 { prng.between(n, 255) } else { 0 };
            file.push(inputs.binary_search(&b).unwrap_or(absent) as u8);
        }
    }
    file.push((tsize * 16 + osize) as u8);
    let state = if is_final { 64 } else { 0 };
    match n {
        1..=63 => file.push(state + n as u8),
        256 => file.extend(&[1, state]),
        _ => file.extend(&[n as u8, state]),
    }
    let addr = file.len() - 1;
    let file = builder::whole(file, 0, addr, 0);
    Made { file, version, addr, first, deltas_at, inputs_at, index_at }
}

impl<'a> Run<'a> {
    pub fn boundaries(&mut self) -> Checked {
        self.boundary_inputs()?;
        self.boundary_deltas()?;
        self.boundary_entries()?;
        self.boundary_ends()?;
        self.require(&["two inputs swapped", "two inputs equal"], 90_000)?;
        self.require(&["one delta at its limit"], 250_000)?;
        self.require(&["one index entry wrong"], 100_000)?;
        self.require(&["bytes after a node"], 1_000)?;
        self.require(&["boundaries, sound"], 10_000)?;
        self.require(&["boundaries, unsound"], 400_000)
    }

    // Whether this case is one of those of the run.
    fn takes(&mut self) -> bool {
        self.one_in == 1 || self.prng.one_in(self.one_in)
    }

    // The root alone, in a file that ends with it, and entered by lookups of these bytes and of a value.
    fn boundary(&mut self, made: &Made, bytes: &[u8]) -> Checked {
        let at = At { file: &made.file[..=made.addr], version: made.version, root: made.addr, addr: made.addr };
        if model::judge(at).is_ok() {
            self.count("boundaries, sound");
            self.read(at, None, false)?;
        } else {
            self.count("boundaries, unsound");
            self.read_unsound(at)?;
        }
        let keep = self.prng.next();
        for &b in bytes {
            got(self.ours_file, None, &made.file, &[b], keep)?;
        }
        got_key(self.ours_file, None, &made.file, keep, MAX_PATH, keep)?;
        Ok(())
    }

    // Every count in every version, with the two inputs of each pair swapped, and made equal.
    fn boundary_inputs(&mut self) -> Checked {
        for &version in &[1, 2, 3] {
            for n in 0..=256 {
                let (tsize, osize) = (self.prng.between(1, 3), self.prng.between(0, 2));
                let first = self.prng.between(16, 600);
                let mut made = root(&mut self.prng, version, n, tsize, osize, first);
                self.boundary(&made, &[0, 255])?;
                for i in 1..n {
                    let (p, q) = (made.inputs_at + i - 1, made.inputs_at + i);
                    let (high, low) = (made.file[p], made.file[q]);
                    if self.takes() {
                        made.file.swap(p, q);
                        self.boundary(&made, &[high, low])?;
                        self.count("two inputs swapped");
                    }
                    if self.takes() {
                        made.file[p] = low;
                        made.file[q] = low;
                        self.boundary(&made, &[high, low])?;
                        self.count("two inputs equal");
                    }
                    made.file[p] = high;
                    made.file[q] = low;
                }
            }
        }
        Ok(())
    }

    // Every count and every size of deltas, with the delta at each place at a limit or past it.
    fn boundary_deltas(&mut self) -> Checked {
        for size in 1..=8 {
            for n in 1..=256 {
                let version = 1 + (n as u64) % 3;
                let first = match size {
                    1 => self.prng.between(17, 270),
                    2 => self.prng.between(17, 65_000),
                    _ => self.prng.between(65_000, 80_000),
                };
                let mut made = root(&mut self.prng, version, n, size, n % 3, first);
                let f = made.first as u64;
                // targets 16, 15, 0 and below 0; the largest delta of this size
                let deltas: Vec<u64> =
                    [f - 16, f - 15, f, f + 1, largest(size)].iter().copied().filter(|&d| d <= largest(size)).collect();
                for i in 0..n {
                    if !self.takes() {
                        continue;
                    }
                    let p = made.deltas_at + i * size;
                    let kept = made.file[p..p + size].to_vec();
                    let delta = self.prng.pick(&deltas);
                    made.file[p..p + size].copy_from_slice(&delta.to_le_bytes()[..size]);
                    let b = made.file[made.inputs_at + i];
                    self.boundary(&made, &[b])?;
                    self.count("one delta at its limit");
                    made.file[p..p + size].copy_from_slice(&kept);
                }
            }
        }
        Ok(())
    }

    // Every count that has an index, with each of its 256 entries another.
    fn boundary_entries(&mut self) -> Checked {
        for &version in &[2, 3] {
            for n in INDEX_ABOVE + 1..=256 {
                let first = self.prng.between(16, 600);
                let mut made = root(&mut self.prng, version, n, 3, n % 3, first);
                for b in 0..=255u8 {
                    let p = made.index_at + usize::from(b);
                    let kept = made.file[p];
                    made.file[p] = match version {
                        2 => kept.wrapping_add(1),
                        _ => (n - 1) as u8,
                    };
                    if made.file[p] != kept && self.takes() {
                        self.boundary(&made, &[b])?;
                        self.count("one index entry wrong");
                    }
                    made.file[p] = kept;
                }
            }
        }
        Ok(())
    }

    // One transition, or only a final output, with every pair of sizes, and 0 to 8 bytes after the node.
    fn boundary_ends(&mut self) -> Checked {
        for tsize in 1..=8 {
            for osize in 0..=8 {
                for more in 0..=8 {
                    let mut file = vec![0xc5; FIRST_NODE + 8];
                    for _ in 0..osize {
                        file.push(self.prng.byte());
                    }
                    let mut last = file.clone();
                    file.extend(&self.prng.between(0, 8).to_le_bytes()[..tsize]);
                    file.extend(&[(tsize * 16 + osize) as u8, 0x85]);
                    last.extend(&[(tsize * 16 + osize) as u8, 0, 0x40]);
                    for file in &mut [file, last] {
                        let addr = file.len() - 1;
                        file.resize(addr + 1 + more, 0xff);
                        let at = At { file, version: 3, root: addr, addr };
                        same("a node at a file's end", || describe_at(at), ("made", true), ("model", model::judge(at).is_ok()))?;
                        self.read(at, None, true)?;
                        self.count("bytes after a node");
                    }
                }
            }
        }
        Ok(())
    }
}
