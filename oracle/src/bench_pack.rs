// Time of packing a list, ours beside a plain builder over the Rust's `Registry` and `compile_to` (docs/PERFORMANCE.md). The builder pushes what
// is left of an output down with each key, as Mihov and Maurel have it.

use std::time::Instant;

use crate::bench::{sets, Set};
use crate::model_pack::{self, PackAnswers, EMPTY, TABLE};
use crate::raw::Builder;

const KEYS: usize = 500_000;
const ROWS: usize = 10_000;
const ROUNDS: usize = 5;

#[derive(Default)]
struct Unfinished {
    is_final: bool,
    final_output: u64,
    transitions: Vec<(u8, u64, usize)>,
    last: Option<(u8, u64)>,
}

impl Unfinished {
    fn push(&mut self, output: u64) {
        if self.is_final {
            self.final_output += output;
        }
        for t in &mut self.transitions {
            t.1 += output;
        }
        if let Some(last) = &mut self.last {
            last.1 += output;
        }
    }
}

// The file of these pairs, as long as it may be expected to be.
fn built(pairs: &[(Vec<u8>, u64)]) -> Vec<u8> {
    let mut store = Builder::store(ROWS);
    let mut file = Vec::new();
    file.extend(&2u64.to_le_bytes());
    file.extend(&0u64.to_le_bytes());
    let mut path = vec![Unfinished::default()];
    let mut finish = |path: &mut Vec<Unfinished>, place: usize, file: &mut Vec<u8>| {
        while path.len() > place + 1 {
            let node = path.pop().expect("there are more");
            let addr = store(node.is_final, node.final_output, &node.transitions, file);
            let above = path.last_mut().expect("the root stays");
            let (inp, out) = above.last.take().expect("it led here");
            above.transitions.push((inp, out, addr));
        }
        path.len()
    };
    for (key, value) in pairs {
        let (mut left, mut shared) = (*value, 0);
        while shared < key.len() {
            let rest = match &mut path[shared].last {
                Some(last) if last.0 == key[shared] => {
                    let common = last.1.min(left);
                    let rest = last.1 - common;
                    last.1 = common;
                    left -= common;
                    rest
                }
                _ => break,
            };
            shared += 1;
            if rest > 0 {
                path[shared].push(rest);
            }
        }
        finish(&mut path, shared, &mut file);
        if shared < key.len() {
            path[shared].last = Some((key[shared], left));
            for &b in &key[shared + 1..] {
                path.push(Unfinished { last: Some((b, 0)), ..Unfinished::default() });
            }
            path.push(Unfinished { is_final: true, ..Unfinished::default() });
        } else {
            path[0].is_final = true;
            path[0].final_output = left;
        }
    }
    finish(&mut path, 0, &mut file);
    let root = path.pop().expect("the root stays");
    let addr = store(root.is_final, root.final_output, &root.transitions, &mut file);
    crate::builder::whole(file, pairs.len() as u64, addr, 0)
}

pub fn bench(ours: &dyn PackAnswers) {
    println!("packing of lists, nanoseconds a key; {} rows, the least of {} rounds", ROWS, ROUNDS);
    println!("    {:<28}{:>8} {:>8} {:>8}", "", "ours", "Rust", "ratio");
    for Set { name, keys } in sets() {
        // values in no order, so that outputs are pushed
        let value = |i: usize| (i as u64).wrapping_mul(0x9e37_79b9_7f4a_7c15) >> 44;
        let pairs: Vec<(Vec<u8>, u64)> =
            keys.into_iter().take(KEYS).enumerate().map(|(i, key)| (key, value(i))).collect();
        let list = model_pack::list(&pairs);
        let file = built(&pairs);
        let mut out = vec![0; file.len()];
        let mut cells = vec![EMPTY; 2 * ROWS];
        let (mut inputs, mut leasts, mut targets) = (vec![0; TABLE], vec![0; TABLE], vec![0; TABLE]);
        let mut least = (f64::INFINITY, f64::INFINITY);
        for _ in 0..ROUNDS {
            let start = Instant::now();
            let said = ours.pack(u32::max_value(), &list, &mut out, &mut cells, &mut inputs, &mut leasts, &mut targets);
            let between = Instant::now();
            assert_eq!(built(&pairs).len(), file.len());
            least = (least.0.min((between - start).as_secs_f64()), least.1.min(between.elapsed().as_secs_f64()));
            assert_eq!((said, &out), (file.len() as u64, &file), "the bytes are the builder's");
        }
        let each = |seconds: f64| seconds * 1e9 / pairs.len() as f64;
        let (ours, rust) = (each(least.0), each(least.1));
        println!("    {:<28}{:>8.1} {:>8.1} {:>8.2}", name, ours, rust, ours / rust);
    }
}
