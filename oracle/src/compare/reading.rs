// One node, read by each: what every comparison of stored nodes comes down to.

use super::{describe_at, same, Checked, Difference, Run};
use crate::answers::{place_number, At, Meaning, Place, NODE_UNSOUND, SOUND, UNSOUND};
use crate::given;
use crate::model::{self, Unsound};

// In the order of `Unsound::ALL`.
pub const UNSOUND_NAMES: [&str; 12] = [
    "unsound: the address past the file",
    "unsound: the address past the root",
    "unsound: a byte below 16",
    "unsound: an output size above 8",
    "unsound: a delta size above 8",
    "unsound: a delta size of 0",
    "unsound: inputs not strictly ascending",
    "unsound: an input's index entry is not its place",
    "unsound: an absent byte's index entry below the count",
    "unsound: a delta above F",
    "unsound: a target from 1 to 15",
    "unsound: neither final nor with a transition, and not the root",
];

impl<'a> Run<'a> {
    // The node at an address, by each: the Rust where the node is sound. `made` is the node that was stored there. Our
    // library is asked for every byte's place, or for those of the inputs and of 16 others.
    pub fn read(&mut self, at: At, made: Option<&Meaning>, every_byte: bool) -> Checked {
        let judged = model::judge(at);
        let input = || describe_at(at);
        if let Some(made) = made {
            same("the node that was stored", input, ("stored", Ok(made)), ("model", judged.as_ref()))?;
        }
        match judged {
            Ok(node) => {
                let (read, places) = match given::read(at) {
                    Some(read) => read,
                    None => {
                        return Err(Difference {
                            what: "the Rust panics on a sound node".to_string(),
                            input: input(),
                            answers: vec![("model", format!("{:02x?}", node))],
                        })
                    }
                };
                same("a node", input, ("the Rust", &read), ("model", &node))?;
                for b in 0..=255u8 {
                    let place = places[usize::from(b)];
                    let input = || format!("byte {:02x}, {}", b, describe_at(at));
                    same("find_input", input, ("the Rust", place), ("model", model::find_input(&node, b)))?;
                }
                self.count("nodes sound");
                self.read_sound(at, &node, &places, every_byte)
            }
            Err(why) => {
                self.count(UNSOUND_NAMES[Unsound::ALL.iter().position(|&u| u == why).expect("listed")]);
                self.count("nodes unsound");
                // nothing to hold it to: the Rust's answers are compared on sound nodes
                self.count(match given::read(at) {
                    Some(_) => "nodes unsound, on which the Rust answers",
                    None => "nodes unsound, on which the Rust panics",
                });
                self.read_unsound(at)
            }
        }
    }

    fn read_sound(&mut self, at: At, node: &Meaning, places: &[Place; 256], every_byte: bool) -> Checked {
        let ours = match self.ours {
            Some(ours) => ours,
            None => return Ok(()),
        };
        let input = || describe_at(at);
        let n = node.transitions.len();
        // what a place of the answer holds that is not written
        let keep = self.prng.next();

        let mut out = [keep; 5];
        same("a node's soundness", input, ("model", SOUND), ("ours", ours.node(at, &mut out)))?;
        let want = [node.first as u64, node.is_final as u64, node.final_output, n as u64, keep];
        same("F, final, final output, count, and a place beyond", input, ("the Rust", want), ("ours", out))?;
        let mut out = [keep; 3];
        same("a node's soundness, in three places", input, ("model", SOUND), ("ours", ours.node(at, &mut out)))?;
        same("three places for a node", input, ("as given", [keep; 3]), ("ours", out))?;

        for (i, t) in node.transitions.iter().enumerate() {
            let input = || format!("transition {}, {}", i, describe_at(at));
            let mut out = [keep; 4];
            same("a transition there", input, ("the Rust", 1), ("ours", ours.transition(at, i, &mut out)))?;
            let want = [u64::from(t.inp), t.out, t.addr as u64, keep];
            same("input, output, target, and a place beyond", input, ("the Rust", want), ("ours", out))?;
        }
        for &i in &[n, n + 1, 256, usize::max_value()] {
            if i < n {
                continue;
            }
            let input = || format!("transition {}, {}", i, describe_at(at));
            let mut out = [keep; 4];
            same("no transition there", input, ("model", 0), ("ours", ours.transition(at, i, &mut out)))?;
            same("no transition there", input, ("as given", [keep; 4]), ("ours", out))?;
        }
        let mut out = [keep; 2];
        same("two places for a transition", input, ("model", 0), ("ours", ours.transition(at, 0, &mut out)))?;
        same("two places for a transition", input, ("as given", [keep; 2]), ("ours", out))?;

        for b in 0..=255u8 {
            if !every_byte && places[usize::from(b)].is_err() && u64::from(b % 16) != keep % 16 {
                continue;
            }
            let input = || format!("byte {:02x}, {}", b, describe_at(at));
            let want = place_number(places[usize::from(b)]);
            same("find_input", input, ("the Rust", want), ("ours", ours.find_input(at, b)))?;
        }
        self.count(if every_byte {
            "nodes sound, every byte looked up"
        } else {
            "nodes sound, inputs and 16 bytes looked up"
        });
        Ok(())
    }

    pub fn read_unsound(&mut self, at: At) -> Checked {
        let ours = match self.ours {
            Some(ours) => ours,
            None => return Ok(()),
        };
        let input = || describe_at(at);
        let keep = self.prng.next();
        let mut out = [keep; 5];
        same("a node's soundness", input, ("model", UNSOUND), ("ours", ours.node(at, &mut out)))?;
        same("the answer's places for an unsound node", input, ("as given", [keep; 5]), ("ours", out))?;
        for &i in &[0, self.prng.below(256), usize::max_value()] {
            let input = || format!("transition {}, {}", i, describe_at(at));
            let mut out = [keep; 4];
            let answer = ours.transition(at, i, &mut out);
            same("a transition of an unsound node", input, ("model", 0), ("ours", answer))?;
            same("a transition of an unsound node", input, ("as given", [keep; 4]), ("ours", out))?;
        }
        for &b in &[0, self.prng.byte(), 255] {
            let input = || format!("byte {:02x}, {}", b, describe_at(at));
            same("find_input", input, ("model", NODE_UNSOUND), ("ours", ours.find_input(at, b)))?;
        }
        Ok(())
    }
}
