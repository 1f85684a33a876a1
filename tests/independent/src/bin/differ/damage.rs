//! What can be done to any lookup or history proof that was good before.

use independent::strings;

use crate::call::{CHECK_LOOKUP, PROGRAM};
use crate::case::{Cases, Want};
use crate::forge::{another_node, Path, Shows};
use crate::liar::name as name_within;
use crate::rng::Rng;

/// A head, a name and a proof, for `call`.
pub struct Asking {
    pub call: usize,
    pub head: Vec<u8>,
    pub name: Vec<u8>,
    pub proof: Vec<u8>,
}

impl Asking {
    pub fn of(call: usize, name: &[u8], shows: &Shows) -> Asking {
        Asking { call, head: shows.opening.head().to_vec(), name: name.to_vec(), proof: shows.bytes() }
    }

    /// The case, and for lookups now and then one of the program with the same bytes.
    pub fn put(self, aim: &'static str, want: Want, rng: &mut Rng, out: &mut Cases) {
        if self.call == CHECK_LOOKUP && self.head.len() == 32 && self.name.len() < 256 && rng.once_in(3) {
            let input = [&self.head[..], &[self.name.len() as u8], &self.name, &self.proof].concat();
            out.put(PROGRAM, vec![input], aim, want);
        }
        out.put(self.call, vec![self.head, self.name, self.proof], aim, want);
    }
}

pub fn bad_name(rng: &mut Rng) -> Vec<u8> {
    let mut name = vec![b'n'; *rng.pick(&[1, 7, 64])];
    match rng.below(4) {
        0 => Vec::new(),
        1 => vec![b'n'; *rng.pick(&[65, 66, 255])],
        _ => {
            let i = rng.below(name.len());
            name[i] = *rng.pick(&[0, 0x0a, 0x20, 0x7f, 0x80, 0xa1, 0xff]);
            name
        }
    }
}

/// One damage to a proof that is accepted.
pub fn put_damaged(call: usize, name: &[u8], shows: &Shows, rng: &mut Rng, out: &mut Cases) {
    match rng.below(6) {
        0 => input(call, name, shows, rng, out),
        1 => heads_and_roots(call, name, shows, rng, out),
        2 => paths(call, name, shows, rng, out),
        3 => bytes(call, name, shows, rng, out),
        _ => layout(call, name, shows.clone(), rng, out),
    }
}

fn input(call: usize, name: &[u8], shows: &Shows, rng: &mut Rng, out: &mut Cases) {
    let mut asking = Asking::of(call, name, shows);
    if rng.once_in(3) {
        asking.proof.truncate(rng.below(200));
    }
    if rng.once_in(3) {
        asking.head.resize(*rng.pick(&[0, 1, 31, 33, 64]), 0);
        return asking.put("a head that is not 32 bytes", Want::Refuse(1), rng, out);
    }
    asking.name = bad_name(rng);
    asking.put("a name out of bounds", Want::Refuse(1), rng, out)
}

fn heads_and_roots(call: usize, name: &[u8], shows: &Shows, rng: &mut Rng, out: &mut Cases) {
    let mut asking = Asking::of(call, name, shows);
    let mut spoilt = shows.clone();
    match rng.below(5) {
        0 => {
            rng.flip(&mut asking.head);
            asking.put("another head", Want::Refuse(3), rng, out)
        }
        1 => {
            spoilt.opening.spoil(rng);
            asking.proof = spoilt.bytes();
            asking.put("an opening of another head", Want::Refuse(3), rng, out)
        }
        2 => {
            rng.flip(&mut spoilt.opening.previous);
            Asking::of(call, name, &spoilt).put("any previous head", Want::Accept, rng, out)
        }
        3 => {
            rng.flip(&mut spoilt.opening.all);
            let want = if shows.paths.is_empty() { Want::Accept } else { Want::Refuse(4) };
            Asking::of(call, name, &spoilt).put("another root of all", want, rng, out)
        }
        _ => {
            rng.flip(&mut spoilt.opening.old);
            let want = if shows.number == 0 { Want::Accept } else { Want::Refuse(4) };
            Asking::of(call, name, &spoilt).put("another root of old", want, rng, out)
        }
    }
}

fn paths(call: usize, name: &[u8], shows: &Shows, rng: &mut Rng, out: &mut Cases) {
    let mut spoilt = shows.clone();
    if shows.paths.is_empty() {
        return bytes(call, name, shows, rng, out);
    }
    let i = rng.below(shows.paths.len());
    let path = &mut spoilt.paths[i];
    match rng.below(4) {
        0 => {
            let step = rng.below(path.steps.len());
            rng.flip(&mut path.steps[step].1);
            Asking::of(call, name, &spoilt).put("another sibling", Want::Refuse(4), rng, out)
        }
        1 if path.kind != 3 => {
            let from = if path.kind == 2 { 34 } else { 0 };
            rng.flip(&mut path.end[from..]);
            Asking::of(call, name, &spoilt).put("another end", Want::Refuse(4), rng, out)
        }
        2 => {
            path.steps.last_mut().expect("a path has a step").0 ^= 1;
            Asking::of(call, name, &spoilt).put("another last length", Want::Any, rng, out)
        }
        _ => {
            let j = rng.below(shows.paths.len());
            let same = shows.paths[i].steps == shows.paths[j].steps && shows.paths[i].end == shows.paths[j].end;
            spoilt.paths.swap(i, j);
            let want = if same { Want::Accept } else { Want::Any };
            Asking::of(call, name, &spoilt).put("two paths swapped", want, rng, out)
        }
    }
}

/// Bytes changed anywhere, with the head hashed again.
fn bytes(call: usize, name: &[u8], shows: &Shows, rng: &mut Rng, out: &mut Cases) {
    let mut asking = Asking::of(call, name, shows);
    for _ in 0..=rng.below(2) {
        let i = rng.below(asking.proof.len());
        asking.proof[i] = if rng.once_in(2) { rng.other(asking.proof[i]) } else { *rng.pick(&[0, 1, 2, 3, 4, 255]) };
    }
    if rng.once_in(4) {
        let (from, to) = (rng.below(asking.proof.len()), rng.below(asking.proof.len()));
        let part = asking.proof[from.min(to)..from.max(to)].to_vec();
        let at = rng.below(asking.proof.len());
        asking.proof.splice(at..at, part);
    }
    if rng.once_in(8) {
        asking.name = name_within(rng);
    }
    if rng.below(8) > 0 {
        asking.head = strings::head(asking.proof[6..106].try_into().unwrap()).to_vec();
    }
    asking.put("any bytes changed", Want::Any, rng, out)
}

fn layout(call: usize, name: &[u8], mut shows: Shows, rng: &mut Rng, out: &mut Cases) {
    if rng.once_in(8) {
        let mut asking = Asking::of(call, name, &shows);
        let (any, one) = (rng.below(asking.proof.len()), asking.proof.len() - 1);
        asking.proof.truncate(*rng.pick(&[any, one]));
        return asking.put("cut short", Want::Refuse(2), rng, out);
    }
    let aim = match break_layout(&mut shows, rng) {
        Some(aim) => aim,
        None => {
            let more = 1 + rng.below(40);
            shows.rest = rng.bytes(more);
            "something behind the last field"
        }
    };
    let mut asking = Asking::of(call, name, &shows);
    if rng.once_in(4) {
        rng.flip(&mut asking.head);
    }
    asking.put(aim, Want::Refuse(2), rng, out)
}

/// Breaks one thing, if the proof has it.
fn break_layout(shows: &mut Shows, rng: &mut Rng) -> Option<&'static str> {
    let (keys, paths) = (shows.keys.len(), shows.paths.len());
    match rng.below(8) {
        0 => Some(break_front(shows, rng)),
        1 if keys > 0 => {
            let key = &mut shows.keys[rng.below(keys)];
            key.length = *rng.pick(&[0, 65, 255]);
            key.key.resize(key.length as usize, 7);
            Some("a key length out of range")
        }
        2 if paths > 0 => {
            shows.paths.pop();
            Some("a path too few")
        }
        3 if paths > 0 => {
            shows.paths.push(shows.paths[rng.below(paths)].clone());
            Some("a path too many")
        }
        4 | 5 if paths > 0 => Some(break_steps(&mut shows.paths[rng.below(paths)], rng)),
        6 | 7 if paths > 0 => Some(break_end(&mut shows.paths[rng.below(paths)], rng)),
        _ => None,
    }
}

fn break_steps(path: &mut Path, rng: &mut Rng) -> &'static str {
    let steps = path.steps.len();
    match rng.below(5) {
        0 => {
            path.steps.clear();
            path.count = 0;
            "a path of no steps"
        }
        1 => {
            path.steps = (0..257).map(|k| (k.min(255), [0; 32])).collect();
            path.count = 257;
            "a path of 257 steps"
        }
        2 if steps > 1 => {
            let at = 1 + rng.below(steps - 1);
            path.steps[at].0 = rng.between(0, path.steps[at - 1].0 as u32) as u16;
            "lengths that do not rise"
        }
        3 if steps > 1 => {
            path.steps[steps - 1].0 = *rng.pick(&[256, 257, 0x0107, 0xffff]);
            "a length over 255"
        }
        _ => {
            path.steps[0].0 = *rng.pick(&[1, 2, 255, 256, 0xffff]);
            "lengths that do not begin at 0"
        }
    }
}

fn break_end(path: &mut Path, rng: &mut Rng) -> &'static str {
    match rng.below(4) {
        0 => {
            path.kind = rng.between(4, 255) as u8;
            "an end of no kind"
        }
        1 if path.steps.len() > 1 => {
            (path.kind, path.end) = (3, Vec::new());
            "nothing below the root"
        }
        2 => {
            let length = *rng.pick(&[0, 256, 257, 0xffff]);
            (path.kind, path.end) = another_node(length, &[0; 32], &rng.digest(), &rng.digest());
            "another node of no such length"
        }
        _ => {
            let length = 1 + rng.below(255);
            let past = length + rng.below(256 - length);
            let mut bits = [0; 32];
            bits[past / 8] |= 0x80 >> (past % 8);
            (path.kind, path.end) = another_node(length as u16, &bits, &rng.digest(), &rng.digest());
            "bits past a prefix"
        }
    }
}

fn break_front(shows: &mut Shows, rng: &mut Rng) -> &'static str {
    match rng.below(4) {
        0 => {
            let i = rng.below(3);
            shows.front[i] = rng.other(shows.front[i]);
            "other letters"
        }
        1 => {
            let i = 3 + rng.below(2);
            shows.front[i] = rng.other(shows.front[i]);
            "another format version"
        }
        2 => {
            let other = rng.other(shows.front[5]);
            shows.front[5] = if rng.once_in(2) { 3 - shows.front[5] } else { other };
            "another kind of proof"
        }
        _ => {
            shows.number = *rng.pick(&[1024, 1025, 0x8000, 0xffff]);
            "a number over 1,023"
        }
    }
}
