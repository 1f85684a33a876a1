//! Histories, told and mistold.

use independent::plan::{history_plan, marker_of, Which};
use independent::strings::{label, MARKER, VERSION, ZERO};
use independent::write::HISTORY;

use crate::absence::{absence, twins};
use crate::call::CHECK_HISTORY;
use crate::case::{Cases, Want};
use crate::damage::{put_damaged, Asking};
use crate::forge::{front, Key, Opening, Shows};
use crate::liar::{name, Liar};
use crate::rng::Rng;

const RULE: Want = Want::Refuse(5);

/// What is told of a name: the key and the epoch of each version.
struct Tale {
    liar: Liar,
    keys: Vec<Key>,
    epochs: Vec<u32>,
}

/// Epochs of a history, from n versions on, that stand at or beside a power of two.
fn some_epoch(n: u32, rng: &mut Rng) -> u32 {
    let power = 1u32 << rng.below(32);
    let near = power.wrapping_add(rng.below(3) as u32).wrapping_sub(1);
    let small = n + rng.below(4) as u32;
    *rng.pick(&[near, small, small, u32::MAX])
}

/// So many epochs in rising order, the first from 1 on and the last at most this one; at either end now and then.
fn rising(n: u32, most: u32, rng: &mut Rng) -> Vec<u32> {
    let mut epochs = Vec::new();
    let mut before = 0;
    for left in (0..n).rev() {
        let spare = most - before - 1 - left;
        let step = *rng.pick(&[0, 0, spare.min(2), spare]);
        before += 1 + if spare == 0 { 0 } else { rng.between(0, step) };
        epochs.push(before);
    }
    epochs
}

impl Tale {
    fn new(rng: &mut Rng) -> Tale {
        let n = match rng.below(8) {
            0 => 0,
            7 => rng.between(9, 40),
            _ => rng.between(1, 9),
        };
        let epoch = some_epoch(n, rng).max(n);
        Tale::of(rising(n, epoch, rng), epoch, rng)
    }

    fn of(epochs: Vec<u32>, epoch: u32, rng: &mut Rng) -> Tale {
        let keys: Vec<Key> = epochs.iter().map(|_| Key::random(rng)).collect();
        let mut tale = Tale { liar: Liar::new(name(rng), epoch, rng), keys, epochs };
        tale.liar.crowd(&history_plan(tale.n(), epoch), rng);
        tale.tell();
        tale
    }

    fn n(&self) -> u16 {
        self.epochs.len() as u16
    }

    fn tell(&mut self) {
        for (i, (key, &epoch)) in self.keys.iter().zip(&self.epochs).enumerate() {
            let version = i as u16 + 1;
            self.liar.put(Which::All, VERSION, version, key.commitment(), epoch);
            if version.is_power_of_two() {
                self.liar.put(Which::All, MARKER, marker_of(version), ZERO, epoch);
            }
            if version > 1 {
                self.liar.put(Which::Old, VERSION, version - 1, ZERO, epoch);
            }
        }
    }

    fn lie(&mut self, rng: &mut Rng) -> (&'static str, Want) {
        let n = self.n();
        if n == 0 {
            return self.lie_of_none(rng);
        }
        match rng.below(4) {
            0 => self.lie_in_versions(rng),
            1 => self.lie_in_old(rng),
            2 => self.lie_in_markers(rng),
            _ => self.lie_of_more(rng),
        }
    }

    fn lie_of_none(&mut self, rng: &mut Rng) -> (&'static str, Want) {
        let asked = history_plan(0, self.liar.epoch);
        match rng.below(3) {
            0 if !asked.is_empty() => {
                let number = rng.pick(&asked).number;
                self.liar.put(Which::All, MARKER, number, ZERO, rng.next() as u32);
                ("no versions, and a marker", RULE)
            }
            1 => {
                self.liar.put(Which::All, MARKER, asked.len() as u16, ZERO, 1);
                self.liar.put(Which::All, VERSION, 1, ZERO, 1);
                ("no versions, and what is not asked", Want::Accept)
            }
            _ => ("no versions", Want::Accept),
        }
    }

    fn lie_in_versions(&mut self, rng: &mut Rng) -> (&'static str, Want) {
        let i = rng.below(self.epochs.len());
        let version = i as u16 + 1;
        let leaf = self.liar.leaf(Which::All, VERSION, version);
        match rng.below(7) {
            0 => rng.flip(&mut leaf.commitment),
            1 => {
                rng.flip(&mut self.keys[i].key);
                return ("another key", RULE);
            }
            2 => {
                self.liar.take(Which::All, VERSION, version);
                return ("a version that is not there", RULE);
            }
            3 if i > 0 => {
                self.epochs[i] = rng.between(0, self.epochs[i - 1]);
                self.tell();
                return ("epochs that do not rise", RULE);
            }
            4 => {
                self.epochs[0] = 0;
                self.tell();
                return ("a version of epoch 0", RULE);
            }
            5 if self.liar.epoch < u32::MAX => {
                *self.epochs.last_mut().expect("there is a version") = rng.between(self.liar.epoch + 1, u32::MAX);
                self.tell();
                return ("a version after the head's epoch", RULE);
            }
            _ => return ("versions told as they are", Want::Accept),
        }
        ("a version with another commitment", RULE)
    }

    fn lie_in_old(&mut self, rng: &mut Rng) -> (&'static str, Want) {
        let n = self.n();
        if n == 1 || rng.once_in(5) {
            self.liar.put(Which::Old, VERSION, n, ZERO, self.liar.epoch);
            return ("the last version replaced", RULE);
        }
        let version = rng.between(1, n as u32 - 1) as u16;
        let of_its_own = self.epochs[version as usize - 1];
        let leaf = self.liar.leaf(Which::Old, VERSION, version);
        match rng.below(4) {
            0 => {
                rng.flip(&mut leaf.commitment);
                ("a replaced version with a commitment", RULE)
            }
            1 => {
                leaf.epoch = of_its_own;
                ("a version replaced when it came", RULE)
            }
            2 => {
                leaf.epoch = if rng.once_in(2) { leaf.epoch - 1 } else { leaf.epoch.wrapping_add(1) };
                ("a version replaced at another epoch", RULE)
            }
            _ => {
                self.liar.take(Which::Old, VERSION, version);
                ("an earlier version not replaced", RULE)
            }
        }
    }

    fn lie_in_markers(&mut self, rng: &mut Rng) -> (&'static str, Want) {
        let number = rng.between(0, marker_of(self.n()) as u32) as u16;
        let leaf = self.liar.leaf(Which::All, MARKER, number);
        match rng.below(3) {
            0 => {
                rng.flip(&mut leaf.commitment);
                ("a marker with a commitment", RULE)
            }
            1 => {
                leaf.epoch = if rng.once_in(2) { leaf.epoch - 1 } else { leaf.epoch.wrapping_add(1) };
                ("a marker of another epoch", RULE)
            }
            _ => {
                self.liar.take(Which::All, MARKER, number);
                ("a marker that is not there", RULE)
            }
        }
    }

    /// Later versions and markers, asked absent or not.
    fn lie_of_more(&mut self, rng: &mut Rng) -> (&'static str, Want) {
        let n = self.n();
        let absent: Vec<_> = history_plan(n, self.liar.epoch).into_iter().filter(|asked| !asked.present && asked.tree == Which::All).collect();
        if absent.is_empty() || rng.once_in(3) {
            self.liar.put(Which::All, VERSION, 2 << marker_of(n), rng.digest(), 1);
            self.liar.put(Which::All, MARKER, 10, ZERO, 1);
            self.liar.put(Which::Old, VERSION, n + 1, ZERO, 1);
            return ("later leaves that are not asked", Want::Accept);
        }
        let asked = *rng.pick(&absent);
        self.liar.put(Which::All, asked.kind, asked.number, rng.digest(), rng.next() as u32);
        (if asked.kind == MARKER { "a later marker" } else { "a later version" }, RULE)
    }

    fn prove(&self) -> Shows {
        self.liar.prove(HISTORY, self.n(), self.keys.clone())
    }
}

pub fn put(rng: &mut Rng, out: &mut Cases) {
    match rng.below(8) {
        0..=2 => {
            let mut tale = Tale::new(rng);
            let (aim, want) = tale.lie(rng);
            if rng.once_in(8) {
                return out.put_broken(|out| put_damaged(CHECK_HISTORY, &tale.liar.name, &tale.prove(), rng, out));
            }
            Asking::of(CHECK_HISTORY, &tale.liar.name, &tale.prove()).put(aim, want, rng, out)
        }
        3 => put_forged(rng, out),
        4 => put_other_number(rng, out),
        _ => {
            let tale = Tale::new(rng);
            put_damaged(CHECK_HISTORY, &tale.liar.name, &tale.prove(), rng, out)
        }
    }
}

/// No versions at epoch 1, or one, with paths made from nothing.
fn put_forged(rng: &mut Rng, out: &mut Cases) {
    let name = name(rng);
    let mut opening = Opening { epoch: 1, previous: rng.digest(), all: rng.digest(), old: rng.digest() };
    let marker = label(MARKER, 0, &name);
    let (number, keys, paths, aim, want);
    if rng.once_in(2) {
        let (path, what, is) = absence(&marker, rng);
        opening.all = path.root(&marker);
        (number, keys, paths, aim, want) = (0, Vec::new(), vec![path], what, is);
    } else {
        let (own, key) = (label(VERSION, 1, &name), Key::random(rng));
        let ([first, third], all) = twins((&own, &key.commitment(), 1), (&marker, &ZERO, 1), rng);
        let (second, what, is) = absence(&own, rng);
        (opening.all, opening.old) = (all, second.root(&own));
        (number, keys, paths, aim, want) = (1, vec![key], vec![first, second, third], what, is);
    }
    let shows = Shows { front: front(HISTORY), opening, number, keys, paths, rest: Vec::new() };
    Asking::of(CHECK_HISTORY, &name, &shows).put(aim, want, rng, out)
}

/// Another number of versions than there are, or another epoch, with the paths that this asks for.
fn put_other_number(rng: &mut Rng, out: &mut Cases) {
    let mut tale = Tale::new(rng);
    let n = tale.n();
    let name = tale.liar.name.clone();
    match rng.below(4) {
        0 if n > 0 => {
            let fewer = rng.between(0, n as u32 - 1) as u16;
            let shows = tale.liar.prove(HISTORY, fewer, tale.keys[..fewer as usize].to_vec());
            Asking::of(CHECK_HISTORY, &name, &shows).put("fewer versions than there are", RULE, rng, out)
        }
        1 => {
            tale.keys.push(Key::random(rng));
            let shows = tale.liar.prove(HISTORY, n + 1, tale.keys);
            Asking::of(CHECK_HISTORY, &name, &shows).put("a version more than there is", RULE, rng, out)
        }
        2 if n > 0 => {
            tale.liar.epoch = tale.epochs[n as usize - 1] - 1;
            Asking::of(CHECK_HISTORY, &name, &tale.prove()).put("more versions than epochs", RULE, rng, out)
        }
        _ => {
            let mut shows = tale.prove();
            shows.opening.epoch = some_epoch(n as u32, rng);
            Asking::of(CHECK_HISTORY, &name, &shows).put("another epoch, with the paths of this one", Want::Any, rng, out)
        }
    }
}
