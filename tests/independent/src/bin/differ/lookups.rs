//! Lookups, told and mistold.

use independent::plan::{lookup_plan, marker_of, Which};
use independent::strings::{label, MARKER, VERSION, ZERO};
use independent::write::LOOKUP;

use crate::absence::{absence, twins};
use crate::call::CHECK_LOOKUP;
use crate::case::{Cases, Want};
use crate::damage::{put_damaged, Asking};
use crate::forge::{front, Key, Opening, Shows};
use crate::liar::{name, Liar};
use crate::rng::Rng;

const RULE: Want = Want::Refuse(5);

/// What is told of a name: its version, key and epoch, and the marker's epoch.
struct Tale {
    liar: Liar,
    version: u16,
    key: Key,
    since: u32,
    marked: u32,
}

fn some_version(rng: &mut Rng) -> u16 {
    match rng.below(3) {
        0 => *rng.pick(&[1, 1, 2, 3, 4, 5, 7, 8]),
        1 => *rng.pick(&[15, 16, 255, 256, 511, 512, 513, 1022, 1023]),
        _ => rng.between(1, 1023) as u16,
    }
}

/// One of the ends, or something between.
fn within(least: u32, most: u32, rng: &mut Rng) -> u32 {
    let near = most.min(least.saturating_add(3));
    let (any, close) = (rng.between(least, most), rng.between(least, near));
    *rng.pick(&[least, most, any, close, close])
}

impl Tale {
    fn new(rng: &mut Rng) -> Tale {
        let version = some_version(rng);
        let since = within(version as u32, u32::MAX - 1, rng);
        let epoch = within(since, u32::MAX, rng);
        let marked = within(1 << marker_of(version), since, rng);
        let mut tale = Tale { liar: Liar::new(name(rng), epoch, rng), version, key: Key::random(rng), since, marked };
        tale.liar.crowd(&lookup_plan(version), rng);
        tale.tell();
        tale
    }

    fn tell(&mut self) {
        self.liar.put(Which::All, VERSION, self.version, self.key.commitment(), self.since);
        self.liar.put(Which::All, MARKER, marker_of(self.version), ZERO, self.marked);
    }

    /// Changes what is told, and hashes all of it again.
    fn lie(&mut self, rng: &mut Rng) -> (&'static str, Want) {
        match rng.below(13) {
            0 => ("a version told as it is", Want::Accept),
            1..=6 => (self.lie_of_version(rng), RULE),
            7 => {
                let commitment = if rng.once_in(2) { ZERO } else { rng.digest() };
                self.liar.put(Which::Old, VERSION, self.version, commitment, rng.next() as u32);
                ("a replaced version", RULE)
            }
            _ => (self.lie_of_marker(rng), RULE),
        }
    }

    fn lie_of_version(&mut self, rng: &mut Rng) -> &'static str {
        let version = self.version;
        match rng.below(6) {
            0 => {
                self.liar.take(Which::All, VERSION, version);
                "no such version"
            }
            1 => {
                rng.flip(&mut self.liar.leaf(Which::All, VERSION, version).commitment);
                "a version with another commitment"
            }
            2 => {
                self.since = within(0, version as u32 - 1, rng);
                self.marked = self.marked.min(self.since);
                self.tell();
                "a version before its time"
            }
            3 => {
                self.liar.epoch = within(version as u32, self.since, rng);
                self.since = within(self.liar.epoch + 1, u32::MAX, rng);
                self.tell();
                "a version after the head's epoch"
            }
            4 => {
                rng.flip(&mut self.key.opening);
                "another opening of the commitment"
            }
            _ => {
                rng.flip(&mut self.key.key);
                "another key"
            }
        }
    }

    fn lie_of_marker(&mut self, rng: &mut Rng) -> &'static str {
        let number = marker_of(self.version);
        let leaf = self.liar.leaf(Which::All, MARKER, number);
        match rng.below(5) {
            0 => {
                rng.flip(&mut leaf.commitment);
                "a marker with a commitment"
            }
            1 => {
                leaf.epoch = within(0, (1 << number) - 1, rng);
                "a marker before its time"
            }
            2 => {
                leaf.epoch = within(self.since + 1, u32::MAX, rng);
                "a marker after its version"
            }
            3 => {
                self.liar.take(Which::All, MARKER, number);
                "no marker"
            }
            _ => {
                self.liar.put(Which::Old, MARKER, number, ZERO, self.marked);
                self.liar.take(Which::All, MARKER, number);
                "a marker in the wrong tree"
            }
        }
    }

    fn prove(&self) -> Shows {
        self.liar.prove(LOOKUP, self.version, vec![self.key.clone()])
    }
}

pub fn put(rng: &mut Rng, out: &mut Cases) {
    match rng.below(8) {
        0 | 1 => put_lie(rng, out),
        2 => put_unregistered(rng, out),
        3 => put_forged_absence(rng, out),
        4 => put_forged(rng, out),
        5 => put_other_number(rng, out),
        _ => {
            let (name, shows) = good(rng);
            put_damaged(CHECK_LOOKUP, &name, &shows, rng, out)
        }
    }
}

/// A lookup that is accepted.
fn good(rng: &mut Rng) -> (Vec<u8>, Shows) {
    if rng.once_in(5) {
        let mut liar = Liar::new(name(rng), rng.next() as u32, rng);
        liar.crowd(&lookup_plan(0), rng);
        return (liar.name.clone(), liar.prove(LOOKUP, 0, Vec::new()));
    }
    let tale = Tale::new(rng);
    (tale.liar.name.clone(), tale.prove())
}

fn put_lie(rng: &mut Rng, out: &mut Cases) {
    let mut tale = Tale::new(rng);
    let (aim, want) = tale.lie(rng);
    if rng.once_in(8) {
        return out.put_broken(|out| put_damaged(CHECK_LOOKUP, &tale.liar.name, &tale.prove(), rng, out));
    }
    Asking::of(CHECK_LOOKUP, &tale.liar.name, &tale.prove()).put(aim, want, rng, out)
}

/// Version 0, of a name that has none or has one.
fn put_unregistered(rng: &mut Rng, out: &mut Cases) {
    let epoch = *rng.pick(&[0, 1, 77, u32::MAX]);
    let mut liar = Liar::new(name(rng), epoch, rng);
    liar.crowd(&lookup_plan(0), rng);
    let (aim, want) = match rng.below(3) {
        0 => {
            liar.put(Which::All, VERSION, 1, rng.digest(), 1);
            ("not registered, and there is a version 1", RULE)
        }
        1 => {
            liar.put(Which::All, VERSION, 2, rng.digest(), 2);
            liar.put(Which::All, MARKER, 0, ZERO, 1);
            ("not registered, with a version 2 and a marker", Want::Accept)
        }
        _ => ("not registered", Want::Accept),
    };
    Asking::of(CHECK_LOOKUP, &liar.name, &liar.prove(LOOKUP, 0, Vec::new())).put(aim, want, rng, out)
}

/// Version 0 with a path made from nothing.
fn put_forged_absence(rng: &mut Rng, out: &mut Cases) {
    let name = name(rng);
    let label = label(VERSION, 1, &name);
    let (path, aim, want) = absence(&label, rng);
    let opening = Opening { epoch: rng.next() as u32, previous: rng.digest(), all: path.root(&label), old: rng.digest() };
    let shows = Shows { front: front(LOOKUP), opening, number: 0, keys: Vec::new(), paths: vec![path], rest: Vec::new() };
    Asking::of(CHECK_LOOKUP, &name, &shows).put(aim, want, rng, out)
}

/// A version with all three paths made from nothing.
fn put_forged(rng: &mut Rng, out: &mut Cases) {
    let (name, version, key) = (name(rng), some_version(rng), Key::random(rng));
    let (marker, own) = (label(MARKER, marker_of(version), &name), label(VERSION, version, &name));
    let epoch = version as u32 + rng.below(3) as u32;
    let ([first, third], all) = twins((&own, &key.commitment(), epoch), (&marker, &ZERO, version as u32), rng);
    let (second, aim, want) = absence(&own, rng);
    let opening = Opening { epoch, previous: rng.digest(), all, old: second.root(&own) };
    let shows = Shows { front: front(LOOKUP), opening, number: version, keys: vec![key], paths: vec![first, second, third], rest: Vec::new() };
    Asking::of(CHECK_LOOKUP, &name, &shows).put(aim, want, rng, out)
}

/// A name with versions 1 and 2, looked up with another number.
fn put_other_number(rng: &mut Rng, out: &mut Cases) {
    let keys = [Key::random(rng), Key::random(rng)];
    let epoch = rng.between(2, 9);
    let mut liar = Liar::new(name(rng), epoch, rng);
    liar.put(Which::All, VERSION, 1, keys[0].commitment(), 1);
    liar.put(Which::All, VERSION, 2, keys[1].commitment(), 2);
    liar.put(Which::All, MARKER, 0, ZERO, 1);
    liar.put(Which::All, MARKER, 1, ZERO, 2);
    liar.put(Which::Old, VERSION, 1, ZERO, 2);
    let key = rng.below(2);
    let (number, aim, want) = match (rng.below(4), key) {
        (0, _) => (0, "a name's version 0", RULE),
        (1, 0) => (1, "a key that was replaced", RULE),
        (1, _) => (1, "version 1 with the key of version 2", RULE),
        (2, 0) => (2, "version 2 with the key of version 1", RULE),
        (2, _) => (2, "the last version", Want::Accept),
        _ => (rng.between(3, 1023) as u16, "a version to come", RULE),
    };
    let keys = if number == 0 { Vec::new() } else { vec![keys[key].clone()] };
    Asking::of(CHECK_LOOKUP, &liar.name, &liar.prove(LOOKUP, number, keys)).put(aim, want, rng, out)
}
