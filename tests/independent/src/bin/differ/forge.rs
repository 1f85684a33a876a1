//! Proofs as values, so that any field can be changed and what depends on it be hashed again. Counts, lengths and kinds are claims of their
//! own: they may be other than what stands behind them.

use independent::bits::{bit, prefix};
use independent::strings::{self, inner, leaf, nothing, Digest, ZERO};
use independent::tree::{root_of, Item, Nodes};

use crate::rng::Rng;

pub fn front(kind: u8) -> [u8; 6] {
    [b'V', b'K', b'D', 0, 1, kind]
}

#[derive(Clone)]
pub struct Opening {
    pub epoch: u32,
    pub previous: Digest,
    pub all: Digest,
    pub old: Digest,
}

impl Opening {
    pub fn bytes(&self) -> [u8; 100] {
        strings::opening(self.epoch, &self.previous, &self.all, &self.old)
    }

    pub fn head(&self) -> Digest {
        strings::head(&self.bytes())
    }

    /// Changes one of its digests: the number of a history's paths hangs on the epoch.
    pub fn spoil(&mut self, rng: &mut Rng) {
        match rng.below(3) {
            0 => rng.flip(&mut self.previous),
            1 => rng.flip(&mut self.all),
            _ => rng.flip(&mut self.old),
        }
    }
}

#[derive(Clone)]
pub struct Path {
    pub count: u16,
    pub steps: Vec<(u16, Digest)>,
    pub kind: u8,
    pub end: Vec<u8>,
}

impl Path {
    pub fn new(steps: Vec<(u16, Digest)>, (kind, end): (u8, Vec<u8>)) -> Path {
        Path { count: steps.len() as u16, steps, kind, end }
    }

    /// Of a path in layout.
    pub fn read(bytes: &[u8]) -> Path {
        let count = u16::from_be_bytes([bytes[0], bytes[1]]);
        let (steps, end) = bytes[2..].split_at(34 * count as usize);
        let step = |s: &[u8]| (u16::from_be_bytes([s[0], s[1]]), s[2..].try_into().unwrap());
        Path { count, steps: steps.chunks_exact(34).map(step).collect(), kind: end[0], end: end[1..].to_vec() }
    }

    pub fn write(&self, out: &mut Vec<u8>) {
        out.extend(self.count.to_be_bytes());
        for (length, sibling) in &self.steps {
            out.extend(length.to_be_bytes());
            out.extend(sibling);
        }
        out.push(self.kind);
        out.extend(&self.end);
    }

    /// The root that it gives for a label.
    pub fn root(&self, label: &Digest) -> Digest {
        let digest = |at: usize| -> &Digest { self.end[at..at + 32].try_into().unwrap() };
        let number = |at: usize| u32::from_be_bytes(self.end[at..at + 4].try_into().unwrap());
        let end = match self.kind {
            0 => leaf(label, digest(0), number(32)),
            1 => leaf(digest(0), digest(32), number(64)),
            2 => inner(u16::from_be_bytes([self.end[0], self.end[1]]) as usize, digest(2), digest(34), digest(66)),
            _ => nothing(),
        };
        climb(label, &self.steps, end)
    }
}

/// The digest above steps.
pub fn climb(label: &Digest, steps: &[(u16, Digest)], from: Digest) -> Digest {
    steps.iter().rev().fold(from, |digest, (length, sibling)| {
        let length = *length as usize;
        let (left, right) = if bit(label, length) { (sibling, &digest) } else { (&digest, sibling) };
        inner(length, &prefix(label, length), left, right)
    })
}

pub fn this_leaf(commitment: &Digest, epoch: u32) -> (u8, Vec<u8>) {
    (0, [&commitment[..], &epoch.to_be_bytes()].concat())
}

pub fn another_leaf(label: &Digest, commitment: &Digest, epoch: u32) -> (u8, Vec<u8>) {
    (1, [&label[..], commitment, &epoch.to_be_bytes()].concat())
}

/// With whatever bits stand past the length.
pub fn another_node(length: u16, bits: &Digest, left: &Digest, right: &Digest) -> (u8, Vec<u8>) {
    (2, [&length.to_be_bytes()[..], bits, left, right].concat())
}

#[derive(Clone)]
pub struct Key {
    pub length: u8,
    pub key: Vec<u8>,
    pub opening: Digest,
}

impl Key {
    pub fn random(rng: &mut Rng) -> Key {
        let length = *rng.pick(&[1, 2, 22, 23, 32, 63, 64]);
        Key { length, key: rng.bytes(length as usize), opening: rng.digest() }
    }

    pub fn commitment(&self) -> Digest {
        strings::commitment(&self.opening, &self.key)
    }
}

/// A lookup or history.
#[derive(Clone)]
pub struct Shows {
    pub front: [u8; 6],
    pub opening: Opening,
    pub number: u16,
    pub keys: Vec<Key>,
    pub paths: Vec<Path>,
    pub rest: Vec<u8>,
}

impl Shows {
    pub fn bytes(&self) -> Vec<u8> {
        let mut out = [&self.front[..], &self.opening.bytes(), &self.number.to_be_bytes()].concat();
        for key in &self.keys {
            out.push(key.length);
            out.extend(&key.key);
            out.extend(key.opening);
        }
        for path in &self.paths {
            path.write(&mut out);
        }
        out.extend(&self.rest);
        out
    }
}

/// A record of an audit's list.
#[derive(Clone)]
pub struct Entry {
    pub kind: u8,
    pub length: u16,
    pub bits: Digest,
    pub body: [u8; 64],
}

impl Entry {
    pub fn leaf(kind: u8, label: Digest, commitment: &Digest, epoch: u32) -> Entry {
        let mut body = [0; 64];
        body[..32].copy_from_slice(commitment);
        body[32..36].copy_from_slice(&epoch.to_be_bytes());
        Entry { kind, length: 256, bits: label, body }
    }

    pub fn node(length: usize, prefix: Digest, left: &Digest, right: &Digest) -> Entry {
        let mut body = [0; 64];
        body[..32].copy_from_slice(left);
        body[32..].copy_from_slice(right);
        Entry { kind: 1, length: length as u16, bits: prefix, body }
    }

    pub fn set_epoch(&mut self, epoch: u32) {
        self.body[32..36].copy_from_slice(&epoch.to_be_bytes());
    }

    fn item(&self) -> Item {
        let (first, second): (Digest, Digest) = (self.body[..32].try_into().unwrap(), self.body[32..].try_into().unwrap());
        let digest = match self.kind {
            1 => inner(self.length as usize, &self.bits, &first, &second),
            _ => leaf(&self.bits, &first, u32::from_be_bytes(self.body[32..36].try_into().unwrap())),
        };
        Item { prefix: self.bits, length: self.length as usize, digest }
    }
}

#[derive(Clone)]
pub struct List {
    pub count: u32,
    pub entries: Vec<Entry>,
}

impl List {
    pub fn new(entries: Vec<Entry>) -> List {
        List { count: entries.len() as u32, entries }
    }

    /// The old root, or the new one; of entries in order.
    pub fn root(&self, with_new: bool) -> Digest {
        let items: Vec<Item> = self.entries.iter().filter(|e| with_new || e.kind != 2).map(Entry::item).collect();
        root_of(&Nodes::build(&items))
    }

    fn write(&self, out: &mut Vec<u8>) {
        out.extend(self.count.to_be_bytes());
        for entry in &self.entries {
            out.push(entry.kind);
            out.extend(entry.length.to_be_bytes());
            out.extend(entry.bits);
            out.extend(entry.body);
        }
    }
}

#[derive(Clone)]
pub struct Audit {
    pub front: [u8; 6],
    pub old: Opening,
    pub new: Opening,
    /// Of *all* and of *old*.
    pub lists: [List; 2],
    pub rest: Vec<u8>,
}

impl Audit {
    /// A step after an epoch, with the roots that its lists give.
    pub fn new(epoch: u32, lists: [List; 2], rng: &mut Rng) -> Audit {
        let old = Opening { epoch, previous: rng.digest(), all: ZERO, old: ZERO };
        let new = Opening { epoch: epoch.wrapping_add(1), ..old.clone() };
        let mut audit = Audit { front: front(3), old, new, lists, rest: Vec::new() };
        audit.root_again();
        audit
    }

    /// Roots from the lists, and the previous head from them.
    pub fn root_again(&mut self) {
        (self.old.all, self.old.old) = (self.lists[0].root(false), self.lists[1].root(false));
        (self.new.all, self.new.old) = (self.lists[0].root(true), self.lists[1].root(true));
        self.new.previous = self.old.head();
    }

    pub fn bytes(&self) -> Vec<u8> {
        let mut out = [&self.front[..], &self.old.bytes(), &self.new.bytes()].concat();
        for list in &self.lists {
            list.write(&mut out);
        }
        out.extend(&self.rest);
        out
    }
}
