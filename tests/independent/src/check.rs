//! Checkers: "Proof bytes", from any bytes. First the layout of the whole proof, then heads, then paths or lists in order.

use std::ops::Range;

use crate::bits::{bit, first_difference, prefix};
use crate::plan::{history_paths, history_plan, lookup_plan, marker_of, Asked, Which};
use crate::strings::{commitment, head, inner, leaf, nothing, Digest, MARKER, ZERO};
use crate::table::{is_name, VERSIONS};
use crate::tree::{root_of, Item, Nodes, Side};
use crate::write::{AUDIT, HISTORY, LOOKUP};
use crate::{need, no};

/// An accepted lookup. The key is that part of the proof, empty at its start for version 0.
#[derive(Clone, PartialEq, Eq, Debug)]
pub struct Found {
    pub version: u16,
    pub epoch: u32,
    pub digests: u32,
    pub key: Range<usize>,
}

/// An accepted history.
#[derive(Clone, Copy, PartialEq, Eq, Debug)]
pub struct Shown {
    pub n: u16,
    pub epoch: u32,
    pub digests: u32,
}

/// An accepted audit step.
#[derive(Clone, Copy, PartialEq, Eq, Debug)]
pub struct Audited {
    pub old_epoch: u32,
    pub new_epoch: u32,
    pub digests: u32,
}

/// What is left to be read of a proof. Whatever is not there breaks the layout.
struct Reader<'a>(&'a [u8]);

impl<'a> Reader<'a> {
    fn bytes(&mut self, count: usize) -> Result<&'a [u8], u8> {
        let (bytes, rest) = self.0.split_at_checked(count).ok_or(no::FORM)?;
        self.0 = rest;
        Ok(bytes)
    }

    fn array<const N: usize>(&mut self) -> Result<&'a [u8; N], u8> {
        let (array, rest) = self.0.split_first_chunk().ok_or(no::FORM)?;
        self.0 = rest;
        Ok(array)
    }

    fn byte(&mut self) -> Result<u8, u8> {
        Ok(self.array::<1>()?[0])
    }

    fn short(&mut self) -> Result<u16, u8> {
        Ok(u16::from_be_bytes(*self.array()?))
    }

    fn long(&mut self) -> Result<u32, u8> {
        Ok(u32::from_be_bytes(*self.array()?))
    }

    /// "VKD", version 1, the kind, and the 100 bytes of a head.
    fn front(&mut self, kind: u8) -> Result<Opening<'a>, u8> {
        need(self.bytes(6)? == [b'V', b'K', b'D', 0, 1, kind], no::FORM)?;
        Ok(Opening(self.array()?))
    }

    /// An inner node's 98 bytes after its 0x01: below the root, so of length 1 to 255.
    fn node(&mut self) -> Result<InnerNode<'a>, u8> {
        let node = InnerNode { length: self.short()? as usize, prefix: self.array()?, left: self.array()?, right: self.array()? };
        need((1..=255).contains(&node.length) && prefix(node.prefix, node.length) == *node.prefix, no::FORM)?;
        Ok(node)
    }

    fn end(&self) -> Result<(), u8> {
        need(self.0.is_empty(), no::FORM)
    }
}

/// The 100 bytes of a head after its 0x03.
#[derive(Clone, Copy)]
struct Opening<'a>(&'a [u8; 100]);

impl<'a> Opening<'a> {
    fn epoch(self) -> u32 {
        u32::from_be_bytes(self.0[..4].try_into().unwrap())
    }

    fn previous(self) -> &'a [u8] {
        &self.0[4..36]
    }

    fn root(self, which: Which) -> &'a Digest {
        let at = if which == Which::All { 36 } else { 68 };
        self.0[at..at + 32].try_into().unwrap()
    }

    fn opens(self, expected: &[u8]) -> Result<(), u8> {
        need(head(self.0) == expected, no::HEAD)
    }
}

struct InnerNode<'a> {
    length: usize,
    prefix: &'a Digest,
    left: &'a Digest,
    right: &'a Digest,
}

impl InnerNode<'_> {
    fn digest(&self) -> Digest {
        inner(self.length, self.prefix, self.left, self.right)
    }
}

/// The m steps stand one behind the other, 34 bytes each.
struct Path<'a> {
    steps: &'a [u8],
    end: End<'a>,
}

enum End<'a> {
    This(&'a Digest, u32),
    Another(&'a Digest, &'a Digest, u32),
    Node(InnerNode<'a>),
    Nothing,
}

impl<'a> Path<'a> {
    fn read(from: &mut Reader<'a>) -> Result<Self, u8> {
        let count = from.short()?;
        need((1..=256).contains(&count), no::FORM)?;
        let steps = from.bytes(34 * count as usize)?;
        let mut least = 0;
        for step in steps.chunks_exact(34) {
            let length = step_length(step);
            need(if least == 0 { length == 0 } else { (least..=255).contains(&length) }, no::FORM)?;
            least = length + 1;
        }
        let end = match from.byte()? {
            0 => End::This(from.array()?, from.long()?),
            1 => End::Another(from.array()?, from.array()?, from.long()?),
            2 => End::Node(from.node()?),
            3 if count == 1 => End::Nothing,
            _ => return Err(no::FORM),
        };
        Ok(Path { steps, end })
    }

    /// The root that the path gives for a label.
    fn root(&self, label: &Digest) -> Digest {
        let mut digest = match &self.end {
            End::This(commitment, epoch) => leaf(label, commitment, *epoch),
            End::Another(other, commitment, epoch) => leaf(other, commitment, *epoch),
            End::Node(node) => node.digest(),
            End::Nothing => nothing(),
        };
        for step in self.steps.rchunks_exact(34) {
            let length = step_length(step);
            let sibling = step[2..].try_into().unwrap();
            let (left, right) = if bit(label, length) { (sibling, &digest) } else { (&digest, sibling) };
            digest = inner(length, &prefix(label, length), left, right);
        }
        digest
    }

    /// The leaf that it shows present.
    fn present(&self) -> Option<(&'a Digest, u32)> {
        match self.end {
            End::This(commitment, epoch) => Some((commitment, epoch)),
            _ => None,
        }
    }

    /// Whether it shows the label absent.
    fn absent(&self, label: &Digest) -> bool {
        let reached = step_length(&self.steps[self.steps.len() - 34..]) + 1;
        match &self.end {
            End::This(..) => false,
            End::Another(other, ..) => (reached..256).contains(&first_difference(label, other)),
            End::Node(node) => node.length > reached && (reached..node.length).contains(&first_difference(label, node.prefix)),
            End::Nothing => true,
        }
    }
}

fn step_length(step: &[u8]) -> usize {
    u16::from_be_bytes([step[0], step[1]]) as usize
}

/// A key and its opening.
type Key<'a> = (&'a [u8], &'a [u8]);

/// A lookup or history in layout.
struct Shows<'a> {
    opening: Opening<'a>,
    number: u16,
    keys: Vec<Key<'a>>,
    paths: Vec<Path<'a>>,
}

impl<'a> Shows<'a> {
    fn read(proof: &'a [u8], kind: u8) -> Result<Self, u8> {
        let mut from = Reader(proof);
        let opening = from.front(kind)?;
        let number = from.short()?;
        need(number <= VERSIONS, no::FORM)?;
        let (keys, paths) = match kind {
            LOOKUP => (number.min(1), if number == 0 { 1 } else { 3 }),
            _ => (number, history_paths(number, opening.epoch())),
        };
        let keys = (0..keys).map(|_| key(&mut from)).collect::<Result<_, _>>()?;
        let paths = (0..paths).map(|_| Path::read(&mut from)).collect::<Result<_, _>>()?;
        from.end()?;
        Ok(Shows { opening, number, keys, paths })
    }

    /// The digests: 1 for the head, 1 for each key, m+2 for each path.
    fn digests(&self) -> u32 {
        let of_path = |path: &Path| path.steps.len() / 34 + 2;
        (1 + self.keys.len() + self.paths.iter().map(of_path).sum::<usize>()) as u32
    }

    /// The leaf of path i, which is to show what is asked. Where a leaf is asked, it has the commitment.
    fn take(&self, i: usize, asked: Asked, name: &[u8], commitment: &Digest) -> Result<u32, u8> {
        let (path, label) = (&self.paths[i], asked.label(name));
        need(path.root(&label) == *self.opening.root(asked.tree), no::ROOT)?;
        if !asked.present {
            need(path.absent(&label), no::RULE)?;
            return Ok(0);
        }
        let (found, epoch) = path.present().ok_or(no::RULE)?;
        need(found == commitment, no::RULE)?;
        Ok(epoch)
    }
}

fn key<'a>(from: &mut Reader<'a>) -> Result<Key<'a>, u8> {
    let length = from.byte()?;
    need((1..=64).contains(&length), no::FORM)?;
    Ok((from.bytes(length as usize)?, from.bytes(32)?))
}

pub fn check_lookup(head: &[u8], name: &[u8], proof: &[u8]) -> Result<Found, u8> {
    need(head.len() == 32 && is_name(name), no::INPUT)?;
    let lookup = Shows::read(proof, LOOKUP)?;
    lookup.opening.opens(head)?;
    let (version, epoch) = (lookup.number, lookup.opening.epoch());
    let plan = lookup_plan(version);
    let mut range = 0..0;
    if let [(key, opening)] = lookup.keys[..] {
        let since = lookup.take(0, plan[0], name, &commitment(opening, key))?;
        need(version as u32 <= since && since <= epoch, no::RULE)?;
        lookup.take(1, plan[1], name, &ZERO)?;
        let marked = lookup.take(2, plan[2], name, &ZERO)?;
        need(1 << marker_of(version) <= marked && marked <= since, no::RULE)?;
        range = 109..109 + key.len();
    } else {
        lookup.take(0, plan[0], name, &ZERO)?;
    }
    Ok(Found { version, epoch, digests: lookup.digests(), key: range })
}

pub fn check_history(head: &[u8], name: &[u8], proof: &[u8]) -> Result<Shown, u8> {
    need(head.len() == 32 && is_name(name), no::INPUT)?;
    let history = Shows::read(proof, HISTORY)?;
    history.opening.opens(head)?;
    let (n, epoch) = (history.number, history.opening.epoch());
    let mut epochs: Vec<u32> = Vec::with_capacity(n as usize);
    for (i, asked) in history_plan(n, epoch).into_iter().enumerate() {
        if let Some((key, opening)) = history.keys.get(i) {
            let since = history.take(i, asked, name, &commitment(opening, key))?;
            need(epochs.last().copied().unwrap_or(0) < since && since <= epoch, no::RULE)?;
            epochs.push(since);
            continue;
        }
        let since = history.take(i, asked, name, &ZERO)?;
        let number = asked.number as usize;
        let expected = match (asked.present, asked.kind) {
            (false, _) => since,
            (true, MARKER) => epochs[(1 << number) - 1],
            (true, _) => epochs[number],
        };
        need(since == expected, no::RULE)?;
    }
    Ok(Shown { n, epoch, digests: history.digests() })
}

/// A record of an audit's list.
struct Entry<'a> {
    new: bool,
    body: Body<'a>,
}

enum Body<'a> {
    Leaf(&'a Digest, &'a Digest, u32),
    Node(InnerNode<'a>),
}

impl<'a> Entry<'a> {
    fn read(from: &mut Reader<'a>) -> Result<Self, u8> {
        let kind = from.byte()?;
        if kind == 1 {
            return Ok(Entry { new: false, body: Body::Node(from.node()?) });
        }
        need((kind == 0 || kind == 2) && from.short()? == 256, no::FORM)?;
        let body = Body::Leaf(from.array()?, from.array()?, from.long()?);
        need(*from.array()? == [0; 28], no::FORM)?;
        Ok(Entry { new: kind == 2, body })
    }

    /// Its label or prefix.
    fn bits(&self) -> (&'a Digest, usize) {
        match &self.body {
            Body::Leaf(label, ..) => (label, 256),
            Body::Node(node) => (node.prefix, node.length),
        }
    }

    /// Stands before the next one, and neither is a prefix of the other.
    fn before(&self, next: &Entry) -> bool {
        let ((a, a_length), (b, b_length)) = (self.bits(), next.bits());
        let at = first_difference(a, b);
        at < a_length.min(b_length) && bit(b, at)
    }

    /// A leaf's epoch and commitment are what its kind and tree ask.
    fn fair(&self, which: Which, old_epoch: u32, new_epoch: u32) -> bool {
        match self.body {
            Body::Node(_) => true,
            Body::Leaf(_, commitment, epoch) => {
                let of_its_kind = if self.new { epoch == new_epoch } else { (1..=old_epoch).contains(&epoch) };
                of_its_kind && (which == Which::All || *commitment == ZERO)
            }
        }
    }

    fn item(&self) -> Item {
        let (&prefix, length) = self.bits();
        let digest = match &self.body {
            Body::Leaf(label, commitment, epoch) => leaf(label, commitment, *epoch),
            Body::Node(node) => node.digest(),
        };
        Item { prefix, length, digest }
    }
}

fn list<'a>(from: &mut Reader<'a>) -> Result<Vec<Entry<'a>>, u8> {
    let count = from.long()?;
    need(count <= 16384 && from.0.len() >= 99 * count as usize, no::FORM)?;
    (0..count).map(|_| Entry::read(from)).collect()
}

/// The list rules, the old root and the new root of a tree; the strings that the roots take.
fn check_list(list: &[Entry], which: Which, old: Opening, new: Opening) -> Result<u32, u8> {
    let in_order = list.windows(2).all(|pair| pair[0].before(&pair[1]));
    need(in_order && list.iter().all(|entry| entry.fair(which, old.epoch(), new.epoch())), no::RULE)?;
    let items: Vec<Item> = list.iter().map(Entry::item).collect();
    let unchanged: Vec<Item> = items.iter().zip(list).filter(|(_, entry)| !entry.new).map(|(item, _)| *item).collect();
    let mut strings = 0;
    for (items, opening) in [(unchanged, old), (items, new)] {
        let nodes = Nodes::build(&items);
        need(root_of(&nodes) == *opening.root(which), no::ROOT)?;
        let empty_sides = nodes[nodes.len() - 1].sides.iter().filter(|side| matches!(side, Side::Nothing)).count();
        strings += items.len() + nodes.len() + empty_sides;
    }
    Ok(strings as u32)
}

pub fn check_audit(old_head: &[u8], new_head: &[u8], proof: &[u8]) -> Result<Audited, u8> {
    need(old_head.len() == 32 && new_head.len() == 32, no::INPUT)?;
    let mut from = Reader(proof);
    let old = from.front(AUDIT)?;
    let new = Opening(from.array()?);
    let lists = [(Which::All, list(&mut from)?), (Which::Old, list(&mut from)?)];
    from.end()?;
    old.opens(old_head)?;
    new.opens(new_head)?;
    let (old_epoch, new_epoch) = (old.epoch(), new.epoch());
    need(old_epoch.checked_add(1) == Some(new_epoch) && new.previous() == old_head, no::RULE)?;
    let mut digests = 2;
    for (which, list) in lists {
        digests += check_list(&list, which, old, new)?;
    }
    Ok(Audited { old_epoch, new_epoch, digests })
}
