//! Writers: "Proof bytes", from tables.

use crate::plan::{history_plan, lookup_plan, Asked, Which};
use crate::strings::{opening, Digest, ZERO};
use crate::table::{counted, in_shape, is_name, leaves, within, Record, State, HEAD};
use crate::tree::{opened, root_of, Item, Node, Nodes, Side, Tree};
use crate::{need, no};

pub const LOOKUP: u8 = 1;
pub const HISTORY: u8 = 2;
pub const AUDIT: u8 = 3;

/// A lookup proof at the output's start; its length.
pub fn write_lookup(records: &[u8], heads: &[u8], state: State, name: &[u8], epoch: u32, out: &mut [u8]) -> Result<usize, u8> {
    let tables = Tables { records, heads, state };
    let own = tables.own(name, epoch)?;
    let last = &own[own.len().saturating_sub(1)..];
    let version = last.iter().map(|record| record.version()).sum();
    lend(&tables.shows(LOOKUP, version, last, &lookup_plan(version), name, epoch)?, out)
}

/// A history proof.
pub fn write_history(records: &[u8], heads: &[u8], state: State, name: &[u8], epoch: u32, out: &mut [u8]) -> Result<usize, u8> {
    let tables = Tables { records, heads, state };
    let own = tables.own(name, epoch)?;
    let n = own.len() as u16;
    lend(&tables.shows(HISTORY, n, &own, &history_plan(n, epoch), name, epoch)?, out)
}

/// The audit proof of the step into an epoch.
pub fn write_audit(records: &[u8], heads: &[u8], state: State, epoch: u32, out: &mut [u8]) -> Result<usize, u8> {
    need(within(records, heads) && epoch > 0, no::INPUT)?;
    let tables = Tables { records, heads, state };
    tables.by(epoch)?;
    let (all, old) = tables.grow(epoch)?;
    let lists = [Listed::new(&all, epoch), Listed::new(&old, epoch)];
    let mut proof = front(AUDIT, &opening(epoch - 1, &tables.previous(epoch - 1), &lists[0].old_root(), &lists[1].old_root()));
    proof.extend(opening(epoch, &tables.previous(epoch), &all.root(), &old.root()));
    for list in lists {
        proof.extend(list.count.to_be_bytes());
        proof.extend(list.bytes);
    }
    lend(&proof, out)
}

fn lend(proof: &[u8], out: &mut [u8]) -> Result<usize, u8> {
    let part = out.get_mut(..proof.len()).ok_or(no::ROOM)?;
    part.copy_from_slice(proof);
    Ok(proof.len())
}

fn front(kind: u8, opening: &[u8; 100]) -> Vec<u8> {
    [b"VKD\x00\x01", &[kind][..], opening].concat()
}

#[derive(Clone, Copy)]
struct Tables<'a> {
    records: &'a [u8],
    heads: &'a [u8],
    state: State,
}

impl<'a> Tables<'a> {
    /// In shape, and the epoch has come.
    fn by(self, epoch: u32) -> Result<(), u8> {
        in_shape(self.records, self.heads, self.state).ok_or(no::TABLE)?;
        need(epoch <= self.state.epoch, no::EPOCH)
    }

    /// The records of an epoch's trees.
    fn until(self, epoch: u32) -> impl Iterator<Item = Record<'a>> {
        counted(self.records, self.state).take_while(move |record| record.epoch() <= epoch)
    }

    /// The tests before the trees, and the name's records.
    fn own(self, name: &[u8], epoch: u32) -> Result<Vec<Record<'a>>, u8> {
        need(within(self.records, self.heads) && is_name(name), no::INPUT)?;
        self.by(epoch)?;
        Ok(self.until(epoch).filter(|record| record.name() == name).collect())
    }

    /// *all* and *old* of an epoch.
    fn grow(self, epoch: u32) -> Result<(Tree, Tree), u8> {
        let (all, old) = leaves(self.until(epoch));
        Ok((Tree::grow(all)?, Tree::grow(old)?))
    }

    fn previous(self, epoch: u32) -> Digest {
        match epoch {
            0 => ZERO,
            t => self.heads[(t - 1) as usize * HEAD..][..HEAD].try_into().unwrap(),
        }
    }

    /// A lookup or history: front, number, keys with openings, paths.
    fn shows(self, kind: u8, number: u16, keys: &[Record], plan: &[Asked], name: &[u8], epoch: u32) -> Result<Vec<u8>, u8> {
        let (all, old) = self.grow(epoch)?;
        let mut proof = front(kind, &opening(epoch, &self.previous(epoch), &all.root(), &old.root()));
        proof.extend(number.to_be_bytes());
        for record in keys {
            proof.push(record.key().len() as u8);
            proof.extend(record.key());
            proof.extend(record.opening());
        }
        for asked in plan {
            let tree = if asked.tree == Which::All { &all } else { &old };
            let there = tree.path(&asked.label(name), &mut proof);
            need(asked.present || !there, no::CLASH)?;
        }
        Ok(proof)
    }
}

/// An audit's list of a tree: the largest subtrees below its root with no new leaf, and the new leaves.
struct Listed<'a> {
    tree: &'a Tree,
    epoch: u32,
    count: u32,
    bytes: Vec<u8>,
    unchanged: Vec<Item>,
}

impl<'a> Listed<'a> {
    fn new(tree: &'a Tree, epoch: u32) -> Self {
        let mut list = Listed { tree, epoch, count: 0, bytes: Vec::new(), unchanged: Vec::new() };
        let fresh = list.fresh();
        let root = &tree.nodes[tree.nodes.len() - 1];
        for right in 0..2 {
            list.side(root.sides[right], &root.digests[right], &fresh);
        }
        list
    }

    /// Which nodes have a new leaf below them. Children stand before their parents.
    fn fresh(&self) -> Vec<bool> {
        let mut fresh = Vec::with_capacity(self.tree.nodes.len());
        for node in &self.tree.nodes {
            let is_fresh = |side: &Side| match *side {
                Side::Nothing => false,
                Side::Item(leaf) => self.is_new(leaf),
                Side::Node(node) => fresh[node],
            };
            let any = node.sides.iter().any(is_fresh);
            fresh.push(any);
        }
        fresh
    }

    fn is_new(&self, leaf: usize) -> bool {
        self.tree.leaves[leaf].epoch == self.epoch
    }

    fn side(&mut self, side: Side, digest: &Digest, fresh: &[bool]) {
        match side {
            Side::Nothing => {}
            Side::Item(leaf) => self.leaf(leaf, digest),
            Side::Node(i) => {
                let node = &self.tree.nodes[i];
                if !fresh[i] {
                    return self.node(node, digest);
                }
                for right in 0..2 {
                    self.side(node.sides[right], &node.digests[right], fresh);
                }
            }
        }
    }

    fn leaf(&mut self, i: usize, digest: &Digest) {
        let x = &self.tree.leaves[i];
        self.count += 1;
        self.bytes.extend([if self.is_new(i) { 2 } else { 0 }, 1, 0]);
        self.bytes.extend(x.label);
        self.bytes.extend(x.commitment);
        self.bytes.extend(x.epoch.to_be_bytes());
        self.bytes.extend([0; 28]);
        if !self.is_new(i) {
            self.unchanged.push(Item { prefix: x.label, length: 256, digest: *digest });
        }
    }

    fn node(&mut self, node: &Node, digest: &Digest) {
        let prefix = self.tree.prefix(node);
        self.count += 1;
        self.bytes.push(1);
        opened(node, &prefix, &mut self.bytes);
        self.unchanged.push(Item { prefix, length: node.length, digest: *digest });
    }

    fn old_root(&self) -> Digest {
        root_of(&Nodes::build(&self.unchanged))
    }
}
