//! "The tree over a set of labels".

use crate::bits::{bit, first_difference, prefix};
use crate::strings::{inner, leaf, nothing, Digest, ZERO};
use crate::{need, no};

#[derive(Clone, Copy)]
pub struct Leaf {
    pub label: Digest,
    pub commitment: Digest,
    pub epoch: u32,
}

/// What a tree is built over: a leaf with its whole label, or an opened node, which stands in place of its labels.
#[derive(Clone, Copy)]
pub struct Item {
    pub prefix: Digest,
    pub length: usize,
    pub digest: Digest,
}

#[derive(Clone, Copy)]
pub enum Side {
    Nothing,
    Item(usize),
    Node(usize),
}

/// An inner node: the length of its prefix, the first item below it, what stands on its left and right, and their digests.
pub struct Node {
    pub length: usize,
    pub first: usize,
    pub sides: [Side; 2],
    pub digests: [Digest; 2],
}

/// The inner nodes over items in bit order, none a prefix of another: children before their parent, the root last.
pub struct Nodes<'a> {
    items: &'a [Item],
    nodes: Vec<Node>,
}

impl<'a> Nodes<'a> {
    pub fn build(items: &'a [Item]) -> Vec<Node> {
        let mut build = Nodes { items, nodes: Vec::with_capacity(items.len() + 1) };
        let middle = items.partition_point(|item| !bit(&item.prefix, 0));
        let (left, right) = (build.side(0, middle), build.side(middle, items.len()));
        build.push(0, 0, left, right);
        build.nodes
    }

    /// A side of the root, which alone may be nothing.
    fn side(&mut self, from: usize, to: usize) -> (Side, Digest) {
        if from == to {
            (Side::Nothing, nothing())
        } else {
            self.below(from, to)
        }
    }

    fn below(&mut self, from: usize, to: usize) -> (Side, Digest) {
        let items = &self.items[from..to];
        if let [item] = items {
            return (Side::Item(from), item.digest);
        }
        let (first, last) = (items[0].prefix, items[items.len() - 1].prefix);
        let length = first_difference(&first, &last);
        let middle = from + items.partition_point(|item| !bit(&item.prefix, length));
        let (left, right) = (self.below(from, middle), self.below(middle, to));
        let digest = inner(length, &prefix(&first, length), &left.1, &right.1);
        (self.push(length, from, left, right), digest)
    }

    fn push(&mut self, length: usize, first: usize, left: (Side, Digest), right: (Side, Digest)) -> Side {
        self.nodes.push(Node { length, first, sides: [left.0, right.0], digests: [left.1, right.1] });
        Side::Node(self.nodes.len() - 1)
    }
}

/// The digest of the root, which has no prefix.
pub fn root_of(nodes: &[Node]) -> Digest {
    let [left, right] = &nodes[nodes.len() - 1].digests;
    inner(0, &ZERO, left, right)
}

/// Leaves in bit order, and the inner nodes over them.
pub struct Tree {
    pub leaves: Vec<Leaf>,
    pub nodes: Vec<Node>,
}

impl Tree {
    /// Over leaves in any order; 7 if two share a label.
    pub fn grow(mut leaves: Vec<Leaf>) -> Result<Tree, u8> {
        leaves.sort_unstable_by(|a, b| a.label.cmp(&b.label));
        need(leaves.windows(2).all(|pair| pair[0].label != pair[1].label), no::CLASH)?;
        let item = |x: &Leaf| Item { prefix: x.label, length: 256, digest: leaf(&x.label, &x.commitment, x.epoch) };
        let items: Vec<Item> = leaves.iter().map(item).collect();
        let nodes = Nodes::build(&items);
        Ok(Tree { leaves, nodes })
    }

    pub fn root(&self) -> Digest {
        root_of(&self.nodes)
    }

    /// The prefix of a node: the first bits of any leaf below it.
    pub fn prefix(&self, node: &Node) -> Digest {
        prefix(&self.leaves[node.first].label, node.length)
    }

    /// Appends a label's path; whether the label is there.
    pub fn path(&self, label: &Digest, out: &mut Vec<u8>) -> bool {
        let start = out.len();
        let mut steps: u16 = 0;
        out.extend([0; 2]);
        let mut node = &self.nodes[self.nodes.len() - 1];
        let there = loop {
            let right = bit(label, node.length) as usize;
            out.extend((node.length as u16).to_be_bytes());
            out.extend(node.digests[1 - right]);
            steps += 1;
            match node.sides[right] {
                Side::Nothing => {
                    out.push(3);
                    break false;
                }
                Side::Item(i) => break self.leaf_end(label, &self.leaves[i], out),
                Side::Node(i) => {
                    node = &self.nodes[i];
                    let shared = self.prefix(node);
                    if first_difference(label, &shared) < node.length {
                        out.push(2);
                        opened(node, &shared, out);
                        break false;
                    }
                }
            }
        };
        out[start..start + 2].copy_from_slice(&steps.to_be_bytes());
        there
    }

    fn leaf_end(&self, label: &Digest, leaf: &Leaf, out: &mut Vec<u8>) -> bool {
        let there = leaf.label == *label;
        out.push(!there as u8);
        if !there {
            out.extend(leaf.label);
        }
        out.extend(leaf.commitment);
        out.extend(leaf.epoch.to_be_bytes());
        there
    }
}

/// An inner node's 98 bytes after its 0x01.
pub fn opened(node: &Node, prefix: &Digest, out: &mut Vec<u8>) {
    out.extend((node.length as u16).to_be_bytes());
    out.extend(prefix);
    out.extend(node.digests[0]);
    out.extend(node.digests[1]);
}

/// The tree level's own bound: what 4,096 records can give tree *all*.
const ENTRIES: usize = 8192;

/// Entries of 68 bytes (label, commitment, epoch) in any order.
fn entries(bytes: &[u8]) -> Result<Vec<Leaf>, u8> {
    need(bytes.len() % 68 == 0 && bytes.len() / 68 <= ENTRIES, no::INPUT)?;
    let entry = |e: &[u8]| Leaf { label: e[..32].try_into().unwrap(), commitment: e[32..64].try_into().unwrap(), epoch: u32::from_be_bytes(e[64..].try_into().unwrap()) };
    Ok(bytes.chunks_exact(68).map(entry).collect())
}

pub fn tree_root(bytes: &[u8]) -> Result<Digest, u8> {
    Ok(Tree::grow(entries(bytes)?)?.root())
}

/// A label's path; 7 if the label is to be shown absent and is there.
pub fn tree_path(bytes: &[u8], label: &[u8], absent: bool) -> Result<Vec<u8>, u8> {
    let leaves = entries(bytes)?;
    let label: &Digest = label.try_into().map_err(|_| no::INPUT)?;
    let mut path = Vec::new();
    let there = Tree::grow(leaves)?.path(label, &mut path);
    need(!(absent && there), no::CLASH)?;
    Ok(path)
}
