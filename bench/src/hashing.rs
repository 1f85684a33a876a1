//! The hashing of a check or a call by itself: strings of the same lengths, as many as it hashes, to go through the same SHA-256.
use crate::directory::Directory;

/// An inner node has 99 bytes, a leaf 69, a head 101: each is two blocks. A label of a short name is one, as is nothing.
const NODE: usize = 99;

/// How many strings of each length.
pub struct Strings(Vec<(usize, Vec<u8>)>);

fn of(strings: &[(usize, usize)]) -> Strings {
    Strings(strings.iter().map(|&(many, size)| (many, vec![0x55; size])).collect())
}

impl Strings {
    pub fn hash(&self) -> usize {
        self.0.iter().map(|(many, data)| (0..*many).map(|_| noonhaggle::sha256(data)[0] as usize).sum::<usize>()).sum()
    }
}

pub fn of_nodes(many: usize) -> Strings {
    of(&[(many, NODE)])
}

/// A proof's paths: how many, and how many steps they have together.
fn paths(proof: &[u8], mut at: usize) -> (usize, usize) {
    let (mut many, mut steps) = (0, 0);
    while at < proof.len() {
        let m = u16::from_be_bytes([proof[at], proof[at + 1]]) as usize;
        let end = at + 2 + 34 * m;
        at = end + 1 + [36, 68, 98, 0][proof[end] as usize];
        many += 1;
        steps += m;
    }
    (many, steps)
}

/// Keys and openings of a proof from place 108 on: where they end, and the keys' lengths.
fn keys(proof: &[u8], many: usize) -> (usize, Vec<usize>) {
    let (mut at, mut lengths) = (108, vec![]);
    for _ in 0..many {
        let n = proof[at] as usize;
        lengths.push(n);
        at += 1 + n + 32;
    }
    (at, lengths)
}

fn of_shown(proof: &[u8], many: usize, name: usize) -> Strings {
    let (at, lengths) = keys(proof, many);
    let (paths, steps) = paths(proof, at);
    let mut strings = vec![(1, 101), (paths, 4 + name), (steps + paths, NODE)];
    strings.extend(lengths.into_iter().map(|n| (1, 33 + n)));
    of(&strings)
}

pub fn of_lookup(proof: &[u8], name: usize) -> Strings {
    of_shown(proof, (u16::from_be_bytes([proof[106], proof[107]]) > 0) as usize, name)
}

pub fn of_history(proof: &[u8], name: usize) -> Strings {
    of_shown(proof, u16::from_be_bytes([proof[106], proof[107]]) as usize, name)
}

/// Leaves of *all* and *old* after the last batch: each hashes its label and itself, and one inner node; a version its commitment too.
fn leaves(d: &Directory) -> (usize, usize) {
    let versions = (0..d.state.count as usize).map(|i| u16::from_be_bytes([d.records[168 * i + 65], d.records[168 * i + 66]]));
    versions.fold((0, 0), |(all, old), v| (all + 1 + v.is_power_of_two() as usize, old + (v > 1) as usize))
}

/// Both trees of an epoch, once, and so many nodes more.
fn of_trees_and(d: &Directory, nodes: usize) -> Strings {
    let (all, old) = leaves(d);
    of(&[(all + old, 14), (2 * (all + old) + nodes, NODE), (d.state.count as usize, 65)])
}

/// Both trees of an epoch, once.
pub fn of_trees(d: &Directory) -> Strings {
    of_trees_and(d, 0)
}

/// A written audit: both trees, and the old roots out of the lists. A checker hashes these too, besides two heads and the new roots, for which n
/// records that stand on both sides of the root give 2n - 1 nodes.
pub fn of_audit(d: &Directory) -> Strings {
    let (old, new, proof) = d.audit();
    let digests = noonhaggle::check_audit(&old, &new, &proof).expect("accepted").digests as usize;
    let count = |at: usize| u32::from_be_bytes(proof[at..at + 4].try_into().expect("four bytes")) as usize;
    let first = count(206);
    let second = count(210 + 99 * first);
    of_trees_and(d, digests - 2 - (2 * first - 1) - (2 * second - 1))
}
