//! A server that lies and hashes its lies: any leaves, trees over them, and the proofs that they give.

use independent::bits::bit;
use independent::plan::{history_plan, lookup_plan, Asked, Which};
use independent::strings::{label, Digest};
use independent::tree::{Leaf, Tree};
use independent::write::LOOKUP;

use crate::forge::{front, Key, Opening, Path, Shows};
use crate::rng::Rng;

pub struct Liar {
    pub name: Vec<u8>,
    pub epoch: u32,
    previous: Digest,
    /// Of *all* and of *old*.
    leaves: [Vec<Leaf>; 2],
}

/// A name within the bounds, often at one of them.
pub fn name(rng: &mut Rng) -> Vec<u8> {
    let length = *rng.pick(&[1, 1, 2, 5, 9, 51, 52, 63, 64]);
    (0..length).map(|_| if rng.once_in(8) { *rng.pick(&[0x21, 0x7e]) } else { rng.between(0x21, 0x7e) as u8 }).collect()
}

/// The same bits up to one that differs, and any behind it.
pub fn apart_at(target: &Digest, at: usize, rng: &mut Rng) -> Digest {
    let mut other = rng.digest();
    for i in 0..=at {
        let wanted = bit(target, i) != (i == at);
        if bit(&other, i) != wanted {
            other[i / 8] ^= 0x80 >> (i % 8);
        }
    }
    other
}

impl Liar {
    pub fn new(name: Vec<u8>, epoch: u32, rng: &mut Rng) -> Liar {
        Liar { name, epoch, previous: rng.digest(), leaves: [Vec::new(), Vec::new()] }
    }

    fn tree(&mut self, which: Which) -> &mut Vec<Leaf> {
        &mut self.leaves[which as usize]
    }

    /// Puts a leaf in place of one with that label, if there is one.
    pub fn put(&mut self, which: Which, kind: u8, number: u16, commitment: Digest, epoch: u32) {
        self.take(which, kind, number);
        let label = label(kind, number, &self.name);
        self.tree(which).push(Leaf { label, commitment, epoch });
    }

    pub fn take(&mut self, which: Which, kind: u8, number: u16) {
        let label = label(kind, number, &self.name);
        self.tree(which).retain(|leaf| leaf.label != label);
    }

    pub fn leaf(&mut self, which: Which, kind: u8, number: u16) -> &mut Leaf {
        let label = label(kind, number, &self.name);
        self.tree(which).iter_mut().find(|leaf| leaf.label == label).expect("the leaf is there")
    }

    /// Leaves of nobody, some of them close to labels that are asked.
    pub fn crowd(&mut self, plan: &[Asked], rng: &mut Rng) {
        for which in [Which::All, Which::Old] {
            for _ in 0..rng.below(12) {
                let label = match rng.below(3) {
                    0 if !plan.is_empty() => {
                        let near = *rng.pick(plan);
                        apart_at(&near.label(&self.name), rng.below(256), rng)
                    }
                    _ => rng.digest(),
                };
                let leaf = Leaf { label, commitment: rng.digest(), epoch: rng.next() as u32 };
                if self.tree(which).iter().all(|other| other.label != label) {
                    self.tree(which).push(leaf);
                }
            }
        }
    }

    /// A lookup or history of a number, with the path of each label as its tree has it.
    pub fn prove(&self, kind: u8, number: u16, keys: Vec<Key>) -> Shows {
        let trees = [0, 1].map(|i| Tree::grow(self.leaves[i].clone()).expect("no label is there twice"));
        let opening = Opening { epoch: self.epoch, previous: self.previous, all: trees[0].root(), old: trees[1].root() };
        let plan = if kind == LOOKUP { lookup_plan(number) } else { history_plan(number, self.epoch) };
        let path = |asked: &Asked| {
            let mut bytes = Vec::new();
            trees[asked.tree as usize].path(&asked.label(&self.name), &mut bytes);
            Path::read(&bytes)
        };
        Shows { front: front(kind), opening, number, keys, paths: plan.iter().map(path).collect(), rest: Vec::new() }
    }
}
