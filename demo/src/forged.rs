//! Trees as a server that lies would have them, under heads of its own. The independent implementation hashes whatever it is told to.
use independent::plan::{history_plan, lookup_plan, Asked, Which};
use independent::strings::{self, label, Digest, VERSION, ZERO};
use independent::table::{counted, leaves};
use independent::tree::{Leaf, Tree};

use crate::directory::{opening, Directory};

#[derive(Clone)]
pub struct Trees {
    pub all: Vec<Leaf>,
    pub old: Vec<Leaf>,
    pub epoch: u32,
    pub previous: Digest,
}

impl Trees {
    /// Those of an epoch of the directory, which have its head.
    pub fn honest(d: &Directory, epoch: u32) -> Trees {
        let state = independent::State { count: d.state.count, epoch: d.state.epoch };
        let (all, old) = leaves(counted(&d.records, state).filter(|record| record.epoch() <= epoch));
        let trees = Trees { all, old, epoch, previous: d.head(epoch - 1).try_into().unwrap() };
        assert_eq!(trees.head(), d.head(epoch));
        trees
    }

    /// The next epoch, in which nothing happens.
    pub fn next(&self) -> Trees {
        Trees { epoch: self.epoch + 1, previous: self.head(), ..self.clone() }
    }

    pub fn tree(&self, which: Which) -> Tree {
        Tree::grow(if which == Which::All { self.all.clone() } else { self.old.clone() }).unwrap_or_else(|n| panic!("refused {n}"))
    }

    pub fn opened(&self) -> [u8; 100] {
        strings::opening(self.epoch, &self.previous, &self.tree(Which::All).root(), &self.tree(Which::Old).root())
    }

    pub fn head(&self) -> Digest {
        strings::head(&self.opened())
    }

    /// A new leaf of *all*.
    pub fn add(&mut self, kind: u8, number: u16, name: &[u8], commitment: Digest) {
        self.all.push(Leaf { label: label(kind, number, name), commitment, epoch: self.epoch });
    }

    /// A new leaf of *old*.
    pub fn replace(&mut self, version: u16, name: &[u8]) {
        self.old.push(Leaf { label: label(VERSION, version, name), commitment: ZERO, epoch: self.epoch });
    }

    /// A lookup or history: its kind, number and keys, and a path for all that is asked.
    fn proof(&self, kind: u8, number: u16, keys: &[String], name: &[u8], asked: Vec<Asked>) -> Vec<u8> {
        let mut out = b"VKD\x00\x01".to_vec();
        out.push(kind);
        out.extend(self.opened());
        out.extend(number.to_be_bytes());
        for key in keys {
            out.push(key.len() as u8);
            out.extend(key.as_bytes());
            out.extend(opening(key));
        }
        for a in asked {
            self.tree(a.tree).path(&a.label(name), &mut out);
        }
        out
    }

    pub fn lookup(&self, name: &[u8], version: u16, key: &str) -> Vec<u8> {
        self.proof(1, version, &[key.to_string()], name, lookup_plan(version))
    }

    pub fn history(&self, name: &[u8], keys: &[String]) -> Vec<u8> {
        self.proof(2, keys.len() as u16, keys, name, history_plan(keys.len() as u16, self.epoch))
    }

    /// The audit from the epoch before, with every leaf in its lists, unchanged or new.
    pub fn audit(&self, before: &Trees) -> Vec<u8> {
        let mut out = b"VKD\x00\x01\x03".to_vec();
        out.extend(before.opened());
        out.extend(self.opened());
        for which in [Which::All, Which::Old] {
            let leaves = self.tree(which).leaves;
            out.extend((leaves.len() as u32).to_be_bytes());
            for leaf in leaves {
                out.push(if leaf.epoch == self.epoch { 2 } else { 0 });
                out.extend(256u16.to_be_bytes());
                out.extend(leaf.label);
                out.extend(leaf.commitment);
                out.extend(leaf.epoch.to_be_bytes());
                out.extend([0; 28]);
            }
        }
        out
    }
}
