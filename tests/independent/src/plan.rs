//! Which paths a lookup and a history have, in their order.

use crate::strings::{label, Digest, MARKER, VERSION};

#[derive(Clone, Copy, PartialEq, Eq, Debug)]
pub enum Which {
    All,
    Old,
}

/// What a path is to show: a label of this kind and number, in this tree, present or absent.
#[derive(Clone, Copy, Debug)]
pub struct Asked {
    pub tree: Which,
    pub kind: u8,
    pub number: u16,
    pub present: bool,
}

impl Asked {
    pub fn label(&self, name: &[u8]) -> Digest {
        label(self.kind, self.number, name)
    }
}

fn asked(tree: Which, kind: u8, present: bool) -> impl Fn(u16) -> Asked {
    move |number| Asked { tree, kind, number, present }
}

/// floor(log2 n) of a positive n.
pub fn marker_of(n: u16) -> u16 {
    n.ilog2() as u16
}

pub fn lookup_plan(version: u16) -> Vec<Asked> {
    let in_all = asked(Which::All, VERSION, true);
    match version {
        0 => vec![asked(Which::All, VERSION, false)(1)],
        v => vec![in_all(v), asked(Which::Old, VERSION, false)(v), asked(Which::All, MARKER, true)(marker_of(v))],
    }
}

/// One more than the last marker that may be asked absent at an epoch.
fn markers(epoch: u32) -> u16 {
    match epoch {
        0 => 0,
        t => t.ilog2().min(9) as u16 + 1,
    }
}

/// For n up to 1,023.
pub fn history_plan(n: u16, epoch: u32) -> Vec<Asked> {
    let missing = asked(Which::All, MARKER, false);
    if n == 0 {
        return (0..markers(epoch)).map(missing).collect();
    }
    let a = marker_of(n);
    (1..=n)
        .map(asked(Which::All, VERSION, true))
        .chain((1..n).map(asked(Which::Old, VERSION, true)))
        .chain([asked(Which::Old, VERSION, false)(n)])
        .chain((n + 1..2 << a).map(asked(Which::All, VERSION, false)))
        .chain((0..=a).map(asked(Which::All, MARKER, true)))
        .chain((a + 1..markers(epoch)).map(missing))
        .collect()
}

/// How many paths a history has.
pub fn history_paths(n: u16, epoch: u32) -> u32 {
    if n == 0 {
        return markers(epoch) as u32;
    }
    let a = marker_of(n);
    let unused = (2 << a) - 1 - n as u32;
    2 * n as u32 + unused + (a as u32 + 1) + markers(epoch).saturating_sub(a + 1) as u32
}
