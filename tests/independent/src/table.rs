//! Record and head tables, updates, and the leaves that records give.

use std::collections::HashMap;

use crate::strings::{commitment, label, Digest, MARKER, VERSION, ZERO};
use crate::tree::Leaf;

pub const RECORD: usize = 168;
pub const UPDATE: usize = 162;
pub const HEAD: usize = 32;
pub const RECORDS: usize = 4096;
pub const HEADS: usize = 65536;
pub const BATCH: usize = 256;
pub const VERSIONS: u16 = 1023;

/// The record count and the current epoch.
#[derive(Clone, Copy, PartialEq, Eq, Debug)]
pub struct State {
    pub count: u32,
    pub epoch: u32,
}

pub fn within(records: &[u8], heads: &[u8]) -> bool {
    records.len() % RECORD == 0 && records.len() / RECORD <= RECORDS && heads_within(heads)
}

pub fn heads_within(heads: &[u8]) -> bool {
    heads.len() % HEAD == 0 && (1..=HEADS).contains(&(heads.len() / HEAD))
}

pub fn is_name(name: &[u8]) -> bool {
    (1..=64).contains(&name.len()) && name.iter().all(|b| (0x21..=0x7e).contains(b))
}

/// 65 bytes that are a length of 1 to 64, so many bytes, and zeros.
fn filled(field: &[u8]) -> Option<&[u8]> {
    let length = field[0] as usize;
    let (used, unused) = field[1..].split_at_checked(length)?;
    (length > 0 && unused.iter().all(|&b| b == 0)).then_some(used)
}

/// The name of an update in layout.
pub fn update_name(update: &[u8]) -> Option<&[u8]> {
    filled(&update[65..130])?;
    filled(&update[..65]).filter(|name| is_name(name))
}

#[derive(Clone, Copy)]
pub struct Record<'a>(pub &'a [u8]);

impl<'a> Record<'a> {
    pub fn name(self) -> &'a [u8] {
        &self.0[1..1 + self.0[0] as usize]
    }

    pub fn version(self) -> u16 {
        u16::from_be_bytes([self.0[65], self.0[66]])
    }

    pub fn epoch(self) -> u32 {
        u32::from_be_bytes(self.0[67..71].try_into().unwrap())
    }

    pub fn key(self) -> &'a [u8] {
        &self.0[72..72 + self.0[71] as usize]
    }

    pub fn opening(self) -> &'a [u8] {
        &self.0[136..]
    }
}

/// An update's record.
pub fn record_of(update: &[u8], version: u16, epoch: u32, out: &mut Vec<u8>) {
    out.extend(&update[..65]);
    out.extend(version.to_be_bytes());
    out.extend(epoch.to_be_bytes());
    out.extend(&update[65..]);
}

pub fn counted(records: &[u8], state: State) -> impl Iterator<Item = Record<'_>> + Clone {
    records.chunks_exact(RECORD).take(state.count as usize).map(Record)
}

/// A name's last version, and its epoch.
pub type Last = (u16, u32);

/// Each name's last version, if tables within their bounds are in shape.
pub fn in_shape<'a>(records: &'a [u8], heads: &[u8], state: State) -> Option<HashMap<&'a [u8], Last>> {
    if state.count as usize > records.len() / RECORD || state.epoch as usize >= heads.len() / HEAD {
        return None;
    }
    let mut last: HashMap<&[u8], Last> = HashMap::new();
    let mut latest = 1;
    for record in counted(records, state) {
        let name = filled(&record.0[..65]).filter(|name| is_name(name))?;
        filled(&record.0[71..136])?;
        let epoch = record.epoch();
        if epoch < latest || epoch > state.epoch {
            return None;
        }
        latest = epoch;
        let before = last.entry(name).or_insert((0, 0));
        if before.0 == VERSIONS || record.version() != before.0 + 1 || epoch <= before.1 {
            return None;
        }
        *before = (record.version(), epoch);
    }
    Some(last)
}

/// The leaves of *all* and of *old* that records give.
pub fn leaves<'a>(records: impl Iterator<Item = Record<'a>>) -> (Vec<Leaf>, Vec<Leaf>) {
    let (mut all, mut old) = (Vec::new(), Vec::new());
    for record in records {
        let (name, version, epoch) = (record.name(), record.version(), record.epoch());
        let leaf = |label: Digest, commitment: Digest| Leaf { label, commitment, epoch };
        all.push(leaf(label(VERSION, version, name), commitment(record.opening(), record.key())));
        if version.is_power_of_two() {
            all.push(leaf(label(MARKER, version.ilog2() as u16, name), ZERO));
        }
        if version > 1 {
            old.push(leaf(label(VERSION, version - 1, name), ZERO));
        }
    }
    (all, old)
}
