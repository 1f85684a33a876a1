//! What an accepted history tells.
use crate::{check_history, History, Refusal};

/// A version as a history tells it: the epoch in which it came, its key and the key's opening, which are parts of the proof.
#[derive(Clone, Copy, Debug, PartialEq, Eq)]
pub struct Told<'a> {
    pub version: u16,
    pub epoch: u32,
    pub key: &'a [u8],
    pub opening: &'a [u8],
}

fn number(bytes: &[u8]) -> usize {
    bytes.iter().fold(0, |n, &byte| n << 8 | byte as usize)
}

/// Checks a history proof of a name at a head of 32 bytes, as [`check_history`] does, and reads every version out of an accepted one, from 1 on.
///
/// The owner of the name compares these keys with its own. The check is proved. The reading is this crate's own, and tested: document 01's
/// layout, in bytes that the check has found to have it.
pub fn read_history<'a>(head: &[u8], name: &[u8], proof: &'a [u8]) -> Result<(History, Vec<Told<'a>>), Refusal> {
    let history = check_history(head, name, proof)?;
    let mut told = Vec::new();
    let mut at = 108; // behind "VKD", layout version, kind, the head's 100 bytes and n: keys, each with its length and its opening
    for version in 1..=history.versions {
        let end = at + 1 + proof[at] as usize;
        told.push(Told { version, epoch: 0, key: &proof[at + 1..end], opening: &proof[end..end + 32] });
        at = end + 32;
    }
    // then paths, the first n of versions that are there: how many steps, these in 34 bytes each, kind 0, commitment, epoch
    for version in &mut told {
        at += 2 + 34 * number(&proof[at..at + 2]);
        version.epoch = number(&proof[at + 33..at + 37]) as u32;
        at += 37;
    }
    Ok((history, told))
}

/// The version that was current at an epoch, by what a history tells: the last that came by then, or none.
///
/// If a lookup of the same name was accepted at the head of that epoch, and each audit step from there to the history's head, then the lookup
/// gave this version and its key, or two different strings that these checks hashed have one SHA-256 digest. That is proved of what document 01
/// reads in a history, which [`read_history`] reads again.
pub fn current_at<'a>(told: &[Told<'a>], epoch: u32) -> Option<Told<'a>> {
    told.iter().rev().find(|version| version.epoch <= epoch).copied()
}
