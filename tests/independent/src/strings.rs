//! "Strings that are hashed".

use crate::sha256::sha256;

pub type Digest = [u8; 32];

pub const ZERO: Digest = [0; 32];

/// Kinds of a label.
pub const VERSION: u8 = 1;
pub const MARKER: u8 = 2;

pub fn leaf(label: &Digest, commitment: &Digest, epoch: u32) -> Digest {
    let mut string = [0; 69];
    string[1..33].copy_from_slice(label);
    string[33..65].copy_from_slice(commitment);
    string[65..].copy_from_slice(&epoch.to_be_bytes());
    sha256(&string)
}

/// The prefix has zero bits past its length.
pub fn inner(length: usize, prefix: &Digest, left: &Digest, right: &Digest) -> Digest {
    let mut string = [1; 99];
    string[1..3].copy_from_slice(&(length as u16).to_be_bytes());
    string[3..35].copy_from_slice(prefix);
    string[35..67].copy_from_slice(left);
    string[67..].copy_from_slice(right);
    sha256(&string)
}

pub fn nothing() -> Digest {
    sha256(&[2])
}

/// Of the 100 bytes after the 0x03.
pub fn head(opening: &[u8; 100]) -> Digest {
    let mut string = [3; 101];
    string[1..].copy_from_slice(opening);
    sha256(&string)
}

pub fn opening(epoch: u32, previous: &Digest, all: &Digest, old: &Digest) -> [u8; 100] {
    let mut bytes = [0; 100];
    bytes[..4].copy_from_slice(&epoch.to_be_bytes());
    bytes[4..36].copy_from_slice(previous);
    bytes[36..68].copy_from_slice(all);
    bytes[68..].copy_from_slice(old);
    bytes
}

/// Of a name of at most 64 bytes.
pub fn label(kind: u8, number: u16, name: &[u8]) -> Digest {
    let mut string = [4; 68];
    string[1] = kind;
    string[2..4].copy_from_slice(&number.to_be_bytes());
    string[4..4 + name.len()].copy_from_slice(name);
    sha256(&string[..4 + name.len()])
}

/// Of a key of at most 64 bytes.
pub fn commitment(opening: &[u8], key: &[u8]) -> Digest {
    let mut string = [5; 97];
    string[1..33].copy_from_slice(opening);
    string[33..33 + key.len()].copy_from_slice(key);
    sha256(&string[..33 + key.len()])
}
