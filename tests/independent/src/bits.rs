//! Bits of labels: bit 0 is the top bit of the first byte.

use crate::strings::Digest;

pub fn bit(label: &Digest, i: usize) -> bool {
    label[i / 8] >> (7 - i % 8) & 1 == 1
}

/// 0 to 255, or 256 for equal labels.
pub fn first_difference(a: &Digest, b: &Digest) -> usize {
    match a.iter().zip(b).position(|(x, y)| x != y) {
        Some(i) => 8 * i + (a[i] ^ b[i]).leading_zeros() as usize,
        None => 256,
    }
}

/// The first bits of a label, the rest zero.
pub fn prefix(label: &Digest, length: usize) -> Digest {
    let mut cut = [0; 32];
    let whole = length / 8;
    cut[..whole].copy_from_slice(&label[..whole]);
    if length % 8 > 0 {
        cut[whole] = label[whole] & !(0xff >> (length % 8));
    }
    cut
}
