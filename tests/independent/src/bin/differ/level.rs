//! The tree level, which takes labels directly, and the small calls.

use independent::strings::Digest;

use crate::audits::labels;
use crate::call::{FIRST_DIFFERENCE, HISTORY_PATHS, SHA256, TREE_PATH, TREE_ROOT};
use crate::case::{Cases, Want};
use crate::liar::apart_at;
use crate::rng::Rng;

fn entries(labels: &[Digest], rng: &mut Rng) -> Vec<u8> {
    let entry = |label: &Digest| [&label[..], &rng.digest(), &rng.bytes(4)].concat();
    labels.iter().flat_map(entry).collect()
}

pub fn put_tree(rng: &mut Rng, out: &mut Cases) {
    let most = *rng.pick(&[1, 2, 3, 6, 20, 60]);
    let count = rng.below(most + 1);
    let mut labels = labels(count, rng);
    let known = if labels.is_empty() { rng.digest() } else { *rng.pick(&labels) };
    let (mut aim, mut want) = ("a tree", Want::Accept);
    if !labels.is_empty() && rng.once_in(4) {
        labels.insert(rng.below(labels.len()), known);
        (aim, want) = ("a label twice", Want::Refuse(7));
    }
    let mut bytes = entries(&labels, rng);
    if rng.once_in(8) {
        let more = 1 + rng.below(67);
        bytes.extend(rng.bytes(more));
        (aim, want) = ("a torn entry", Want::Refuse(1));
    }
    if rng.once_in(3) {
        return out.put(TREE_ROOT, vec![bytes], aim, want);
    }
    put_path(bytes, known, !labels.is_empty(), (aim, want), rng, out)
}

fn put_path(bytes: Vec<u8>, known: Digest, is_there: bool, (mut aim, mut want): (&'static str, Want), rng: &mut Rng, out: &mut Cases) {
    let absent = *rng.pick(&[0u16, 0, 1, 1, 2, 0xffff]);
    let (label, there) = match rng.below(3) {
        0 => (rng.digest(), false),
        1 => (apart_at(&known, rng.below(256), rng), false),
        _ => (known, is_there),
    };
    let mut label = label.to_vec();
    if want == Want::Accept && there && absent > 0 {
        (aim, want) = ("a label to be shown absent", Want::Refuse(7));
    }
    if rng.once_in(10) {
        label.resize(*rng.pick(&[0, 31, 33, 64]), 0);
        (aim, want) = ("a label that is not 32 bytes", Want::Refuse(1));
    }
    out.put(TREE_PATH, vec![bytes, label, absent.to_be_bytes().to_vec()], aim, want)
}

pub fn put_small(rng: &mut Rng, out: &mut Cases) {
    match rng.below(3) {
        0 => {
            let length = if rng.once_in(10) { rng.below(3000) } else { rng.below(200) };
            out.put(SHA256, vec![rng.bytes(length)], "bytes", Want::Accept)
        }
        1 => {
            let one = rng.digest();
            let other = if rng.once_in(5) { one } else { apart_at(&one, rng.below(256), rng) };
            out.put(FIRST_DIFFERENCE, vec![one.to_vec(), other.to_vec()], "two labels", Want::Accept)
        }
        _ => {
            let any = rng.between(0, 1023) as u16;
            let n = *rng.pick(&[0, 1, 2, 3, 4, 511, 512, 1022, 1023, any, any, any]);
            let epoch = (1u32 << rng.below(32)).wrapping_sub(rng.below(2) as u32);
            out.put(HISTORY_PATHS, vec![n.to_be_bytes().to_vec(), epoch.to_be_bytes().to_vec()], "a history", Want::Accept)
        }
    }
}
