//! Single paths, made from nothing: of any steps, with the root that they give.

use independent::bits::{first_difference, prefix};
use independent::strings::{leaf, Digest};

use crate::case::Want;
use crate::forge::{another_leaf, another_node, climb, this_leaf, Path};
use crate::liar::apart_at;
use crate::rng::Rng;

type Steps = Vec<(u16, Digest)>;

/// Steps with lengths among those given, the first and the last of them for certain.
fn steps(from: usize, to: usize, rng: &mut Rng) -> Steps {
    let every = *rng.pick(&[1, 2, 8, 64]);
    let mut step = |k: usize| (k == from || k == to || rng.once_in(every)).then(|| (k as u16, rng.digest()));
    (from..=to).filter_map(&mut step).collect()
}

/// A path that is to show a label absent: whether it does so.
pub fn absence(label: &Digest, rng: &mut Rng) -> (Path, &'static str, Want) {
    let last = match rng.below(4) {
        0 => 0,
        1 => *rng.pick(&[1, 7, 8, 252, 253, 254, 255]),
        _ => rng.below(256),
    };
    let reached = last + 1;
    let steps = steps(0, last, rng);
    let (end, aim, want) = match rng.below(8) {
        0 if last == 0 => ((3, Vec::new()), "nothing on the label's side", Want::Accept),
        1 | 2 if reached < 256 => {
            let at = reached + rng.below(256 - reached);
            let at = *rng.pick(&[reached, at, 255]);
            (another_leaf(&apart_at(label, at, rng), &rng.digest(), rng.next() as u32), "another leaf in the label's place", Want::Accept)
        }
        3 if reached < 255 => {
            let length = reached + 1 + rng.below(255 - reached);
            let at = *rng.pick(&[reached, length - 1]);
            let bits = prefix(&apart_at(label, at, rng), length);
            (another_node(length as u16, &bits, &rng.digest(), &rng.digest()), "another node in the label's place", Want::Accept)
        }
        4 => (another_leaf(label, &rng.digest(), rng.next() as u32), "the label itself as another leaf", Want::Refuse(5)),
        5 => {
            let any = rng.below(reached);
            let at = *rng.pick(&[0, last, any]);
            (another_leaf(&apart_at(label, at, rng), &rng.digest(), rng.next() as u32), "another leaf from elsewhere", Want::Refuse(5))
        }
        6 => (this_leaf(&rng.digest(), rng.next() as u32), "this leaf where none is to be", Want::Refuse(5)),
        _ => {
            let (bits, length) = wrong_node(label, reached, rng);
            (another_node(length as u16, &bits, &rng.digest(), &rng.digest()), "another node out of place", Want::Refuse(5))
        }
    };
    (Path::new(steps, end), aim, want)
}

/// Too short, from elsewhere, or a prefix of the label.
fn wrong_node(label: &Digest, reached: usize, rng: &mut Rng) -> (Digest, usize) {
    let length = match rng.below(3) {
        0 => reached.min(255),
        1 => 1 + rng.below(reached.min(255)),
        _ => 1 + rng.below(255),
    };
    if length > reached && rng.once_in(2) {
        let any = rng.below(reached);
        let at = *rng.pick(&[0, reached - 1, any]);
        return (prefix(&apart_at(label, at, rng), length), length);
    }
    (prefix(label, length), length)
}

/// A leaf with its label, commitment and epoch.
pub type Told<'a> = (&'a Digest, &'a Digest, u32);

/// The paths of two leaves in one tree, and its root.
pub fn twins(one: Told, other: Told, rng: &mut Rng) -> ([Path; 2], Digest) {
    let fork = first_difference(one.0, other.0);
    let above: Steps = if fork == 0 { Vec::new() } else { steps(0, fork - 1, rng) };
    let below = [0, 1].map(|_| if rng.once_in(4) || fork == 255 { Vec::new() } else { steps(fork + 1, 255, rng) });
    let digest = |(label, commitment, epoch): Told, steps: &Steps| climb(label, steps, leaf(label, commitment, epoch));
    let sides = [digest(one, &below[0]), digest(other, &below[1])];
    let path = |i: usize, told: Told| {
        let steps = [&above[..], &[(fork as u16, sides[1 - i])], &below[i]].concat();
        Path::new(steps, this_leaf(told.1, told.2))
    };
    let paths = [path(0, one), path(1, other)];
    let root = paths[0].root(one.0);
    (paths, root)
}
