//! Lies under heads of the server's own, so well hashed that a friend's handset accepts the lookup, and an auditor each step from head to head. The
//! owner's history at the last of these heads is refused, or does not tell what the owner had.
use independent::strings::{commitment, MARKER, VERSION, ZERO};

use crate::directory::{opening, Directory};
use crate::forged::Trees;
use crate::handset::{auditor, friend, owner, Said};
use crate::{handset_key, own_keys, BO, FINDER};

/// A lie: what is tried, what those say who are taken in, and what the owner says of each history that the server may show.
pub struct Believed {
    pub tale: &'static str,
    pub taken_in: Vec<(&'static str, Said)>,
    pub owner: Vec<(&'static str, Vec<Said>)>,
}

/// The heads and audits of epochs, one behind the other.
fn steps(epochs: &[Trees]) -> Vec<(Vec<u8>, Vec<u8>)> {
    epochs.windows(2).map(|pair| (pair[1].head().to_vec(), pair[1].audit(&pair[0]))).collect()
}

/// A lie over some epochs, of which the first is the directory's own: a version and a key of bo for a friend, at the one after it or at a later one, and
/// for bo at the last a history of both its keys, and one of the first alone.
fn told(tale: &'static str, epochs: &[Trees], at: usize, version: u16, key: &str) -> Believed {
    let last = &epochs[epochs.len() - 1];
    let keys = [handset_key(BO, 1), handset_key(BO, 2)];
    let shown = |keys: &[String]| owner(&last.head(), BO, &own_keys(), &last.history(BO, keys));
    Believed {
        tale,
        taken_in: vec![
            ("a friend's handset", friend(&epochs[at].head(), BO, &epochs[at].lookup(BO, version, key))),
            ("an auditor", auditor(&epochs[0].head(), &steps(epochs))),
        ],
        owner: vec![("bo's own handset, shown both keys", shown(&keys)), ("bo's own handset, shown the first", shown(&keys[..1]))],
    }
}

/// The new key is there, and the old one is not among those that were replaced.
fn silent(d: &Directory) -> Believed {
    let mut silent = Trees::honest(d, 4);
    silent.old.clear();
    told("It keeps silent about the replacement.", &[Trees::honest(d, 3), silent], 1, 1, &handset_key(BO, 1))
}

/// The new key is not there at all.
fn forgotten(d: &Directory) -> Believed {
    let before = Trees::honest(d, 3);
    let forgotten = before.next();
    told("It forgets bo's new key.", &[before, forgotten], 1, 1, &handset_key(BO, 1))
}

/// The new key comes an epoch later, when a friend has been shown the old one.
fn late(d: &Directory) -> Believed {
    let before = Trees::honest(d, 3);
    let forgotten = before.next();
    let mut late = forgotten.next();
    late.add(VERSION, 2, BO, commitment(&opening(&handset_key(BO, 2)), handset_key(BO, 2).as_bytes()));
    late.add(MARKER, 1, BO, ZERO);
    late.replace(1, BO);
    told("It brings bo's new key an epoch later.", &[before, forgotten, late], 1, 1, &handset_key(BO, 1))
}

/// Another's key as version 8, far beyond what bo has, with the marker that a friend asks for.
fn hidden(d: &Directory) -> Believed {
    let mut epochs = vec![Trees::honest(d, 4)];
    for _ in 0..4 {
        epochs.push(epochs[epochs.len() - 1].next());
    }
    epochs[4].add(VERSION, 8, BO, commitment(&opening(FINDER), FINDER.as_bytes()));
    epochs[4].add(MARKER, 3, BO, ZERO);
    told("It hides a version 8 beyond bo's history, with its marker.", &epochs, 4, 8, FINDER)
}

/// Another's key comes in place of bo's new one, by every rule.
fn another(d: &Directory) -> Believed {
    let before = Trees::honest(d, 3);
    let mut another = before.next();
    another.add(VERSION, 2, BO, commitment(&opening(FINDER), FINDER.as_bytes()));
    another.add(MARKER, 1, BO, ZERO);
    another.replace(1, BO);
    let openly = owner(&another.head(), BO, &own_keys(), &another.history(BO, &[handset_key(BO, 1), FINDER.into()]));
    let mut lie = told("It publishes another's key in place of bo's new one.", &[before, another], 1, 2, FINDER);
    lie.owner.push(("bo's own handset, shown that key", openly));
    lie
}

pub fn lies(d: &Directory) -> Vec<Believed> {
    vec![silent(d), forgotten(d), late(d), another(d), hidden(d)]
}
