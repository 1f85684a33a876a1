//! What a server that lies may try: the near misses of document 01, and plainer lies. Whoever is shown one of these sees it at once.
use independent::plan::Which;
use independent::strings::{self, commitment, label, Digest, VERSION, ZERO};
use independent::tree::{Item, Nodes};

use crate::directory::{opening, Directory};
use crate::forged::Trees;
use crate::handset::{auditor, friend, Said};
use crate::{handset_key, BO, FINDER, IDA};

/// A lie: what is tried, who is shown it, and what that one says.
pub struct Lie {
    pub tale: &'static str,
    pub said: Vec<(&'static str, Said)>,
}

fn to_friend(tale: &'static str, head: &[u8], name: &[u8], proof: &[u8]) -> Lie {
    Lie { tale, said: vec![("a friend's handset", friend(head, name, proof))] }
}

fn to_auditor(tale: &'static str, old_head: &[u8], (head, proof): (Digest, Vec<u8>)) -> Lie {
    Lie { tale, said: vec![("an auditor", auditor(old_head, &[(head.to_vec(), proof)]))] }
}

/// The replaced key once more.
fn replaced(d: &Directory) -> Vec<Lie> {
    vec![
        to_friend("It shows bo's replaced key under the current head.", d.head(4), BO, &Trees::honest(d, 4).lookup(BO, 1, &handset_key(BO, 1))),
        to_friend("It shows yesterday's lookup of bo.", d.head(4), BO, &d.lookup(BO, 3)),
    ]
}

/// "A lookup without its marker, so that version 8 hides beyond a history of 3."
fn unmarked(d: &Directory) -> Vec<Lie> {
    let mut bare = Trees::honest(d, 4).next().next().next().next();
    bare.add(VERSION, 8, BO, commitment(&opening(FINDER), FINDER.as_bytes()));
    vec![to_friend("It hides a version 8 of bo, with no marker, under a head of its own.", &bare.head(), BO, &bare.lookup(BO, 8, FINDER))]
}

/// "The sibling hashed on the right when the label's bit is 1", and "zero bytes as the digest of nothing".
fn hashed_otherwise(d: &Directory) -> Vec<Lie> {
    let honest = Trees::honest(d, 4);
    let tree = honest.tree(Which::All);
    let [left, right] = tree.nodes[tree.nodes.len() - 1].digests;
    let name = *crate::CREW.iter().find(|n| label(VERSION, 1, n)[0] >= 0x80).expect("a label that begins with 1");
    let mut proof = d.lookup(name, 4);
    let exchanged = strings::opening(4, &honest.previous, &strings::inner(0, &ZERO, &right, &left), &honest.tree(Which::Old).root());
    proof[6..106].copy_from_slice(&exchanged);
    let empty = strings::opening(0, &ZERO, &strings::inner(0, &ZERO, &ZERO, &ZERO), &strings::inner(0, &ZERO, &ZERO, &ZERO));
    let mut none = b"VKD\x00\x01\x01".to_vec();
    none.extend(empty);
    none.extend([0, 0, 0, 1, 0, 0]);
    none.extend(ZERO);
    none.push(3);
    vec![
        to_friend("It exchanges left and right at the root.", &strings::head(&exchanged), name, &proof),
        to_friend("It takes zero bytes for the digest of nothing.", &strings::head(&empty), IDA, &none),
    ]
}

/// The records of an audit's first list: where each begins.
fn records(proof: &[u8]) -> Vec<usize> {
    let many = u32::from_be_bytes(proof[206..210].try_into().unwrap()) as usize;
    (0..many).map(|i| 210 + 99 * i).collect()
}

/// The new root over an audit's first list, as it stands.
fn new_root(proof: &[u8]) -> Digest {
    let field = |at: usize| -> Digest { proof[at..at + 32].try_into().unwrap() };
    let item = |at: usize| {
        let length = u16::from_be_bytes([proof[at + 1], proof[at + 2]]) as usize;
        let digest = match proof[at] {
            1 => strings::inner(length, &field(at + 3), &field(at + 35), &field(at + 67)),
            _ => strings::leaf(&field(at + 3), &field(at + 35), u32::from_be_bytes(proof[at + 67..at + 71].try_into().unwrap())),
        };
        Item { prefix: field(at + 3), length, digest }
    };
    let items: Vec<Item> = records(proof).into_iter().map(item).collect();
    independent::tree::root_of(&Nodes::build(&items))
}

/// The audit with the new root and head that its list gives, and that head.
fn rehashed(mut proof: Vec<u8>) -> (Digest, Vec<u8>) {
    let root = new_root(&proof);
    proof[106 + 36..106 + 68].copy_from_slice(&root);
    (strings::head(&proof[106..206].try_into().unwrap()), proof)
}

/// "An unchanged subtree taken as a bare digest with a claimed prefix": one bit longer, as if all below it stood on its left. And "a new
/// audit leaf with an earlier epoch".
fn audited(d: &Directory) -> Vec<Lie> {
    let mut moved = d.audit(4);
    let at = *records(&moved).iter().find(|&&at| moved[at] == 1).expect("an unchanged subtree");
    moved[at + 2] += 1;
    let mut early = d.audit(4);
    let at = *records(&early).iter().find(|&&at| early[at] == 2).expect("a new leaf");
    early[at + 67..at + 71].copy_from_slice(&3u32.to_be_bytes());
    vec![
        to_auditor("It claims another prefix for an unchanged subtree, to hide a label.", d.head(3), rehashed(moved)),
        to_auditor("It adds a leaf that claims to be older than it is.", d.head(3), rehashed(early)),
    ]
}

/// Bytes that are no proof, and a name that is none.
fn broken(d: &Directory) -> Vec<Lie> {
    let proof = d.lookup(BO, 4);
    vec![
        to_friend("The radio cuts a proof short.", d.head(4), BO, &proof[..proof.len() - 1]),
        to_friend("A name has a blank in it.", d.head(4), b"bo north", &proof),
    ]
}

pub fn lies(d: &Directory) -> Vec<Lie> {
    [replaced(d), unmarked(d), hashed_otherwise(d), audited(d), broken(d)].into_iter().flatten().collect()
}
