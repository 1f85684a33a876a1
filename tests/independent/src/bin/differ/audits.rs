//! Audit steps, told and mistold.

use independent::bits::{first_difference, prefix};
use independent::strings::{self, Digest, ZERO};
use independent::tree::{Leaf, Node, Side, Tree};

use crate::call::CHECK_AUDIT;
use crate::case::{Cases, Want};
use crate::forge::{Audit, Entry, List};
use crate::liar::apart_at;
use crate::rng::Rng;

const FORM: Want = Want::Refuse(2);
const RULE: Want = Want::Refuse(5);

/// Labels, some of which share many bits.
pub fn labels(count: usize, rng: &mut Rng) -> Vec<Digest> {
    let mut labels: Vec<Digest> = Vec::new();
    for _ in 0..count {
        let fresh = labels.is_empty() || rng.once_in(2);
        let label = if fresh { rng.digest() } else { apart_at(&labels[rng.below(labels.len())].clone(), rng.below(256), rng) };
        if !labels.contains(&label) {
            labels.push(label);
        }
    }
    labels
}

/// Cuts a tree into records: opened nodes here and there where nothing is new.
struct Cutter<'a> {
    tree: &'a Tree,
    new_epoch: u32,
    finer: usize,
    entries: Vec<Entry>,
}

impl Cutter<'_> {
    fn has_new(&self, side: Side) -> bool {
        match side {
            Side::Nothing => false,
            Side::Item(i) => self.tree.leaves[i].epoch == self.new_epoch,
            Side::Node(i) => self.tree.nodes[i].sides.iter().any(|side| self.has_new(*side)),
        }
    }

    fn cut(&mut self, side: Side, rng: &mut Rng) {
        match side {
            Side::Nothing => {}
            Side::Item(i) => {
                let leaf = &self.tree.leaves[i];
                let kind = if leaf.epoch == self.new_epoch { 2 } else { 0 };
                self.entries.push(Entry::leaf(kind, leaf.label, &leaf.commitment, leaf.epoch));
            }
            Side::Node(i) => {
                let node: &Node = &self.tree.nodes[i];
                if !self.has_new(side) && !rng.once_in(self.finer) {
                    return self.entries.push(Entry::node(node.length, self.tree.prefix(node), &node.digests[0], &node.digests[1]));
                }
                node.sides.iter().for_each(|side| self.cut(*side, rng));
            }
        }
    }
}

/// A list of a tree with leaves by the epoch after this one.
fn list(epoch: u32, zero: bool, rng: &mut Rng) -> List {
    let most = *rng.pick(&[1, 4, 12, 30]);
    let count = rng.below(most);
    let new_epoch = epoch.wrapping_add(1);
    let leaf = |label: Digest, rng: &mut Rng| {
        let earlier = if epoch == 0 || rng.once_in(3) { new_epoch } else { rng.between(1, epoch) };
        let epoch = *rng.pick(&[earlier, earlier, if epoch == 0 { new_epoch } else { epoch }, if epoch == 0 { new_epoch } else { 1 }]);
        Leaf { label, commitment: if zero { ZERO } else { rng.digest() }, epoch }
    };
    let leaves = labels(count, rng).into_iter().map(|label| leaf(label, rng)).collect();
    let tree = Tree::grow(leaves).expect("no label is there twice");
    let mut cutter = Cutter { tree: &tree, new_epoch, finer: *rng.pick(&[1, 2, 4, 1000]), entries: Vec::new() };
    let root = &tree.nodes[tree.nodes.len() - 1];
    root.sides.iter().for_each(|side| cutter.cut(*side, rng));
    let mut entries = cutter.entries;
    (0..entries.len()).filter(|_| rng.once_in(6)).collect::<Vec<_>>().into_iter().for_each(|i| open_any(&mut entries, i, rng));
    List::new(entries)
}

/// Puts an opened node of any digests in place of a record, long enough to be no prefix of its neighbours.
fn open_any(entries: &mut [Entry], i: usize, rng: &mut Rng) {
    let bits = entries[i].bits;
    let apart = |other: Option<&Entry>| other.map_or(0, |other| first_difference(&bits, &other.bits) + 1);
    let least = apart(i.checked_sub(1).map(|before| &entries[before])).max(apart(entries.get(i + 1))).max(1);
    if least <= 255 {
        let length = rng.between(least as u32, 255) as usize;
        let longer = length.min(entries[i].length as usize).max(least);
        entries[i] = Entry::node(longer, prefix(&bits, longer), &rng.digest(), &rng.digest());
    }
}

fn good(rng: &mut Rng) -> Audit {
    let epoch = *rng.pick(&[0, 1, 2, 5, 255, 256, u32::MAX - 1]);
    let lists = [list(epoch, false, rng), list(epoch, true, rng)];
    Audit::new(epoch, lists, rng)
}

fn send(audit: &Audit, aim: &'static str, want: Want, out: &mut Cases) {
    out.put(CHECK_AUDIT, vec![audit.old.head().to_vec(), audit.new.head().to_vec(), audit.bytes()], aim, want)
}

pub fn put(rng: &mut Rng, out: &mut Cases) {
    let audit = good(rng);
    match rng.below(9) {
        0 => send(&audit, "a step told as it is", Want::Accept, out),
        8 => two_faults(audit, rng, out),
        1 => heads(audit, rng, out),
        2 | 3 => rules(audit, rng, out),
        4 => roots(audit, rng, out),
        5 => bytes(audit, rng, out),
        _ => layout(audit, rng, out),
    }
}

fn heads(mut audit: Audit, rng: &mut Rng, out: &mut Cases) {
    let mut fields = vec![audit.old.head().to_vec(), audit.new.head().to_vec(), audit.bytes()];
    let which = rng.below(2);
    match rng.below(7) {
        0 => {
            fields[which].resize(*rng.pick(&[0, 31, 33]), 0);
            let kept = rng.below(fields[2].len() * 2);
            fields[2].truncate(kept);
            out.put(CHECK_AUDIT, fields, "a head that is not 32 bytes", Want::Refuse(1))
        }
        1 => {
            rng.flip(&mut fields[which]);
            out.put(CHECK_AUDIT, fields, ["another old head", "another new head"][which], Want::Refuse(3))
        }
        2 => {
            (if which == 0 { &mut audit.old } else { &mut audit.new }).spoil(rng);
            fields[2] = audit.bytes();
            out.put(CHECK_AUDIT, fields, "an opening of another head", Want::Refuse(3))
        }
        3 => {
            fields.swap(0, 1);
            out.put(CHECK_AUDIT, fields, "heads swapped", Want::Refuse(3))
        }
        4 => {
            let epoch = audit.new.epoch;
            audit.new.epoch = *rng.pick(&[audit.old.epoch, epoch.wrapping_add(1), 0, u32::MAX]);
            let want = if audit.new.epoch == epoch { Want::Accept } else { RULE };
            send(&audit, "another new epoch", want, out)
        }
        5 => {
            rng.flip(&mut audit.new.previous);
            send(&audit, "another previous head", RULE, out)
        }
        _ => {
            let mut audit = Audit::new(u32::MAX, [List::new(Vec::new()), List::new(Vec::new())], rng);
            audit.new.epoch = *rng.pick(&[0, 1, u32::MAX]);
            send(&audit, "after the largest epoch", RULE, out)
        }
    }
}

/// A list that breaks a rule; roots and heads are hashed again where there are roots.
fn rules(mut audit: Audit, rng: &mut Rng, out: &mut Cases) {
    let which = rng.below(2);
    let entries = &mut audit.lists[which].entries;
    if entries.is_empty() {
        return send(&audit, "a step told as it is", Want::Accept, out);
    }
    if rng.once_in(2) {
        let aim = break_order(entries, rng);
        audit.lists[which].count = audit.lists[which].entries.len() as u32;
        return send(&audit, aim, RULE, out);
    }
    let i = rng.below(entries.len());
    let (aim, want) = break_entry(&mut entries[i], which == 1, audit.old.epoch, audit.new.epoch, rng);
    audit.root_again();
    send(&audit, aim, want, out)
}

fn break_order(entries: &mut Vec<Entry>, rng: &mut Rng) -> &'static str {
    let i = rng.below(entries.len());
    match rng.below(3) {
        0 if i > 0 => {
            entries.swap(i - 1, i);
            "records out of order"
        }
        1 => {
            let entry = &entries[i];
            let length = 1 + rng.below(entry.length.min(255) as usize);
            let above = Entry::node(length, prefix(&entry.bits, length), &rng.digest(), &ZERO);
            entries.insert(i, above);
            "a record below an opened node"
        }
        _ => {
            entries.insert(i, entries[i].clone());
            "a record twice"
        }
    }
}

fn break_entry(entry: &mut Entry, of_old: bool, old_epoch: u32, new_epoch: u32, rng: &mut Rng) -> (&'static str, Want) {
    match rng.below(4) {
        0 if entry.kind == 2 => {
            entry.set_epoch(*rng.pick(&[old_epoch, 0, new_epoch.wrapping_add(1)]));
            ("a new leaf of another epoch", RULE)
        }
        0 if entry.kind == 0 => {
            entry.set_epoch(*rng.pick(&[0, new_epoch, u32::MAX]));
            ("an unchanged leaf of no earlier epoch", RULE)
        }
        1 if entry.kind != 1 => {
            entry.kind = 2 - entry.kind;
            ("an unchanged leaf as a new one, or the reverse", RULE)
        }
        _ => {
            rng.flip(&mut entry.body[..32]);
            match of_old && entry.kind != 1 {
                true => ("a leaf of old with a commitment", RULE),
                false => ("other digests, hashed again", Want::Accept),
            }
        }
    }
}

/// Lists in order that give other roots than the heads have.
fn roots(mut audit: Audit, rng: &mut Rng, out: &mut Cases) {
    if rng.once_in(3) {
        match rng.below(4) {
            0 => rng.flip(&mut audit.old.all),
            1 => rng.flip(&mut audit.old.old),
            2 => rng.flip(&mut audit.new.all),
            _ => rng.flip(&mut audit.new.old),
        }
        audit.new.previous = audit.old.head();
        return send(&audit, "another root", Want::Refuse(4), out);
    }
    let which = rng.below(2);
    let entries = &mut audit.lists[which].entries;
    let Some(i) = entries.first().map(|_| rng.below(entries.len())) else {
        return send(&audit, "a step told as it is", Want::Accept, out);
    };
    let entry = &mut entries[i];
    match rng.below(3) {
        0 => {
            entries.remove(i);
            audit.lists[which].count -= 1;
            send(&audit, "a record left out", Want::Refuse(4), out)
        }
        1 if entry.kind == 1 => {
            let length = entry.length as usize;
            let at = length - 1;
            entry.bits[at / 8] ^= 0x80 >> (at % 8);
            send(&audit, "an opened node that has moved", Want::Any, out)
        }
        _ => {
            let from = if entry.kind == 1 || which == 0 { 0 } else { 32 };
            let to = if entry.kind == 1 { 64 } else { 32 };
            let is_rule = from == to;
            if is_rule {
                entry.set_epoch(0);
            } else {
                rng.flip(&mut entry.body[from..to]);
            }
            send(&audit, "a record changed", if is_rule { RULE } else { Want::Refuse(4) }, out)
        }
    }
}

/// A record changed in each tree, and some of the roots hashed again.
fn two_faults(mut audit: Audit, rng: &mut Rng, out: &mut Cases) {
    let before = audit.clone();
    for list in &mut audit.lists {
        if list.entries.is_empty() {
            continue;
        }
        let i = rng.below(list.entries.len());
        match rng.below(4) {
            0 => rng.flip(&mut list.entries[i].body[..32]),
            1 if list.entries[i].kind != 1 => list.entries[i].set_epoch(*rng.pick(&[0, before.old.epoch, before.new.epoch])),
            2 => {
                list.entries.remove(i);
                list.count -= 1;
            }
            _ => {}
        }
    }
    audit.root_again();
    let kept = |again: &mut Digest, before: Digest, rng: &mut Rng| {
        if rng.once_in(3) {
            *again = before;
        }
    };
    kept(&mut audit.old.all, before.old.all, rng);
    kept(&mut audit.old.old, before.old.old, rng);
    kept(&mut audit.new.all, before.new.all, rng);
    kept(&mut audit.new.old, before.new.old, rng);
    audit.new.previous = audit.old.head();
    if rng.once_in(4) {
        // a record out of its place, behind roots that do not know it
        let list = &mut audit.lists[rng.below(2)];
        list.entries.reverse();
    }
    send(&audit, "two faults", Want::Any, out)
}

/// Bytes changed anywhere, with the heads hashed again.
fn bytes(audit: Audit, rng: &mut Rng, out: &mut Cases) {
    let mut proof = audit.bytes();
    for _ in 0..=rng.below(2) {
        let i = rng.below(proof.len());
        proof[i] = if rng.once_in(2) { rng.other(proof[i]) } else { *rng.pick(&[0, 1, 2, 255]) };
    }
    let head = |from: usize, proof: &[u8]| strings::head(proof[from..from + 100].try_into().unwrap()).to_vec();
    let old = head(6, &proof);
    if rng.below(4) > 0 {
        proof[110..142].copy_from_slice(&old);
    }
    let new = head(106, &proof);
    out.put(CHECK_AUDIT, vec![old, new, proof], "any bytes changed", Want::Any)
}

fn layout(mut audit: Audit, rng: &mut Rng, out: &mut Cases) {
    let listed = audit.lists[0].count > 0;
    let list = &mut audit.lists[rng.below(2)];
    let aim = match rng.below(9) {
        0 => {
            let i = rng.below(6);
            audit.front[i] = rng.other(audit.front[i]);
            "another format or kind"
        }
        1 => {
            list.count += 1;
            "a count over what is there"
        }
        2 => {
            list.count = *rng.pick(&[16385, 65536, u32::MAX]);
            "a count over 16,384"
        }
        3 if listed => {
            audit.lists[0].count -= 1;
            "a count under what is there"
        }
        4 => {
            let mut proof = audit.bytes();
            let (any, one) = (rng.below(proof.len()), proof.len() - 1);
            proof.truncate(*rng.pick(&[any, one]));
            return out.put(CHECK_AUDIT, vec![audit.old.head().to_vec(), audit.new.head().to_vec(), proof], "cut short", FORM);
        }
        _ if list.entries.is_empty() || rng.once_in(5) => {
            let more = 1 + rng.below(100);
            audit.rest = rng.bytes(more);
            "something behind the last field"
        }
        _ => {
            let i = rng.below(list.entries.len());
            bend_entry(&mut list.entries[i], rng)
        }
    };
    send(&audit, aim, FORM, out)
}

/// Breaks the layout of a record.
fn bend_entry(entry: &mut Entry, rng: &mut Rng) -> &'static str {
    match rng.below(4) {
        0 => {
            entry.kind = rng.between(3, 255) as u8;
            "a record of no kind"
        }
        1 => {
            entry.length = *rng.pick(if entry.kind == 1 { &[0, 256, 257, 0xffff] } else { &[0, 1, 255, 257] });
            "a length that its kind has not"
        }
        2 if entry.kind != 1 => {
            rng.flip(&mut entry.body[36..]);
            "filling that is not zero"
        }
        _ => {
            let length = 1 + rng.below(255);
            let past = length + rng.below(256 - length);
            *entry = Entry::node(length, ZERO, &ZERO, &ZERO);
            entry.bits[past / 8] |= 0x80 >> (past % 8);
            "bits past a prefix"
        }
    }
}
