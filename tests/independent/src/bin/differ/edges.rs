//! Cases at the bounds that are too large to make many of: once in a run.

use independent::strings::Digest;
use independent::table::{RECORD, RECORDS};
use independent::State;

use crate::call::{CHECK_AUDIT, CHECK_HISTORY, CHECK_LOOKUP, PROGRAM, PUBLISH, SHA256, START, TREE_PATH, TREE_ROOT, WRITE_AUDIT, WRITE_HISTORY, WRITE_LOOKUP};
use crate::case::{Cases, Want};
use crate::forge::{Audit, Entry, List};
use crate::liar::apart_at;
use crate::rng::Rng;
use crate::world::update;

pub fn put(rng: &mut Rng, out: &mut Cases) {
    put_versions(rng, out);
    put_full_table(rng, out);
    put_heads(rng, out);
    put_lists(rng, out);
    put_level(rng, out);
    put_deep_tree(rng, out);
    put_one_epoch(rng, out);
    put_program(rng, out);
    for length in (0..=260).chain([65535, 65536]) {
        out.put(SHA256, vec![rng.bytes(length)], "each length up to some blocks", Want::Accept);
    }
}

fn number(n: u32) -> Vec<u8> {
    n.to_be_bytes().to_vec()
}

/// A table of one name's versions, one an epoch.
fn versions(name: &[u8], count: u16, rng: &mut Rng) -> (Vec<u8>, Vec<u8>) {
    let mut records = Vec::new();
    for version in 1..=count {
        independent::table::record_of(&update(name, rng), version, version as u32, &mut records);
    }
    (records, rng.bytes((count as usize + 2) * 32))
}

/// A name at 1,022, at 1,023, and at what can't be.
fn put_versions(rng: &mut Rng, out: &mut Cases) {
    let name = b"of-many-versions";
    for (count, aim, want) in [(1022, "version 1,023", Want::Accept), (1023, "a name at 1,023", Want::Refuse(6)), (1024, "a version 1,024", Want::Refuse(11))] {
        let (mut records, heads) = versions(name, count, rng);
        records.resize(records.len() + 2 * RECORD, 5);
        let tables = vec![records.clone(), heads.clone(), number(count as u32), number(count as u32)];
        let update = update(name, rng);
        out.put(PUBLISH, [&tables[..], &[update]].concat(), aim, want);
        if count == 1022 {
            continue;
        }
        let want = if count == 1023 { Want::Accept } else { want };
        for at in [1023, 512, 511] {
            let room = number(1_000_000);
            out.put(WRITE_LOOKUP, [&tables[..], &[name.to_vec(), number(at), room.clone()]].concat(), aim, want);
            out.put(WRITE_HISTORY, [&tables[..], &[name.to_vec(), number(at), room.clone()]].concat(), aim, want);
            out.put(WRITE_AUDIT, [&tables[..], &[number(at), room]].concat(), aim, want);
        }
        if count == 1023 {
            put_written(&records, &heads, State { count: 1023, epoch: 1023 }, name, out);
        }
    }
}

fn put_written(records: &[u8], heads: &[u8], state: State, name: &[u8], out: &mut Cases) {
    let mut room = vec![0; 1_000_000];
    let head = |proof: &[u8]| independent::strings::head(proof[6..106].try_into().unwrap()).to_vec();
    for at in [1023, 512] {
        let length = independent::write_history(records, heads, state, name, at, &mut room).expect("room");
        out.put(CHECK_HISTORY, vec![head(&room), name.to_vec(), room[..length].to_vec()], "a long history", Want::Accept);
        let length = independent::write_lookup(records, heads, state, name, at, &mut room).expect("room");
        out.put(CHECK_LOOKUP, vec![head(&room), name.to_vec(), room[..length].to_vec()], "a late version", Want::Accept);
    }
}

/// 3,840 records and a batch of 256; then no record is free.
fn put_full_table(rng: &mut Rng, out: &mut Cases) {
    let (mut records, mut heads) = (vec![0; RECORDS * RECORD], rng.bytes(20 * 32));
    let mut state = State { count: 0, epoch: 0 };
    for epoch in 0..16 {
        let batch: Vec<u8> = (0..256).flat_map(|i| update(format!("{}{i}", if i % 3 == 0 { epoch } else { epoch % 3 }).as_bytes(), rng)).collect();
        let fields = vec![records.clone(), heads.clone(), number(state.count), number(state.epoch), batch.clone()];
        if epoch == 0 || epoch == 15 {
            out.put(PUBLISH, fields, "a batch of 256", Want::Accept);
        }
        state = independent::publish(&mut records, &mut heads, state, &batch).expect("a batch");
    }
    let tables = [records, heads, number(state.count), number(state.epoch)];
    out.put(PUBLISH, [&tables[..], &[update(b"one-more", rng)]].concat(), "no free record", Want::Refuse(6));
    out.put(PUBLISH, [&tables[..], &[Vec::new()]].concat(), "an empty batch in a full table", Want::Accept);
    for name in ["00", "11", "nobody"] {
        out.put(WRITE_LOOKUP, [&tables[..], &[name.as_bytes().to_vec(), number(16), number(20_000)]].concat(), "a full table", Want::Accept);
        out.put(WRITE_HISTORY, [&tables[..], &[name.as_bytes().to_vec(), number(16), number(100_000)]].concat(), "a full table", Want::Accept);
    }
    out.put(WRITE_AUDIT, [&tables[..], &[number(16), number(1_000_000)]].concat(), "a full table", Want::Accept);
    let over = [&tables[0][..], &[0; RECORD]].concat();
    let mut fields = [&tables[..], &[Vec::new()]].concat();
    fields[0] = over;
    out.put(PUBLISH, fields, "4,097 records", Want::Refuse(1));
}

fn put_heads(rng: &mut Rng, out: &mut Cases) {
    for (heads, want) in [(65536, Want::Accept), (65537, Want::Refuse(1))] {
        out.put(START, vec![rng.bytes(heads * 32)], "65,536 heads, and one more", want);
    }
    let heads = rng.bytes(65536 * 32);
    for (epoch, want) in [(65534, Want::Accept), (65535, Want::Refuse(6)), (65536, Want::Refuse(11))] {
        out.put(PUBLISH, vec![Vec::new(), heads.clone(), number(0), number(epoch), Vec::new()], "the last epochs", want);
    }
}

/// 16,384 records for each tree, and one more.
fn put_lists(rng: &mut Rng, out: &mut Cases) {
    let list = |zero: bool, rng: &mut Rng| {
        let mut labels: Vec<_> = (0..16384).map(|_| rng.digest()).collect();
        labels.sort();
        let leaf = |label| {
            let new = rng.once_in(2);
            let commitment = if zero { [0; 32] } else { rng.digest() };
            Entry::leaf(if new { 2 } else { 0 }, label, &commitment, if new { 8 } else { 7 })
        };
        List::new(labels.into_iter().map(leaf).collect())
    };
    let lists = [list(false, rng), list(true, rng)];
    let mut audit = Audit::new(7, lists, rng);
    let mut put = |audit: &Audit, aim, want| out.put(CHECK_AUDIT, vec![audit.old.head().to_vec(), audit.new.head().to_vec(), audit.bytes()], aim, want);
    put(&audit, "lists of 16,384 records", Want::Accept);
    let more = audit.lists[1].entries[16383].clone();
    audit.lists[1].entries.push(more);
    audit.lists[1].count += 1;
    put(&audit, "a list of 16,385 records", Want::Refuse(2));
}

fn put_level(rng: &mut Rng, out: &mut Cases) {
    let entries = rng.bytes(8193 * 68);
    let label = rng.digest().to_vec();
    for (count, want) in [(8192, Want::Accept), (8193, Want::Refuse(1))] {
        let entries = entries[..count * 68].to_vec();
        out.put(TREE_ROOT, vec![entries.clone()], "8,192 entries, and one more", want);
        out.put(TREE_PATH, vec![entries, label.clone(), vec![0, 1]], "8,192 entries, and one more", want);
    }
}

/// A label that parts from another one at each bit: a path of 256 steps.
fn put_deep_tree(rng: &mut Rng, out: &mut Cases) {
    let label = rng.digest();
    let mut labels: Vec<Digest> = (0..256).map(|at| apart_at(&label, at, rng)).collect();
    let absent = labels.clone();
    labels.push(label);
    let entries = |labels: &[Digest], rng: &mut Rng| labels.iter().flat_map(|label| [&label[..], &rng.digest(), &[0, 0, 0, 9]].concat()).collect::<Vec<u8>>();
    let bytes = entries(&labels, rng);
    out.put(TREE_ROOT, vec![bytes.clone()], "a path of 256 steps", Want::Accept);
    out.put(TREE_PATH, vec![bytes, label.to_vec(), vec![0, 0]], "a path of 256 steps", Want::Accept);
    let bytes = entries(&absent, rng);
    out.put(TREE_PATH, vec![bytes.clone(), label.to_vec(), vec![0, 1]], "a path of 255 steps", Want::Accept);
    for at in [0, 1, 7, 8, 127, 254, 255] {
        let near = apart_at(&label, at, rng);
        out.put(TREE_PATH, vec![bytes.clone(), near.to_vec(), vec![0, 0]], "a label beside a deep tree's", Want::Accept);
    }
}

/// 300 records of one epoch: no batch gives them, and they are in shape.
fn put_one_epoch(rng: &mut Rng, out: &mut Cases) {
    let mut records = Vec::new();
    for i in 0..300 {
        independent::table::record_of(&update(format!("n{i}").as_bytes(), rng), 1, 1, &mut records);
    }
    let tables = [records, rng.bytes(3 * 32), number(300), number(1)];
    let aim = "300 records of one epoch";
    out.put(PUBLISH, [&tables[..], &[Vec::new()]].concat(), aim, Want::Accept);
    out.put(WRITE_LOOKUP, [&tables[..], &[b"n7".to_vec(), number(1), number(9000)]].concat(), aim, Want::Accept);
    out.put(WRITE_HISTORY, [&tables[..], &[b"n7".to_vec(), number(1), number(9000)]].concat(), aim, Want::Accept);
    out.put(WRITE_AUDIT, [&tables[..], &[number(1), number(200_000)]].concat(), aim, Want::Accept);
}

fn put_program(rng: &mut Rng, out: &mut Cases) {
    for length in [0, 1, 31, 32, 33, 34] {
        out.put(PROGRAM, vec![vec![1; length]], "hardly an input", if length < 34 { Want::Refuse(1) } else { Want::Any });
    }
    for (length, want) in [(65536, Want::Refuse(2)), (65537, Want::Refuse(1))] {
        let mut input = rng.bytes(length);
        (input[32], input[33]) = (1, b'n');
        out.put(PROGRAM, vec![input], "the longest input, and one byte more", want);
    }
}
