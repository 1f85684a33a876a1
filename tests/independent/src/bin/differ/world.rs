//! Directories, as start and publishings leave them, and the requests to server and checkers about them.

use independent::table::{counted, Record, RECORD, UPDATE};
use independent::{publish, start, State};

use crate::call::{CHECK_AUDIT, CHECK_HISTORY, CHECK_LOOKUP, PUBLISH, START, WRITE_AUDIT, WRITE_HISTORY, WRITE_LOOKUP};
use crate::case::{Cases, Want};
use crate::damage::bad_name;
use crate::liar::name;
use crate::rng::Rng;

const INPUT: Want = Want::Refuse(1);
const FULL: Want = Want::Refuse(6);
const TABLE: Want = Want::Refuse(11);

#[derive(Clone)]
pub struct World {
    pub names: Vec<Vec<u8>>,
    pub records: Vec<u8>,
    pub heads: Vec<u8>,
    pub state: State,
}

pub fn update(name: &[u8], rng: &mut Rng) -> Vec<u8> {
    let mut update = vec![0; UPDATE];
    update[0] = name.len() as u8;
    update[1..1 + name.len()].copy_from_slice(name);
    let length = *rng.pick(&[1, 2, 22, 23, 32, 64]);
    update[65] = length as u8;
    update[66..66 + length].copy_from_slice(&rng.bytes(length));
    update[130..].copy_from_slice(&rng.digest());
    update
}

/// No bytes, or more than there is room for.
fn spoil_length(field: &mut [u8], rng: &mut Rng) {
    match rng.below(2) {
        0 => field.fill(0),
        _ => field[0] = *rng.pick(&[0, 65, 255]),
    }
}

fn spoil_update(update: &mut Vec<u8>, rng: &mut Rng) -> &'static str {
    let (name, key) = (update[0] as usize, update[65] as usize);
    match rng.below(6) {
        0 => {
            update.truncate(rng.below(UPDATE - 1) + 1);
            "a torn batch"
        }
        1 => {
            spoil_length(&mut update[..65], rng);
            "an update's name length"
        }
        2 if name < 64 => {
            update[1 + name + rng.below(64 - name)] = 1 + rng.below(255) as u8;
            "an update's name filling"
        }
        3 => {
            spoil_length(&mut update[65..130], rng);
            "an update's key length"
        }
        4 if key < 64 => {
            update[66 + key + rng.below(64 - key)] = 1 + rng.below(255) as u8;
            "an update's key filling"
        }
        _ => {
            update[1 + rng.below(name)] = *rng.pick(&[0, 0x20, 0x7f, 0xff]);
            "an update's name of other bytes"
        }
    }
}

/// Zeros, or anything.
fn dirt(length: usize, rng: &mut Rng) -> Vec<u8> {
    if rng.once_in(2) {
        vec![0; length]
    } else {
        rng.bytes(length)
    }
}

fn number(n: u32) -> Vec<u8> {
    n.to_be_bytes().to_vec()
}

impl World {
    /// Starts a directory and publishes batches; each step is a case.
    pub fn new(rng: &mut Rng, out: &mut Cases) -> World {
        let mut names: Vec<Vec<u8>> = (0..1 + rng.below(6)).map(|_| name(rng)).collect();
        let longer = [&names[0][..], b"!"].concat();
        if longer.len() <= 64 {
            names.push(longer);
        }
        names.sort();
        names.dedup();
        let epochs = match rng.below(8) {
            0 => 0,
            1 => 20 + rng.below(20),
            _ => 1 + rng.below(8),
        };
        let heads = dirt((epochs + 1 + rng.below(3)) * 32, rng);
        let mut world = World { names, records: Vec::new(), heads, state: State { count: 0, epoch: 0 } };
        out.put(START, vec![world.heads.clone()], "a directory is started", Want::Accept);
        world.state = start(&mut world.heads).expect("a head table");
        for _ in 0..epochs {
            let batch = world.batch(rng);
            let spare = world.state.count as usize * RECORD + batch.len() / UPDATE * RECORD + rng.below(3) * RECORD;
            world.records.truncate(world.state.count as usize * RECORD);
            let more = dirt(spare - world.records.len(), rng);
            world.records.extend(more);
            if epochs < 10 || rng.once_in(8) {
                out.put(PUBLISH, world.publishing(&batch), "a batch", Want::Accept);
            }
            world.state = publish(&mut world.records, &mut world.heads, world.state, &batch).expect("a batch in layout");
        }
        world
    }

    /// Updates of some of the names in any order; of none now and then.
    fn batch(&self, rng: &mut Rng) -> Vec<u8> {
        let mut left = self.names.clone();
        let count = if rng.once_in(6) { 0 } else { rng.below(left.len() + 1) };
        (0..count)
            .flat_map(|_| {
                let name = left.swap_remove(rng.below(left.len()));
                update(&name, rng)
            })
            .collect()
    }

    fn publishing(&self, batch: &[u8]) -> Vec<Vec<u8>> {
        vec![self.records.clone(), self.heads.clone(), number(self.state.count), number(self.state.epoch), batch.to_vec()]
    }

    fn writing(&self, call: usize, name: &[u8], at: u32, room: u32) -> Vec<Vec<u8>> {
        let mut fields = vec![self.records.clone(), self.heads.clone(), number(self.state.count), number(self.state.epoch)];
        if call != WRITE_AUDIT {
            fields.push(name.to_vec());
        }
        fields.extend([number(at), number(room)]);
        fields
    }

    fn head(&self, epoch: u32) -> Vec<u8> {
        self.heads[epoch as usize * 32..][..32].to_vec()
    }

    fn some_name(&self, rng: &mut Rng) -> Vec<u8> {
        if rng.once_in(5) {
            name(rng)
        } else {
            rng.pick(&self.names).clone()
        }
    }

    /// A writer's proof, the same with too little room, and the checker's answer at its head.
    pub fn put_proof(&self, rng: &mut Rng, out: &mut Cases) {
        let call = *rng.pick(&[WRITE_LOOKUP, WRITE_LOOKUP, WRITE_HISTORY, WRITE_AUDIT]);
        if call == WRITE_AUDIT && self.state.epoch == 0 {
            return self.put_audit_of_epoch_0(out);
        }
        let at = rng.between((call == WRITE_AUDIT) as u32, self.state.epoch);
        let name = self.some_name(rng);
        let mut proof = vec![0; 100_000];
        let (records, heads, state) = (&self.records, &self.heads, self.state);
        let length = match call {
            WRITE_LOOKUP => independent::write_lookup(records, heads, state, &name, at, &mut proof),
            WRITE_HISTORY => independent::write_history(records, heads, state, &name, at, &mut proof),
            _ => independent::write_audit(records, heads, state, at, &mut proof),
        }
        .expect("room");
        proof.truncate(length);
        let length = length as u32;
        match rng.below(4) {
            0 => {
                let any = rng.below(length as usize) as u32;
                let room = *rng.pick(&[length - 1, 0, any]);
                out.put(call, self.writing(call, &name, at, room), "an output too short", Want::Refuse(8))
            }
            1 => out.put(call, self.writing(call, &name, at, length), "an output that just fits", Want::Accept),
            _ => out.put(call, self.writing(call, &name, at, length + rng.below(500) as u32), "a proof", Want::Accept),
        }
        match call {
            WRITE_LOOKUP => out.put(CHECK_LOOKUP, vec![self.head(at), name, proof], "a written lookup", Want::Accept),
            WRITE_HISTORY => out.put(CHECK_HISTORY, vec![self.head(at), name, proof], "a written history", Want::Accept),
            _ => out.put(CHECK_AUDIT, vec![self.head(at - 1), self.head(at), proof], "a written audit", Want::Accept),
        }
    }

    fn put_audit_of_epoch_0(&self, out: &mut Cases) {
        out.put(WRITE_AUDIT, self.writing(WRITE_AUDIT, &[], 0, 1000), "an audit of new epoch 0", INPUT)
    }

    /// A request to one of the four calls with tables.
    fn put_any(&self, aim: &'static str, want: Want, rng: &mut Rng, out: &mut Cases) {
        let call = *rng.pick(&[PUBLISH, WRITE_LOOKUP, WRITE_HISTORY, WRITE_AUDIT]);
        if call == PUBLISH {
            let batch = self.batch(rng);
            return out.put(call, self.publishing(&batch), aim, want);
        }
        let (at, room) = (rng.between(1, self.state.epoch.clamp(1, 50) + 1), rng.below(3000) as u32);
        out.put(call, self.writing(call, &self.some_name(rng), at, room), aim, want)
    }

    /// Tables that are no multiple of what they hold, or over their bound.
    fn put_torn(&self, rng: &mut Rng, out: &mut Cases) {
        let mut torn = self.clone();
        let aim = match rng.below(3) {
            0 => {
                torn.heads.clear();
                "no heads"
            }
            1 => {
                torn.heads.truncate(torn.heads.len() - 1 - rng.below(31));
                "a torn head table"
            }
            _ => {
                let more = 1 + rng.below(RECORD - 1);
                torn.records.resize(torn.records.len() + more, 0);
                "a torn record table"
            }
        };
        torn.put_any(aim, INPUT, rng, out)
    }

    /// One field of the tables or the state that puts them out of shape.
    fn put_out_of_shape(&self, rng: &mut Rng, out: &mut Cases) {
        let mut bent = self.clone();
        let aim = bent.bend(rng);
        bent.put_any(aim, TABLE, rng, out)
    }

    fn bend(&mut self, rng: &mut Rng) -> &'static str {
        let choice = if self.state.count == 0 { 0 } else { rng.below(8) };
        match choice {
            0 | 1 => self.bend_state(rng),
            2 | 3 => self.bend_epoch(rng),
            4 | 5 => self.bend_field(rng),
            6 => self.bend_version(rng),
            _ => self.bend_rows(rng),
        }
    }

    fn bend_state(&mut self, rng: &mut Rng) -> &'static str {
        let (slots, heads) = ((self.records.len() / RECORD) as u32, (self.heads.len() / 32) as u32);
        if self.state.count > 0 && rng.once_in(4) {
            self.state.epoch = 0;
            return "records at epoch 0";
        }
        if rng.once_in(2) {
            self.state.count = *rng.pick(&[slots + 1, slots + 2, 4097, u32::MAX]);
            return "a count past the table";
        }
        self.state.epoch = *rng.pick(&[heads, heads + 1, 65536, u32::MAX]);
        "an epoch past the table"
    }

    fn bend_epoch(&mut self, rng: &mut Rng) -> &'static str {
        let (i, current) = (rng.below(self.state.count as usize), self.state.epoch);
        let (first, before) = (self.record(0).epoch(), self.record(i.saturating_sub(1)).epoch());
        let (epoch, aim) = match rng.below(3) {
            0 if before > first => (before - 1, "epochs that fall"),
            1 => (*rng.pick(&[current + 1, u32::MAX]), "a record after the current epoch"),
            _ => (0, "a record of epoch 0"),
        };
        self.records[i * RECORD + 67..i * RECORD + 71].copy_from_slice(&epoch.to_be_bytes());
        aim
    }

    fn bend_field(&mut self, rng: &mut Rng) -> &'static str {
        let i = rng.below(self.state.count as usize);
        let (name, key) = (self.record(i).name().len(), self.record(i).key().len());
        let record = &mut self.records[i * RECORD..(i + 1) * RECORD];
        match rng.below(5) {
            0 => {
                spoil_length(&mut record[..65], rng);
                "a name length out of bounds"
            }
            1 if name < 64 => {
                record[1 + name + rng.below(64 - name)] = 1 + rng.below(255) as u8;
                "a name's filling"
            }
            2 => {
                spoil_length(&mut record[71..136], rng);
                "a key length out of bounds"
            }
            3 if key < 64 => {
                record[72 + key + rng.below(64 - key)] = 1 + rng.below(255) as u8;
                "a key's filling"
            }
            _ => {
                record[1 + rng.below(name)] = *rng.pick(&[0, 0x20, 0x7f, 0xff]);
                "a name of other bytes"
            }
        }
    }

    fn bend_version(&mut self, rng: &mut Rng) -> &'static str {
        let i = rng.below(self.state.count as usize);
        let version = self.record(i).version();
        let (version, aim) = match rng.below(3) {
            0 => (version + 1, "a version left out"),
            1 => (version - 1, "a version twice"),
            _ => (*rng.pick(&[0, 1024, 0xffff]), "a version out of bounds"),
        };
        self.records[i * RECORD + 65..i * RECORD + 67].copy_from_slice(&version.to_be_bytes());
        aim
    }

    /// A record more, or one of zeros.
    fn bend_rows(&mut self, rng: &mut Rng) -> &'static str {
        let count = self.state.count as usize;
        let i = rng.below(count);
        let mut again = self.record(i).0[..RECORD].to_vec();
        let aim = match rng.below(3) {
            0 => "a record twice",
            1 => {
                let last = self.of_name(i).last().expect("its own record");
                again[65..67].copy_from_slice(&(last.version() + 1).to_be_bytes());
                again[67..71].copy_from_slice(&last.epoch().to_be_bytes());
                "two versions of a name in one epoch"
            }
            _ => {
                self.records[(count - 1) * RECORD..count * RECORD].fill(0);
                return "a record of zeros";
            }
        };
        self.records.truncate(count * RECORD);
        self.records.extend(again);
        self.state.count += 1;
        aim
    }

    fn record(&self, i: usize) -> Record<'_> {
        Record(&self.records[i * RECORD..])
    }

    fn of_name(&self, i: usize) -> impl Iterator<Item = Record<'_>> {
        let name = self.record(i).name();
        counted(&self.records, self.state).filter(move |record| record.name() == name)
    }

    /// A batch with a fault, in tables that may have another.
    fn put_bad_batch(&self, rng: &mut Rng, out: &mut Cases) {
        if rng.once_in(12) {
            let batch: Vec<u8> = (0..257).flat_map(|i| update(format!("n{i}").as_bytes(), rng)).collect();
            return out.put(PUBLISH, self.publishing(&batch), "a batch of 257 updates", INPUT);
        }
        let mut batch = if rng.once_in(2) { self.batch(rng) } else { Vec::new() };
        let mut last = update(&self.some_name(rng), rng);
        let aim = spoil_update(&mut last, rng);
        batch.extend(last);
        let mut world = self.clone();
        if rng.once_in(4) {
            world.bend(rng);
        }
        out.put(PUBLISH, world.publishing(&batch), aim, INPUT)
    }

    /// Tables with just the room that a batch of two takes, or less.
    fn put_full_or_twice(&self, rng: &mut Rng, out: &mut Cases) {
        let mut world = self.clone();
        let mut batch = [update(&self.names[0], rng), update(b"twin", rng)].concat();
        let (count, epoch) = (world.state.count as usize, world.state.epoch as usize);
        world.records.resize((count + 2) * RECORD, 9);
        world.heads.resize((epoch + 2) * 32, 9);
        let (aim, want) = match rng.below(5) {
            0 => {
                world.records.truncate((count + rng.below(2)) * RECORD);
                ("too few free records", FULL)
            }
            1 => {
                world.heads.truncate((epoch + 1) * 32);
                batch.truncate(rng.below(2) * batch.len());
                ("no head slot", FULL)
            }
            2 => {
                world.records.truncate(count * RECORD);
                batch.clear();
                ("an empty batch without free records", Want::Accept)
            }
            3 => {
                batch.extend(update(b"twin", rng));
                world.heads.truncate((epoch + 1 + rng.below(2)) * 32);
                if rng.once_in(4) {
                    world.bend(rng);
                    ("a name twice, and a table out of shape", TABLE)
                } else {
                    ("a name twice in a batch", Want::Refuse(9))
                }
            }
            _ => ("a batch that just fits", Want::Accept),
        };
        out.put(PUBLISH, world.publishing(&batch), aim, want)
    }

    fn put_writer_fault(&self, rng: &mut Rng, out: &mut Cases) {
        let call = *rng.pick(&[WRITE_LOOKUP, WRITE_HISTORY, WRITE_AUDIT]);
        match rng.below(3) {
            0 if call != WRITE_AUDIT => out.put(call, self.writing(call, &bad_name(rng), 1, 9), "a name out of bounds", INPUT),
            0 => self.put_audit_of_epoch_0(out),
            _ => {
                let after = *rng.pick(&[self.state.epoch + 1, self.state.epoch + 2, u32::MAX]);
                let room = *rng.pick(&[0, 100_000]);
                out.put(call, self.writing(call, &self.some_name(rng), after, room), "an epoch after the current one", Want::Refuse(10))
            }
        }
    }

    /// Head tables to start in.
    fn put_start(&self, rng: &mut Rng, out: &mut Cases) {
        let heads = 1 + rng.below(4);
        match rng.below(3) {
            0 => out.put(START, vec![Vec::new()], "no heads", INPUT),
            1 => {
                let torn = heads * 32 - 1 - rng.below(31);
                out.put(START, vec![rng.bytes(torn)], "a torn head table", INPUT)
            }
            _ => out.put(START, vec![rng.bytes(heads * 32)], "a directory is started", Want::Accept),
        }
    }

    /// Heads that are not those of the records: only the previous one is read, and as it stands.
    fn put_other_heads(&self, rng: &mut Rng, out: &mut Cases) {
        let mut other = self.clone();
        let epoch = self.state.epoch as usize;
        other.heads = rng.bytes((epoch + 2) * 32);
        let call = *rng.pick(&[PUBLISH, WRITE_LOOKUP, WRITE_HISTORY, WRITE_AUDIT]);
        let fields = match call {
            PUBLISH => other.publishing(&[]),
            _ => other.writing(call, &self.some_name(rng), rng.between((call == WRITE_AUDIT) as u32, self.state.epoch.max(1)), 100_000),
        };
        let want = if epoch == 0 { Want::Any } else { Want::Accept };
        out.put(call, fields, "heads of no directory", want)
    }

    /// Something wrong or something at a bound, of the server's calls.
    pub fn put_fault(&self, rng: &mut Rng, out: &mut Cases) {
        match rng.below(9) {
            8 => self.put_other_heads(rng, out),
            0 => self.put_torn(rng, out),
            1 | 2 => self.put_out_of_shape(rng, out),
            3 => self.put_bad_batch(rng, out),
            4 => self.put_full_or_twice(rng, out),
            5 => self.put_start(rng, out),
            _ => self.put_writer_fault(rng, out),
        }
    }
}
