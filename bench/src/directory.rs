//! Directories to measure over, made by the proved functions.
use noonhaggle::{publish, start, update, write_audit, write_history, write_lookup, State};

pub struct Directory {
    pub records: Vec<u8>,
    pub heads: Vec<u8>,
    /// before the last batch of 256, and after it
    pub before: State,
    pub state: State,
    pub batch: Vec<u8>,
}

fn name(i: usize) -> Vec<u8> {
    format!("name-{i:05}").into_bytes()
}

fn key(i: usize, version: usize) -> [u8; 32] {
    noonhaggle::sha256(format!("key {i} {version}").as_bytes())
}

impl Directory {
    /// So many records, of which name 7 has so many, the others one each; and behind them a batch of 256 new names.
    pub fn of(size: usize, versions: usize) -> Directory {
        let mut d = Directory { records: vec![0; 168 * 4096], heads: vec![0; 32 * 1200], before: State { count: 0, epoch: 0 }, state: State { count: 0, epoch: 0 }, batch: vec![] };
        d.state = start(&mut d.heads).expect("started");
        let others: Vec<usize> = (0..size - versions + 1).collect();
        for part in others.chunks(256) {
            d.publish(part.iter().flat_map(|&i| update(&name(i), &key(i, 1), &[1; 32])).collect());
        }
        for v in 2..=versions {
            d.publish(update(&name(7), &key(7, v), &[2; 32]).to_vec());
        }
        d.before = d.state;
        d.batch = (0..256).flat_map(|i| update(&name(50000 + i), &key(50000 + i, 1), &[3; 32])).collect();
        d.publish(d.batch.clone());
        d
    }

    fn publish(&mut self, batch: Vec<u8>) {
        self.state = publish(&mut self.records, &mut self.heads, self.state, &batch).expect("published");
    }

    pub fn head(&self, epoch: u32) -> Vec<u8> {
        self.heads[32 * epoch as usize..][..32].to_vec()
    }

    fn proof(&self, write: impl FnOnce(&mut [u8]) -> usize) -> Vec<u8> {
        let mut out = vec![0; 1 << 20];
        let n = write(&mut out);
        out.truncate(n);
        out
    }

    /// A head, a name and a proof.
    pub fn lookup(&self, name: &[u8]) -> (Vec<u8>, Vec<u8>, Vec<u8>) {
        let t = self.state.epoch;
        (self.head(t), name.to_vec(), self.proof(|out| write_lookup(&self.records, &self.heads, self.state, name, t, out).expect("written")))
    }

    pub fn history(&self, name: &[u8]) -> (Vec<u8>, Vec<u8>, Vec<u8>) {
        let t = self.state.epoch;
        (self.head(t), name.to_vec(), self.proof(|out| write_history(&self.records, &self.heads, self.state, name, t, out).expect("written")))
    }

    /// Two heads and the proof of the step with the batch.
    pub fn audit(&self) -> (Vec<u8>, Vec<u8>, Vec<u8>) {
        let t = self.state.epoch;
        (self.head(t - 1), self.head(t), self.proof(|out| write_audit(&self.records, &self.heads, self.state, t, out).expect("written")))
    }
}
