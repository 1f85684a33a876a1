//! A directory over the proved functions, which says what it does.
use noonhaggle::{publish, sha256, start, update, write_audit, write_history, write_lookup, State};

pub struct Directory {
    pub records: Vec<u8>,
    pub heads: Vec<u8>,
    pub state: State,
}

/// An opening is to be random; here it is not, so that every run is the same.
pub fn opening(key: &str) -> [u8; 32] {
    sha256(key.as_bytes())
}

fn short(head: &[u8]) -> String {
    head[..6].iter().map(|b| format!("{b:02x}")).collect()
}

impl Directory {
    pub fn started() -> Directory {
        let mut heads = vec![0; 32 * 16];
        let state = start(&mut heads).expect("started");
        println!("  epoch {}, head {}..: started", state.epoch, short(&heads));
        Directory { records: vec![0; 168 * 64], heads, state }
    }

    pub fn publish(&mut self, why: &str, keys: &[(&[u8], String)]) {
        let batch: Vec<u8> = keys.iter().flat_map(|(name, key)| update(name, key.as_bytes(), &opening(key))).collect();
        self.state = publish(&mut self.records, &mut self.heads, self.state, &batch).expect("published");
        println!("  epoch {}, head {}..: {why}", self.state.epoch, short(self.head(self.state.epoch)));
    }

    pub fn head(&self, epoch: u32) -> &[u8] {
        &self.heads[32 * epoch as usize..][..32]
    }

    fn written(write: impl FnOnce(&mut [u8]) -> usize) -> Vec<u8> {
        let mut out = vec![0; 1 << 16];
        let length = write(&mut out);
        out.truncate(length);
        out
    }

    pub fn lookup(&self, name: &[u8], epoch: u32) -> Vec<u8> {
        Self::written(|out| write_lookup(&self.records, &self.heads, self.state, name, epoch, out).expect("written"))
    }

    pub fn history(&self, name: &[u8], epoch: u32) -> Vec<u8> {
        Self::written(|out| write_history(&self.records, &self.heads, self.state, name, epoch, out).expect("written"))
    }

    pub fn audit(&self, epoch: u32) -> Vec<u8> {
        Self::written(|out| write_audit(&self.records, &self.heads, self.state, epoch, out).expect("written"))
    }
}
