//! A directory over six epochs: the checkers answer with what was published, and a history tells just that.
use noonhaggle::{
    check_audit, check_history, check_lookup, current_at, publish, read_history, sha256, start, update, write_audit, write_history, write_lookup, Lookup, Refusal,
    State, Told,
};

const NAMES: [&[u8]; 4] = [b"ida", b"bo", b"gil", b"~"];

/// A record: name, epoch, key, opening.
type Record = (&'static [u8], u32, Vec<u8>, [u8; 32]);

struct Directory {
    tables: (Vec<u8>, Vec<u8>),
    state: State,
    published: Vec<Record>,
}

/// In epoch t the names whose number divides t have a new key, of another length each; none in the last.
fn directory() -> Directory {
    let (mut records, mut heads) = (vec![0; 168 * 20], vec![0; 32 * 7]);
    let (mut state, mut published) = (start(&mut heads).unwrap(), Vec::<Record>::new());
    for t in 1..=6 {
        let new: Vec<Record> = (1..=4u32)
            .filter(|i| t % i == 0 && t < 6)
            .map(|i| (NAMES[i as usize - 1], t, sha256(&[t as u8, i as u8]).repeat(2)[..(7 * t + i) as usize].to_vec(), sha256(&[i as u8, 0, t as u8])))
            .collect();
        let batch: Vec<u8> = new.iter().flat_map(|(name, _, key, opening)| update(name, key, opening)).collect();
        published.extend(new);
        state = publish(&mut records, &mut heads, state, &batch).unwrap();
        assert_eq!(state, State { count: published.len() as u32, epoch: t });
    }
    Directory { tables: (records, heads), state, published }
}

impl Directory {
    fn head(&self, t: u32) -> &[u8] {
        &self.tables.1[32 * t as usize..][..32]
    }

    /// What was published for a name by an epoch.
    fn own(&self, name: &[u8], t: u32) -> Vec<Told<'_>> {
        let mine = self.published.iter().filter(|record| record.0 == name && record.1 <= t);
        (1..).zip(mine).map(|(version, record)| Told { version, epoch: record.1, key: &record.2, opening: &record.3 }).collect()
    }

    fn written(&self, write: impl Fn(&[u8], &[u8], State, &mut [u8]) -> Result<usize, Refusal>) -> Vec<u8> {
        let mut out = vec![0; 1 << 14];
        let length = write(&self.tables.0, &self.tables.1, self.state, &mut out).unwrap();
        out[..length].to_vec()
    }
}

/// "1 for the head, 1 for each key, m+2 for each path", counted in the proof's own bytes.
fn digests(proof: &[u8], keys: usize) -> u32 {
    let (mut at, mut many) = (108, 1 + keys);
    (0..keys).for_each(|_| at += 33 + proof[at] as usize);
    while at < proof.len() {
        let m = usize::from(proof[at]) << 8 | usize::from(proof[at + 1]);
        at += 2 + 34 * m;
        at += 1 + [36, 68, 98, 0][proof[at] as usize];
        many += m + 2;
    }
    many as u32
}

/// The stack that a writer takes is more than a test's thread has.
fn with_stack(test: fn()) {
    std::thread::Builder::new().stack_size(4 << 20).spawn(test).unwrap().join().unwrap();
}

#[test]
fn answers_are_what_was_published() {
    with_stack(|| {
        let d = directory();
        for t in 0..=6 {
            for name in NAMES {
                let own = d.own(name, t);
                let proof = d.written(|r, h, s, out| write_lookup(r, h, s, name, t, out));
                match check_lookup(d.head(t), name, &proof).unwrap() {
                    Lookup::Found { version, epoch, digests: count, key } => {
                        assert_eq!((Some((version, key)), epoch, count), (own.last().map(|v| (v.version, v.key)), t, digests(&proof, 1)))
                    }
                    Lookup::NotRegistered { epoch, digests: count } => assert_eq!((own.len(), epoch, count), (0, t, digests(&proof, 0))),
                }
                let proof = d.written(|r, h, s, out| write_history(r, h, s, name, t, out));
                let (history, told) = read_history(d.head(t), name, &proof).unwrap();
                assert_eq!(check_history(d.head(t), name, &proof), Ok(history));
                assert_eq!((history.versions as usize, history.epoch, history.digests), (own.len(), t, digests(&proof, own.len())));
                assert_eq!(told, own);
                assert!((0..=t).all(|e| current_at(&told, e) == d.own(name, e).last().copied()));
            }
        }
        for t in 1..=6 {
            let audit = check_audit(d.head(t - 1), d.head(t), &d.written(|r, h, s, out| write_audit(r, h, s, t, out))).unwrap();
            assert_eq!((audit.old_epoch, audit.new_epoch), (t - 1, t));
        }
    });
}

/// Two heads, and for each of two trees the old root and the new one, with a nothing on either side.
#[test]
fn a_step_between_empty_epochs_counts_its_strings() {
    with_stack(|| {
        let (mut heads, mut out) = (vec![0; 64], vec![0; 512]);
        let begun = start(&mut heads).unwrap();
        let state = publish(&mut [], &mut heads, begun, &[]).unwrap();
        let length = write_audit(&[], &heads, state, 1, &mut out).unwrap();
        assert_eq!(check_audit(&heads[..32], &heads[32..], &out[..length]).unwrap().digests, 2 + 2 * 2 * 3);
    });
}

#[test]
fn a_refused_history_tells_nothing() {
    with_stack(|| {
        let d = directory();
        let proof = d.written(|r, h, s, out| write_history(r, h, s, b"ida", 5, out));
        for at in 0..=proof.len() {
            let mut other = proof.clone();
            other.get_mut(at).map(|byte| *byte ^= 1);
            let read = read_history(d.head(5), b"ida", &other);
            assert_eq!(read.as_ref().map(|(history, _)| history), check_history(d.head(5), b"ida", &other).as_ref());
            assert_eq!(read.is_ok(), at == proof.len());
        }
    });
}
