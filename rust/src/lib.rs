//! The key directory of a crew messenger: safe Rust over functions that are proved, from what the arrow tells a foreman down to proof bytes.
//!
//! A handset needs [`check_lookup`], [`check_history`] and [`check_audit`]; a server [`start`], [`publish`] and the three writers. Every function
//! takes any bytes, ends, and answers or refuses by name; a refusal has written to nothing. The proofs are about the functions behind these;
//! this crate only hands slices over and names the numbers that come back, and [`read_history`] reads keys and epochs out of an accepted history.
//!
//! [`publish`] takes 1.3 MB of stack and a writer 2.3 MB, more than a thread of Rust's has by default: give a thread that calls them 4 MiB
//! ([`std::thread::Builder::stack_size`]). A checker takes 77 KB at most.
//!
//! ```
//! use noonhaggle::{check_lookup, publish, start, update, write_lookup, Lookup, Refusal};
//!
//! let mut heads = vec![0; 32 * 16]; // room for 16 epochs
//! let mut records = vec![0; 168 * 64]; // room for 64 records
//! let state = start(&mut heads)?;
//! let state = publish(&mut records, &mut heads, state, &update(b"ida", b"her public key", &[7; 32]))?;
//!
//! let mut proof = vec![0; 4096];
//! let length = write_lookup(&records, &heads, state, b"ida", 1, &mut proof)?;
//!
//! let head = &heads[32..64]; // the head of epoch 1, which a handset has from elsewhere
//! match check_lookup(head, b"ida", &proof[..length])? {
//!     Lookup::Found { version, key, .. } => assert_eq!((version, key), (1, &b"her public key"[..])),
//!     Lookup::NotRegistered { .. } => unreachable!(),
//! }
//!
//! proof[length - 1] ^= 1; // one bit of the last path's epoch
//! assert_eq!(check_lookup(head, b"ida", &proof[..length]), Err(Refusal::Root));
//! # Ok::<(), Refusal>(())
//! ```
mod raw;
mod told;

use std::fmt;

pub use told::{current_at, read_history, Told};

/// Why a function said no: document 01's numbers by name.
#[derive(Clone, Copy, Debug, PartialEq, Eq, Hash)]
#[repr(u8)]
pub enum Refusal {
    /// An argument breaks the bounds or an update's layout, or an audit writer's new epoch is 0.
    Input = 1,
    /// Proof bytes break the layout.
    Form = 2,
    /// An opening does not hash to its head.
    Head = 3,
    /// A path or list gives another root.
    Root = 4,
    /// Another rule is broken.
    Rule = 5,
    /// Too few free records, no head slot, or a name at 1,023 versions.
    Full = 6,
    /// Two leaves of a needed tree share a label, or a label to be shown absent is there.
    Clash = 7,
    /// The proof is longer than the lent output.
    Room = 8,
    /// A name twice in a batch.
    Twice = 9,
    /// An epoch after the current one.
    Epoch = 10,
    /// Tables out of shape.
    Table = 11,
}

impl Refusal {
    const ALL: [Refusal; 11] = [
        Refusal::Input, Refusal::Form, Refusal::Head, Refusal::Root, Refusal::Rule, Refusal::Full, Refusal::Clash, Refusal::Room, Refusal::Twice,
        Refusal::Epoch, Refusal::Table,
    ];

    /// Document 01's number.
    pub fn number(self) -> u8 {
        self as u8
    }
}

impl fmt::Display for Refusal {
    fn fmt(&self, f: &mut fmt::Formatter) -> fmt::Result {
        write!(f, "refused {} ({:?})", self.number(), self)
    }
}

impl std::error::Error for Refusal {}

/// 0 is no refusal, and no other number is given than those of document 01.
fn unless(number: u32) -> Result<(), Refusal> {
    match number {
        0 => Ok(()),
        n => Err(Refusal::ALL[n as usize - 1]),
    }
}

/// What an accepted lookup says of a name at its head's epoch, and how many digests its check took.
#[derive(Clone, Copy, Debug, PartialEq, Eq)]
pub enum Lookup<'a> {
    /// The current version and its key, which is that part of the proof.
    Found { version: u16, epoch: u32, digests: u32, key: &'a [u8] },
    /// The name has no version by then.
    NotRegistered { epoch: u32, digests: u32 },
}

/// An accepted history: how many versions the name has by its head's epoch.
#[derive(Clone, Copy, Debug, PartialEq, Eq)]
pub struct History {
    pub versions: u16,
    pub epoch: u32,
    pub digests: u32,
}

/// An accepted audit step.
#[derive(Clone, Copy, Debug, PartialEq, Eq)]
pub struct Audit {
    pub old_epoch: u32,
    pub new_epoch: u32,
    pub digests: u32,
}

/// How many records a directory counts, and its current epoch.
#[derive(Clone, Copy, Debug, PartialEq, Eq)]
pub struct State {
    pub count: u32,
    pub epoch: u32,
}

/// Checks a lookup proof of a name at a head of 32 bytes.
pub fn check_lookup<'a>(head: &[u8], name: &[u8], proof: &'a [u8]) -> Result<Lookup<'a>, Refusal> {
    let r = unsafe { raw::noonhaggle_check_lookup(head.as_ptr(), head.len(), name.as_ptr(), name.len(), proof.as_ptr(), proof.len()) };
    unless(r.number)?;
    Ok(match r.version {
        0 => Lookup::NotRegistered { epoch: r.epoch, digests: r.digests },
        v => Lookup::Found { version: v as u16, epoch: r.epoch, digests: r.digests, key: &proof[r.key_start..r.key_start + r.key_length] },
    })
}

/// Checks a history proof of a name at a head of 32 bytes.
pub fn check_history(head: &[u8], name: &[u8], proof: &[u8]) -> Result<History, Refusal> {
    let r = unsafe { raw::noonhaggle_check_history(head.as_ptr(), head.len(), name.as_ptr(), name.len(), proof.as_ptr(), proof.len()) };
    unless(r.number)?;
    Ok(History { versions: r.versions as u16, epoch: r.epoch, digests: r.digests })
}

/// Checks the audit proof of the step from one head to the next, of 32 bytes each.
pub fn check_audit(old_head: &[u8], new_head: &[u8], proof: &[u8]) -> Result<Audit, Refusal> {
    let r = unsafe { raw::noonhaggle_check_audit(old_head.as_ptr(), old_head.len(), new_head.as_ptr(), new_head.len(), proof.as_ptr(), proof.len()) };
    unless(r.number)?;
    Ok(Audit { old_epoch: r.old_epoch, new_epoch: r.new_epoch, digests: r.digests })
}

/// SHA-256 of any bytes.
pub fn sha256(bytes: &[u8]) -> [u8; 32] {
    unsafe { raw::noonhaggle_sha256(bytes.as_ptr(), bytes.len()) }.bytes
}

/// Starts a directory: writes the head of epoch 0 to the head table, which has 32 bytes for each epoch that it can reach.
pub fn start(heads: &mut [u8]) -> Result<State, Refusal> {
    let r = unsafe { raw::noonhaggle_start(heads.as_mut_ptr(), heads.len()) };
    unless(r.number)?;
    Ok(State { count: r.count, epoch: r.epoch })
}

/// Publishes a batch of [`update`]s one behind the other, and closes the next epoch.
pub fn publish(records: &mut [u8], heads: &mut [u8], state: State, batch: &[u8]) -> Result<State, Refusal> {
    let (r, rn, h, hn) = (records.as_mut_ptr(), records.len(), heads.as_mut_ptr(), heads.len());
    let r = unsafe { raw::noonhaggle_publish(r, rn, h, hn, state.count, state.epoch, batch.as_ptr(), batch.len()) };
    unless(r.number)?;
    Ok(State { count: r.count, epoch: r.epoch })
}

/// Writes the lookup proof of a name at an epoch to the start of `out`, and gives its length.
pub fn write_lookup(records: &[u8], heads: &[u8], state: State, name: &[u8], epoch: u32, out: &mut [u8]) -> Result<usize, Refusal> {
    let (r, rn, h, hn, n, nn) = (records.as_ptr(), records.len(), heads.as_ptr(), heads.len(), name.as_ptr(), name.len());
    let w = unsafe { raw::noonhaggle_write_lookup(r, rn, h, hn, state.count, state.epoch, n, nn, epoch, out.as_mut_ptr(), out.len()) };
    unless(w.number).map(|()| w.length)
}

/// Writes the history proof of a name at an epoch to the start of `out`, and gives its length.
pub fn write_history(records: &[u8], heads: &[u8], state: State, name: &[u8], epoch: u32, out: &mut [u8]) -> Result<usize, Refusal> {
    let (r, rn, h, hn, n, nn) = (records.as_ptr(), records.len(), heads.as_ptr(), heads.len(), name.as_ptr(), name.len());
    let w = unsafe { raw::noonhaggle_write_history(r, rn, h, hn, state.count, state.epoch, n, nn, epoch, out.as_mut_ptr(), out.len()) };
    unless(w.number).map(|()| w.length)
}

/// Writes the audit proof of the step into an epoch to the start of `out`, and gives its length.
pub fn write_audit(records: &[u8], heads: &[u8], state: State, epoch: u32, out: &mut [u8]) -> Result<usize, Refusal> {
    let (r, rn, h, hn) = (records.as_ptr(), records.len(), heads.as_ptr(), heads.len());
    let w = unsafe { raw::noonhaggle_write_audit(r, rn, h, hn, state.count, state.epoch, epoch, out.as_mut_ptr(), out.len()) };
    unless(w.number).map(|()| w.length)
}

/// An update of a batch: name and key with their lengths in front and filled up to 64 bytes, and the key's opening.
///
/// # Panics
/// Where name or key is longer than 64 bytes. Bounds below that are [`publish`]'s to test.
pub fn update(name: &[u8], key: &[u8], opening: &[u8; 32]) -> [u8; 162] {
    assert!(name.len() <= 64 && key.len() <= 64);
    let mut u = [0; 162];
    u[0] = name.len() as u8;
    u[1..1 + name.len()].copy_from_slice(name);
    u[65] = key.len() as u8;
    u[66..66 + key.len()].copy_from_slice(key);
    u[130..].copy_from_slice(opening);
    u
}

#[cfg(test)]
mod tests {
    #[test]
    fn each_number_has_its_name() {
        assert_eq!(super::unless(0), Ok(()));
        assert!((1..=11).all(|n| super::unless(n).is_err_and(|refusal| u32::from(refusal.number()) == n)));
    }
}
