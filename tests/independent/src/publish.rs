//! "Publishing".

use std::collections::HashSet;

use crate::strings::{self, Digest, ZERO};
use crate::table::{counted, heads_within, in_shape, leaves, record_of, update_name, within, Record, State, BATCH, HEAD, RECORD, UPDATE, VERSIONS};
use crate::tree::Tree;
use crate::{need, no};

/// Writes head 0.
pub fn start(heads: &mut [u8]) -> Result<State, u8> {
    need(heads_within(heads), no::INPUT)?;
    let empty = Tree::grow(Vec::new())?.root();
    heads[..HEAD].copy_from_slice(&strings::head(&strings::opening(0, &ZERO, &empty, &empty)));
    Ok(State { count: 0, epoch: 0 })
}

/// Appends the batch's records and the head of the next epoch.
pub fn publish(records: &mut [u8], heads: &mut [u8], state: State, batch: &[u8]) -> Result<State, u8> {
    let (new, head) = weigh(records, heads, state, batch)?;
    let (at, next) = (state.count as usize * RECORD, state.epoch + 1);
    records[at..at + new.len()].copy_from_slice(&new);
    heads[next as usize * HEAD..][..HEAD].copy_from_slice(&head);
    Ok(State { count: state.count + (new.len() / RECORD) as u32, epoch: next })
}

/// All tests; the new records and the new head.
fn weigh(records: &[u8], heads: &[u8], state: State, batch: &[u8]) -> Result<(Vec<u8>, Digest), u8> {
    need(within(records, heads) && batch.len() % UPDATE == 0 && batch.len() / UPDATE <= BATCH, no::INPUT)?;
    let updates = batch.chunks_exact(UPDATE);
    let names: Vec<&[u8]> = updates.clone().map(update_name).collect::<Option<_>>().ok_or(no::INPUT)?;
    let last = in_shape(records, heads, state).ok_or(no::TABLE)?;
    need(names.iter().collect::<HashSet<_>>().len() == names.len(), no::TWICE)?;
    let room = state.count as usize + names.len() <= records.len() / RECORD && (state.epoch as usize) + 1 < heads.len() / HEAD;
    let version = |name: &&[u8]| last.get(name).map_or(0, |last| last.0);
    need(room && names.iter().all(|name| version(name) < VERSIONS), no::FULL)?;

    let epoch = state.epoch + 1;
    let mut new = Vec::with_capacity(names.len() * RECORD);
    for (update, name) in updates.zip(&names) {
        record_of(update, version(name) + 1, epoch, &mut new);
    }
    let (all, old) = leaves(counted(records, state).chain(new.chunks_exact(RECORD).map(Record)));
    let (all, old) = (Tree::grow(all)?.root(), Tree::grow(old)?.root());
    let previous = heads[state.epoch as usize * HEAD..][..HEAD].try_into().unwrap();
    Ok((new, strings::head(&strings::opening(epoch, previous, &all, &old))))
}
