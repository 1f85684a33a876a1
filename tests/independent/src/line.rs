//! "The checking program".

use crate::check::check_lookup;
use crate::{need, no};

const INPUT: usize = 65536;

/// The line for an input, without its newline.
pub fn program_line(input: &[u8]) -> String {
    match parts(input).and_then(|(head, name, proof)| check_lookup(head, name, proof)) {
        Ok(found) => format!("version {} epoch {} digests {}", found.version, found.epoch, found.digests),
        Err(number) => format!("refused {number}"),
    }
}

/// Head, name and proof.
fn parts(input: &[u8]) -> Result<(&[u8], &[u8], &[u8]), u8> {
    need(input.len() <= INPUT && input.len() >= 33, no::INPUT)?;
    let (head, rest) = input.split_at(32);
    let (name, proof) = rest[1..].split_at_checked(rest[0] as usize).ok_or(no::INPUT)?;
    Ok((head, name, proof))
}
