//! The calls of the driver, as docs/DRIVER.md lists them: their requests, and the lines that this implementation answers.

use independent as own;
use independent::State;

/// A field: bytes, or a number of so many bytes.
#[derive(Clone, Copy, PartialEq)]
pub enum Kind {
    Bytes,
    Number(usize),
}

const B: Kind = Kind::Bytes;
const N2: Kind = Kind::Number(2);
const N4: Kind = Kind::Number(4);

type Fields = [Vec<u8>];

pub struct Call {
    pub number: u8,
    pub name: &'static str,
    pub kinds: &'static [Kind],
    /// The refusals that a request can reach. A CLASH of digests can't be made, so only the tree level has it.
    pub refusals: &'static [u8],
    answer: fn(&Fields) -> Result<String, u8>,
}

pub const SHA256: usize = 0;
pub const FIRST_DIFFERENCE: usize = 1;
pub const HISTORY_PATHS: usize = 2;
pub const CHECK_LOOKUP: usize = 3;
pub const CHECK_HISTORY: usize = 4;
pub const CHECK_AUDIT: usize = 5;
pub const PROGRAM: usize = 6;
pub const TREE_ROOT: usize = 7;
pub const TREE_PATH: usize = 8;
pub const START: usize = 9;
pub const PUBLISH: usize = 10;
pub const WRITE_LOOKUP: usize = 11;
pub const WRITE_HISTORY: usize = 12;
pub const WRITE_AUDIT: usize = 13;

pub const CALLS: [Call; 14] = [
    Call { number: 1, name: "sha256", kinds: &[B], refusals: &[], answer: sha256 },
    Call { number: 2, name: "first_difference", kinds: &[B, B], refusals: &[], answer: first_difference },
    Call { number: 3, name: "history_paths", kinds: &[N2, N4], refusals: &[], answer: history_paths },
    Call { number: 4, name: "check_lookup", kinds: &[B, B, B], refusals: &[1, 2, 3, 4, 5], answer: check_lookup },
    Call { number: 5, name: "check_history", kinds: &[B, B, B], refusals: &[1, 2, 3, 4, 5], answer: check_history },
    Call { number: 6, name: "check_audit", kinds: &[B, B, B], refusals: &[1, 2, 3, 4, 5], answer: check_audit },
    Call { number: 7, name: "program", kinds: &[B], refusals: &[1, 2, 3, 4, 5], answer: program },
    Call { number: 8, name: "tree_root", kinds: &[B], refusals: &[1, 7], answer: tree_root },
    Call { number: 9, name: "tree_path", kinds: &[B, B, N2], refusals: &[1, 7], answer: tree_path },
    Call { number: 10, name: "start", kinds: &[B], refusals: &[1], answer: start },
    Call { number: 11, name: "publish", kinds: &[B, B, N4, N4, B], refusals: &[1, 6, 9, 11], answer: publish },
    Call { number: 12, name: "write_lookup", kinds: &[B, B, N4, N4, B, N4, N4], refusals: &[1, 8, 10, 11], answer: write_lookup },
    Call { number: 13, name: "write_history", kinds: &[B, B, N4, N4, B, N4, N4], refusals: &[1, 8, 10, 11], answer: write_history },
    Call { number: 14, name: "write_audit", kinds: &[B, B, N4, N4, N4, N4], refusals: &[1, 8, 10, 11], answer: write_audit },
];

impl Call {
    pub fn answer(&self, fields: &Fields) -> String {
        (self.answer)(fields).unwrap_or_else(|number| format!("refused {number}"))
    }

    pub fn request(&self, fields: &Fields) -> Vec<u8> {
        let length: usize = 1 + fields.iter().map(|field| 4 + field.len()).sum::<usize>();
        let mut request = Vec::with_capacity(4 + length);
        request.extend((length as u32).to_be_bytes());
        request.push(self.number);
        for field in fields {
            request.extend((field.len() as u32).to_be_bytes());
            request.extend(field);
        }
        request
    }

    /// The fields as a line of a vector file has them.
    pub fn shown(&self, fields: &Fields) -> String {
        let word = |(kind, field): (&Kind, &Vec<u8>)| match kind {
            Kind::Bytes => hex(field),
            Kind::Number(_) => number(field).to_string(),
        };
        self.kinds.iter().zip(fields).map(word).collect::<Vec<_>>().join(" ")
    }
}

pub fn hex(bytes: &[u8]) -> String {
    const DIGITS: &[u8; 16] = b"0123456789abcdef";
    if bytes.is_empty() {
        return "-".to_string();
    }
    bytes.iter().flat_map(|b| [DIGITS[(b >> 4) as usize] as char, DIGITS[(b & 15) as usize] as char]).collect()
}

pub fn number(field: &[u8]) -> u32 {
    field.iter().fold(0, |n, &b| n << 8 | b as u32)
}

fn state(count: &[u8], epoch: &[u8]) -> State {
    State { count: number(count), epoch: number(epoch) }
}

fn sha256(f: &Fields) -> Result<String, u8> {
    Ok(hex(&own::sha256(&f[0])))
}

fn first_difference(f: &Fields) -> Result<String, u8> {
    let label = |i: usize| f[i][..].try_into().expect("labels have 32 bytes");
    Ok(own::first_difference(label(0), label(1)).to_string())
}

fn history_paths(f: &Fields) -> Result<String, u8> {
    Ok(own::history_paths(number(&f[0]) as u16, number(&f[1])).to_string())
}

fn check_lookup(f: &Fields) -> Result<String, u8> {
    let found = own::check_lookup(&f[0], &f[1], &f[2])?;
    Ok(format!("{} {} {} {} {}", found.version, found.epoch, found.digests, found.key.start, found.key.end))
}

fn check_history(f: &Fields) -> Result<String, u8> {
    let shown = own::check_history(&f[0], &f[1], &f[2])?;
    Ok(format!("{} {} {}", shown.n, shown.epoch, shown.digests))
}

fn check_audit(f: &Fields) -> Result<String, u8> {
    let audited = own::check_audit(&f[0], &f[1], &f[2])?;
    Ok(format!("{} {} {}", audited.old_epoch, audited.new_epoch, audited.digests))
}

fn program(f: &Fields) -> Result<String, u8> {
    Ok(own::program_line(&f[0]))
}

fn tree_root(f: &Fields) -> Result<String, u8> {
    Ok(hex(&own::tree_root(&f[0])?))
}

fn tree_path(f: &Fields) -> Result<String, u8> {
    Ok(hex(&own::tree_path(&f[0], &f[1], number(&f[2]) != 0)?))
}

fn start(f: &Fields) -> Result<String, u8> {
    let mut heads = f[0].clone();
    let state = own::start(&mut heads)?;
    Ok(format!("{} {} {}", state.count, state.epoch, hex(&heads)))
}

fn publish(f: &Fields) -> Result<String, u8> {
    let (mut records, mut heads) = (f[0].clone(), f[1].clone());
    let state = own::publish(&mut records, &mut heads, state(&f[2], &f[3]), &f[4])?;
    Ok(format!("{} {} {} {}", state.count, state.epoch, hex(&records), hex(&heads)))
}

fn write_lookup(f: &Fields) -> Result<String, u8> {
    let mut out = vec![0; number(&f[6]) as usize];
    let length = own::write_lookup(&f[0], &f[1], state(&f[2], &f[3]), &f[4], number(&f[5]), &mut out)?;
    Ok(hex(&out[..length]))
}

fn write_history(f: &Fields) -> Result<String, u8> {
    let mut out = vec![0; number(&f[6]) as usize];
    let length = own::write_history(&f[0], &f[1], state(&f[2], &f[3]), &f[4], number(&f[5]), &mut out)?;
    Ok(hex(&out[..length]))
}

fn write_audit(f: &Fields) -> Result<String, u8> {
    let mut out = vec![0; number(&f[5]) as usize];
    let length = own::write_audit(&f[0], &f[1], state(&f[2], &f[3]), number(&f[4]), &mut out)?;
    Ok(hex(&out[..length]))
}
