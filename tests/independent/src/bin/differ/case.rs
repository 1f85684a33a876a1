//! A case: a request, and what it is after.

use crate::call::{Call, CALLS};

/// What a case is made to be answered, whatever this implementation says to it.
#[derive(Clone, Copy, PartialEq, Debug)]
pub enum Want {
    Accept,
    Refuse(u8),
    Any,
}

pub struct Case {
    pub call: usize,
    pub fields: Vec<Vec<u8>>,
    pub aim: &'static str,
    pub want: Want,
}

impl Case {
    pub fn call(&self) -> &'static Call {
        &CALLS[self.call]
    }
}

/// The number of a refusal's line, 0 for an answer.
pub fn refusal(line: &str) -> u8 {
    line.strip_prefix("refused ").map_or(0, |number| number.parse().expect("a refusal has a number"))
}

impl Want {
    pub fn met(self, line: &str) -> bool {
        match self {
            Want::Accept => refusal(line) == 0,
            Want::Refuse(number) => refusal(line) == number,
            Want::Any => true,
        }
    }
}

/// Where cases gather.
#[derive(Default)]
pub struct Cases(pub Vec<Case>);

impl Cases {
    /// What `more` puts, after something else was broken before: which of the two refuses is for the order of tests to say.
    pub fn put_broken(&mut self, more: impl FnOnce(&mut Cases)) {
        let mut put = Cases::default();
        more(&mut put);
        self.0.extend(put.0.into_iter().map(|case| Case { aim: "two faults", want: Want::Any, ..case }));
    }

    pub fn put(&mut self, call: usize, fields: Vec<Vec<u8>>, aim: &'static str, want: Want) {
        self.0.push(Case { call, fields, aim, want });
    }
}
