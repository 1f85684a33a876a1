//! Vector files, one for each call and named after it. A line has the fields, separated by blanks, ` = ` and the answer; `#` begins a comment.
//! Bytes are in hexadecimal digits, and `-` is no bytes; numbers are decimal.

use std::fs;

use crate::call::{Call, Kind, CALLS};

/// Whether this implementation gives the answer of each line of each file in the folder.
pub fn agree(folder: &str) -> Result<bool, String> {
    let mut files = 0;
    let mut all = true;
    for call in &CALLS {
        let path = format!("{folder}/{}.txt", call.name);
        let Ok(text) = fs::read_to_string(&path) else { continue };
        files += 1;
        all &= compare(call, &text).map_err(|why| format!("{path}: {why}"))?;
    }
    Ok(all && files > 0)
}

fn compare(call: &Call, text: &str) -> Result<bool, String> {
    let (mut lines, mut wrong) = (0, 0);
    for line in text.lines().filter(|line| !line.starts_with('#') && !line.trim().is_empty()) {
        let (given, expected) = line.split_once(" = ").ok_or("a line without an answer")?;
        let words: Vec<&str> = given.split(' ').collect();
        if words.len() != call.kinds.len() {
            return Err(format!("{} fields where the call has {}", words.len(), call.kinds.len()));
        }
        let fields = call.kinds.iter().zip(words).map(|(kind, word)| field(*kind, word)).collect::<Result<Vec<_>, _>>()?;
        let got = call.answer(&fields);
        lines += 1;
        if got != expected {
            wrong += 1;
            println!("  {given:.120}: expected {expected:.120}, and got {got:.120}");
        }
    }
    println!("{}: {lines} lines, {wrong} wrong", call.name);
    Ok(lines > 0 && wrong == 0)
}

fn field(kind: Kind, word: &str) -> Result<Vec<u8>, String> {
    match kind {
        Kind::Number(width) => {
            let number: u32 = word.parse().map_err(|_| format!("no number: {word:.40}"))?;
            Ok(number.to_be_bytes()[4 - width..].to_vec())
        }
        Kind::Bytes if word == "-" => Ok(Vec::new()),
        Kind::Bytes => {
            let digits: Option<Vec<u8>> = word.chars().map(|c| c.to_digit(16).map(|d| d as u8)).collect();
            let digits = digits.filter(|digits| digits.len() % 2 == 0).ok_or(format!("no bytes: {word:.40}"))?;
            Ok(digits.chunks_exact(2).map(|pair| pair[0] << 4 | pair[1]).collect())
        }
    }
}
