//! What a handset says of a proof that it was handed. Each check is a proved function; what stands in the text is what it answered, or what
//! came of a comparison.
use noonhaggle::{check_audit, check_lookup, read_history, Lookup, Refusal};

/// What was said, and whether nothing wrong was seen.
pub struct Said {
    pub text: String,
    pub fine: bool,
}

impl Said {
    fn refused(refusal: Refusal) -> Said {
        Said { text: refusal.to_string(), fine: false }
    }
}

fn quoted(key: &[u8]) -> String {
    format!("\"{}\"", String::from_utf8_lossy(key))
}

/// A version with its key, or none.
pub type Current<'a> = Option<(u16, &'a [u8])>;

pub fn current_text(current: Current) -> String {
    match current {
        Some((version, key)) => format!("version {version}, {}", quoted(key)),
        None => "not registered".into(),
    }
}

/// What a lookup gave.
pub fn given(lookup: Lookup) -> Current {
    match lookup {
        Lookup::Found { version, key, .. } => Some((version, key)),
        Lookup::NotRegistered { .. } => None,
    }
}

pub fn epoch_of(lookup: &Lookup) -> u32 {
    let (Lookup::Found { epoch, .. } | Lookup::NotRegistered { epoch, .. }) = lookup;
    *epoch
}

/// A friend, who is shown a lookup.
pub fn friend(head: &[u8], name: &[u8], proof: &[u8]) -> Said {
    match check_lookup(head, name, proof) {
        Ok(lookup) => Said { text: format!("accepted at epoch {}: {}", epoch_of(&lookup), current_text(given(lookup))), fine: true },
        Err(refusal) => Said::refused(refusal),
    }
}

/// An auditor, who is shown steps from head to head: each has the head that it leads to, and its proof.
pub fn auditor(from: &[u8], steps: &[(Vec<u8>, Vec<u8>)]) -> Said {
    let mut head = from;
    let mut epochs = Vec::new();
    for (next, proof) in steps {
        match check_audit(head, next, proof) {
            Ok(audit) => epochs.push(format!("{} to {}", audit.old_epoch, audit.new_epoch)),
            Err(refusal) => return Said::refused(refusal),
        }
        head = next;
    }
    Said { text: format!("accepted from epoch {}", epochs.join(", ")), fine: true }
}

/// What an owner remembers of its own: the epoch in which each key was published, and the key, oldest first.
pub type Own = Vec<(u32, String)>;

/// The owner of a name, who is shown its history and compares keys and epochs in it with its own.
pub fn owner(head: &[u8], name: &[u8], own: &Own, proof: &[u8]) -> Vec<Said> {
    let (history, told) = match read_history(head, name, proof) {
        Ok(accepted) => accepted,
        Err(refusal) => return vec![Said::refused(refusal)],
    };
    let text = format!("accepted at epoch {} (versions: {}, digests: {})", history.epoch, history.versions, history.digests);
    let mut said = vec![Said { text, fine: true }];
    for (i, version) in told.iter().enumerate() {
        let (whose, fine) = match own.get(i) {
            Some((epoch, key)) if key.as_bytes() == version.key && *epoch == version.epoch => ("mine".into(), true),
            Some((epoch, key)) if key.as_bytes() == version.key => (format!("mine, BUT SINCE EPOCH {epoch}"), false),
            _ => ("NOT MINE".into(), false),
        };
        said.push(Said { text: format!("version {}, since epoch {}: {} is {whose}", version.version, version.epoch, quoted(version.key)), fine });
    }
    for (_, key) in own.iter().skip(told.len()) {
        said.push(Said { text: format!("{} is MISSING", quoted(key.as_bytes())), fine: false });
    }
    said
}
