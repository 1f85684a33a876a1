//! A first run: a directory of two crews over four epochs, in which a handset is lost and its key replaced; what a handset, its owner and an
//! auditor check; why the arrow may be believed; and then a server that lies. The directory and every check are the proved functions. The lies
//! are told with the independent implementation, which hashes whatever it is told to. Each answer that it prints is what a check answered or
//! a comparison gave; one that is not what its scene is about ends the run.
mod bad;
mod believed;
mod directory;
mod forged;
mod handset;

use std::fs;

use directory::Directory;
use handset::{current_text, epoch_of, given, Own, Said};
use noonhaggle::{check_audit, check_lookup, current_at, read_history, Lookup, Refusal};

const IDA: &[u8] = b"ida@north";
const BO: &[u8] = b"bo@north";
const CREW: [&[u8]; 12] = [
    IDA, BO, b"gil@north", b"mona@north", b"per@north", b"rut@north", b"ana@south", b"edo@south", b"kai@south", b"lea@south", b"tom@south", b"uma@south",
];
const FINDER: &str = "whoever found bo's handset";

/// The key of someone's first or second handset.
fn handset_key(name: &[u8], handset: u16) -> String {
    format!("{}, handset {handset}", String::from_utf8_lossy(name))
}

/// What bo remembers: the first handset's key is of epoch 1, and the second's of epoch 4.
fn own_keys() -> Own {
    vec![(1, handset_key(BO, 1)), (4, handset_key(BO, 2))]
}

fn published() -> Directory {
    println!("The directory");
    let mut d = Directory::started();
    let joined = |names: &[&'static [u8]]| -> Vec<(&'static [u8], String)> { names.iter().map(|n| (*n, handset_key(n, 1))).collect() };
    d.publish("the north crew joins", &joined(&CREW[..6]));
    d.publish("the south crew joins", &joined(&CREW[6..]));
    d.publish("nothing happens", &[]);
    d.publish("bo has lost the handset and has a new one", &[(BO, handset_key(BO, 2))]);
    d
}

/// The line beside a name on a handset.
fn arrow(name: &[u8], lookup: Lookup) -> String {
    let who = String::from_utf8_lossy(name);
    match lookup {
        Lookup::Found { version, epoch, digests, key } => {
            format!("{who:12} -> key {:24} (version {version} at epoch {epoch}; {digests} digests)", format!("\"{}\"", String::from_utf8_lossy(key)))
        }
        Lookup::NotRegistered { epoch, digests } => format!("{who:12}    not registered at epoch {epoch} ({digests} digests)"),
    }
}

fn checked(d: &Directory) {
    println!("\nWhat a handset shows, each line checked against an epoch's head");
    for (name, epoch) in [(IDA, 4), (BO, 3), (BO, 4), (CREW[6], 1)] {
        println!("  {}", arrow(name, check_lookup(d.head(epoch), name, &d.lookup(name, epoch)).expect("accepted")));
    }
    println!("\nWhat bo's own handset checks from time to time: that the directory has bo's keys, since when bo has them, and no others");
    let said = handset::owner(d.head(4), BO, &own_keys(), &d.history(BO, 4));
    said.iter().for_each(|said| println!("  {}", said.text));
    assert!(said.iter().all(|said| said.fine), "bo's keys are not in bo's history");
    println!("\nWhat an auditor checks: nothing that was there is gone or changed");
    for t in 1..=4 {
        let audit = check_audit(d.head(t - 1), d.head(t), &d.audit(t)).expect("accepted");
        println!("  from epoch {} to epoch {}: accepted ({} digests)", audit.old_epoch, audit.new_epoch, audit.digests);
    }
}

/// A friend's lookup at an epoch, the audits from its head to a later one and the owner's history there, all accepted: then what the lookup
/// gave is what the history has for that epoch, and each step took an epoch.
fn agreed(d: &Directory, t: u32, last: u32) {
    let (lookup, history) = (d.lookup(BO, t), d.history(BO, last));
    let looked_up = check_lookup(d.head(t), BO, &lookup).expect("accepted");
    let steps = (t + 1..=last).map(|s| check_audit(d.head(s - 1), d.head(s), &d.audit(s)).expect("accepted")).count() as u32;
    let (history, told) = read_history(d.head(last), BO, &history).expect("accepted");
    let (epoch, gave) = (epoch_of(&looked_up), given(looked_up));
    let has = current_at(&told, epoch).map(|version| (version.version, version.key));
    let same = if gave == has { "the same" } else { "ANOTHER" };
    println!("  epoch {epoch}   a friend's lookup                          {}", current_text(gave));
    println!("            bo's history at epoch {} (audit steps: {steps})   {}: {same}", history.epoch, current_text(has));
    assert!(gave == has && epoch + steps == history.epoch, "lookup and history do not agree");
}

fn lied_to(d: &Directory) {
    println!("\nA server that lies, and what it is told");
    for lie in bad::lies(d) {
        println!("  {}", lie.tale);
        lie.said.iter().for_each(|(who, said)| println!("      {who}: {}", said.text));
        assert!(lie.said.iter().all(|(_, said)| !said.fine), "a lie was believed");
    }
    println!("\nA server that lies under heads of its own: a friend and an auditor accept, and bo's own handset sees it");
    for lie in believed::lies(d) {
        println!("  {}", lie.tale);
        lie.taken_in.iter().for_each(|(who, said)| println!("      {who}: {}", said.text));
        for (who, said) in &lie.owner {
            println!("      {who}: {}", said.iter().map(|said: &Said| said.text.as_str()).collect::<Vec<_>>().join("; "));
        }
        assert!(lie.taken_in.iter().all(|(_, said)| said.fine), "a lie was not told well");
        assert!(lie.owner.iter().all(|(_, said)| said.iter().any(|said| !said.fine)), "the owner did not see a lie");
    }
}

/// The line that the checking program has to print.
fn line(answer: Result<Lookup, Refusal>) -> String {
    match answer {
        Ok(Lookup::Found { version, epoch, digests, .. }) => format!("version {version} epoch {epoch} digests {digests}\n"),
        Ok(Lookup::NotRegistered { epoch, digests }) => format!("version 0 epoch {epoch} digests {digests}\n"),
        Err(refusal) => format!("refused {}\n", refusal.number()),
    }
}

/// Inputs of the checking program, a lookup and the same with a bit turned, and its lines.
fn files(d: &Directory, folder: &str) -> std::io::Result<()> {
    fs::create_dir_all(folder)?;
    let proof = d.lookup(BO, 4);
    let mut damaged = proof.clone();
    *damaged.last_mut().expect("a byte") ^= 1;
    for (name, proof) in [("lookup", proof), ("damaged", damaged)] {
        let input = [d.head(4), &[BO.len() as u8], BO, &proof].concat();
        fs::write(format!("{folder}/{name}"), &input)?;
        fs::write(format!("{folder}/{name}.line"), line(check_lookup(d.head(4), BO, &proof)))?;
    }
    Ok(())
}

fn main() -> std::io::Result<()> {
    let d = published();
    checked(&d);
    println!("\nWhy a friend may believe the arrow: a lookup, the audits from its head to the last one, and bo's history there are accepted, and agree");
    (0..=4).for_each(|t| agreed(&d, t, 4));
    lied_to(&d);
    files(&d, &std::env::args().nth(1).unwrap_or_else(|| "target/demo".into()))
}
