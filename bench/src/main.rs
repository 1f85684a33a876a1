//! Measures the proved functions against the independent Rust implementation, in one run and in turns, and prints ratios: above 1 the
//! proved one takes longer. `tests/bench` builds and runs it.
mod clock;
mod directory;
mod hashing;
mod picture;

use clock::{compared, Compared};
use directory::Directory;
use hashing::Strings;
use picture::bar;

const CHECK_GOAL: f64 = 1.15;
const WORK_GOAL: f64 = 1.3;
const HASH_GOAL: f64 = 0.9;
const TABLES: [usize; 3] = [256, 1024, 3840];

/// The two in turns, and ours in turns with its own hashing alone: a line, and how often its hashing's time ours takes.
fn line(what: &str, mut ours: impl FnMut() -> usize, theirs: impl FnMut() -> usize, hashing: &Strings) -> (Compared, f64) {
    let c = compared(&mut ours, theirs);
    let own = compared(ours, || hashing.hash());
    let share = 100.0 * own.theirs / own.ours;
    println!("  {what:44} {:>10}  independent {:>10}  ratio {:4.2}  hashing {share:3.0} of 100", clock::shown(c.ours), clock::shown(c.theirs), c.ours / c.theirs);
    (c, own.ours / own.theirs)
}

fn digests() {
    println!("SHA-256 (goal: at least {HASH_GOAL} of the independent one's speed)");
    for size in [1usize, 55, 64, 99, 256, 1024, 16384, 1 << 20] {
        let data = vec![0x61; size];
        let c = compared(|| noonhaggle::sha256(&data)[0] as usize, || independent::sha256(&data)[0] as usize);
        let (a, b) = (clock::shown(c.ours), clock::shown(c.theirs));
        println!("  {:44} {a:>10}  independent {b:>10}  speed {:4.2} of it, {:.0} MB/s", format!("{size} bytes"), c.theirs / c.ours, size as f64 / c.ours / 1e6);
    }
}

/// What a check takes, and how that stands to its own hashing.
fn check(what: &str, ours: impl FnMut() -> usize, theirs: impl FnMut() -> usize, hashing: &Strings) {
    let (_, times) = line(what, ours, theirs, hashing);
    println!("  {:44} {times:4.2} of its own hashing (goal: at most {CHECK_GOAL})", "");
}

fn checks() {
    println!("Checks");
    let (head, name, proof) = Directory::of(1024, 1).lookup(b"name-00007");
    check(
        "a lookup, 1,024 records",
        || noonhaggle::check_lookup(&head, &name, &proof).is_ok() as usize,
        || independent::check_lookup(&head, &name, &proof).is_ok() as usize,
        &hashing::of_lookup(&proof, name.len()),
    );
    let (head, name, proof) = Directory::of(1024, 100).history(b"name-00007");
    check(
        "a history of 100, 1,024 records",
        || noonhaggle::check_history(&head, &name, &proof).is_ok() as usize,
        || independent::check_history(&head, &name, &proof).is_ok() as usize,
        &hashing::of_history(&proof, name.len()),
    );
    for size in TABLES {
        let (old, new, proof) = Directory::of(size, 1).audit();
        let digests = noonhaggle::check_audit(&old, &new, &proof).expect("accepted").digests;
        check(
            &format!("an audit of 256 updates, {size} records before"),
            || noonhaggle::check_audit(&old, &new, &proof).is_ok() as usize,
            || independent::check_audit(&old, &new, &proof).is_ok() as usize,
            &hashing::of_nodes(digests as usize),
        );
    }
}

fn publishing() {
    println!("Publishing 256 updates (goal: at most {WORK_GOAL} of the independent one)");
    let mut taken = Vec::new();
    for size in TABLES {
        let d = Directory::of(size, 1);
        let (mut r, mut h) = (d.records.clone(), d.heads.clone());
        let (mut r2, mut h2) = (r.clone(), h.clone());
        let before = d.before;
        let other = independent::State { count: before.count, epoch: before.epoch };
        let (c, _) = line(
            &format!("into {size} records"),
            || noonhaggle::publish(&mut r, &mut h, before, &d.batch).expect("published").count as usize,
            || independent::publish(&mut r2, &mut h2, other, &d.batch).expect("published").count as usize,
            &hashing::of_trees(&d),
        );
        taken.push((format!("{size}"), c.ours));
    }
    bar("  growth with the records before", &taken);
}

/// A writer of either implementation, and what ours hashes.
fn written(what: &str, strings: &Strings, ours: impl Fn(&mut [u8]) -> usize, theirs: impl Fn(&mut [u8]) -> usize) -> f64 {
    let (mut out, mut out2) = (vec![0; 1 << 20], vec![0; 1 << 20]);
    let (c, _) = line(what, || ours(&mut out), || theirs(&mut out2), strings);
    c.ours
}

fn writing() {
    println!("Writing (goal: at most {WORK_GOAL} of the independent one)");
    let mut taken = Vec::new();
    for size in TABLES {
        let d = Directory::of(size, 100.min(size / 2));
        let (r, h, s, t) = (&d.records, &d.heads, d.state, d.state.epoch);
        let o = independent::State { count: s.count, epoch: s.epoch };
        let name = b"name-00007";
        let trees = hashing::of_trees(&d);
        let a = written(
            &format!("a lookup, {} records", s.count),
            &trees,
            |out| noonhaggle::write_lookup(r, h, s, name, t, out).expect("written"),
            |out| independent::write_lookup(r, h, o, name, t, out).expect("written"),
        );
        written(
            &format!("a history, {} records", s.count),
            &trees,
            |out| noonhaggle::write_history(r, h, s, name, t, out).expect("written"),
            |out| independent::write_history(r, h, o, name, t, out).expect("written"),
        );
        written(
            &format!("the last audit, {} records", s.count),
            &hashing::of_audit(&d),
            |out| noonhaggle::write_audit(r, h, s, t, out).expect("written"),
            |out| independent::write_audit(r, h, o, t, out).expect("written"),
        );
        taken.push((format!("{}", s.count), a));
    }
    bar("  a lookup's growth with the records", &taken);
}

fn main() {
    println!("{}", clock::processor());
    digests();
    checks();
    publishing();
    writing();
}
