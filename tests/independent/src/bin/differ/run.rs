//! A run: cases are made and answered here while the driver answers the same requests, and every line is compared.

use std::collections::BTreeMap;
use std::fs::File;
use std::io::{BufRead, BufReader, BufWriter, Write};
use std::process::{Child, ChildStdin, Command, Stdio};
use std::sync::mpsc::{sync_channel, Receiver, SyncSender};
use std::thread;

use crate::call::CALLS;
use crate::case::{refusal, Case, Cases};
use crate::rng::Rng;
use crate::world::World;
use crate::{audits, edges, histories, level, lookups};

/// Requests that were answered otherwise, as lines of vector files.
const DIFFERS: &str = "target/independent/differs.txt";

/// A case, this implementation's line, and the world that it is from.
type Sent = (Case, String, u64);

/// Whether the driver answers each case as this implementation does, each case is answered as it is made to be, and each refusal is reached.
pub fn run(seed: u64, count: usize, calls: &[&str], command: &[String]) -> Result<bool, String> {
    if let Some(name) = calls.iter().find(|name| !CALLS.iter().any(|call| call.name == **name)) {
        return Err(format!("there is no call {name}"));
    }
    let mut driver = spawn(command)?;
    let (input, output) = (driver.stdin.take().expect("a pipe"), driver.stdout.take().expect("a pipe"));
    let (sender, receiver) = sync_channel(1000);
    let tally = thread::scope(|scope| {
        scope.spawn(|| send(seed, count, calls, input, sender));
        compare(BufReader::new(output), receiver)
    })?;
    let status = driver.wait().map_err(|why| why.to_string())?;
    tally.print(calls);
    Ok(status.success() && tally.is_good(calls))
}

fn spawn(command: &[String]) -> Result<Child, String> {
    let (program, words) = command.split_first().ok_or("no command to run the driver by")?;
    let piped = Command::new(program).args(words).stdin(Stdio::piped()).stdout(Stdio::piped()).spawn();
    piped.map_err(|why| format!("{program}: {why}"))
}

/// Makes cases, world by world, until there are enough.
fn send(seed: u64, count: usize, calls: &[&str], input: ChildStdin, sender: SyncSender<Sent>) {
    let mut input = BufWriter::new(input);
    let mut sent = 0;
    for world in 0.. {
        let chosen = cases(seed, world).0.into_iter().filter(|case| calls.contains(&case.call().name));
        for case in chosen.take(count - sent) {
            sent += 1;
            let (call, line) = (case.call(), case.call().answer(&case.fields));
            let request = call.request(&case.fields);
            // where the driver or the comparison has ended, the rest is not sent
            if sender.send((case, line, world)).is_err() || input.write_all(&request).is_err() {
                return;
            }
        }
        if sent == count {
            return;
        }
    }
}

/// World 0 has the cases at the bounds, each other one a directory and what is told of others.
fn cases(seed: u64, world: u64) -> Cases {
    let (mut rng, mut out) = (Rng::new(seed, world), Cases::default());
    if world == 0 {
        edges::put(&mut rng, &mut out);
        return out;
    }
    let directory = World::new(&mut rng, &mut out);
    (0..8).for_each(|_| directory.put_proof(&mut rng, &mut out));
    (0..18).for_each(|_| directory.put_fault(&mut rng, &mut out));
    (0..26).for_each(|_| lookups::put(&mut rng, &mut out));
    (0..20).for_each(|_| histories::put(&mut rng, &mut out));
    (0..20).for_each(|_| audits::put(&mut rng, &mut out));
    (0..10).for_each(|_| level::put_tree(&mut rng, &mut out));
    (0..4).for_each(|_| level::put_small(&mut rng, &mut out));
    out
}

#[derive(Default)]
struct Tally {
    /// For each call: answers, and refusals by their number.
    lines: [[usize; 12]; 14],
    aims: BTreeMap<(usize, &'static str), usize>,
    differ: usize,
    astray: usize,
}

fn compare(mut output: impl BufRead, sent: Receiver<Sent>) -> Result<Tally, String> {
    let mut tally = Tally::default();
    let mut line = String::new();
    for (case, own, world) in sent {
        line.clear();
        output.read_line(&mut line).map_err(|why| format!("the driver's answer: {why}"))?;
        let Some(answer) = line.strip_suffix('\n') else {
            return Err(format!("the driver ended before its answer to {} of world {world} ({})", case.call().name, case.aim));
        };
        tally.take(&case, &own, answer, world).map_err(|why| format!("{DIFFERS}: {why}"))?;
    }
    line.clear();
    match output.read_line(&mut line) {
        Ok(0) => Ok(tally),
        _ => Err("the driver has more lines than requests".to_string()),
    }
}

impl Tally {
    fn take(&mut self, case: &Case, own: &str, answer: &str, world: u64) -> std::io::Result<()> {
        self.lines[case.call][refusal(own) as usize] += 1;
        *self.aims.entry((case.call, case.aim)).or_default() += 1;
        let about = format!("{} of world {world} ({})", case.call().name, case.aim);
        if !case.want.met(own) {
            self.astray += 1;
            println!("{about}: made for {:?}, and answered here {own:.60}", case.want);
        }
        if own != answer {
            self.differ += 1;
            println!("{about}: here {own:.60}, the driver {answer:.60}");
            let mut file = File::options().create(true).append(true).open(DIFFERS)?;
            writeln!(file, "# {about}; the driver: {answer}\n{} = {own}", case.call().shown(&case.fields))?;
        }
        Ok(())
    }

    fn print(&self, calls: &[&str]) {
        println!("{:17} {:>7} {:>8}  refused by number", "call", "cases", "answered");
        for (call, lines) in CALLS.iter().zip(&self.lines).filter(|(call, _)| calls.contains(&call.name)) {
            let refused: Vec<String> = (1..12).filter(|&n| lines[n] > 0).map(|n| format!("{n}: {}", lines[n])).collect();
            println!("{:17} {:>7} {:>8}  {}", call.name, lines.iter().sum::<usize>(), lines[0], refused.join(", "));
        }
        let cases: usize = self.lines.iter().flatten().sum();
        println!("{cases} cases of {} sorts, {} answered otherwise by the driver, {} astray", self.aims.len(), self.differ, self.astray);
    }

    /// Whether all agree, and each call gave an answer and every refusal that it can.
    fn is_good(&self, calls: &[&str]) -> bool {
        let mut reached = true;
        for (call, lines) in CALLS.iter().zip(&self.lines).filter(|(call, _)| calls.contains(&call.name)) {
            for &number in [0].iter().chain(call.refusals).filter(|&&number| lines[number as usize] == 0) {
                println!("{}: no case was {}", call.name, if number == 0 { "answered".to_string() } else { format!("refused {number}") });
                reached = false;
            }
        }
        reached && self.differ == 0 && self.astray == 0
    }
}
