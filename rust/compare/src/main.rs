//! `compare --seed S --count N` gives N inputs to the proved desk and to the plain reference and
//! ends with a line of counts; an input on which they differ, whose seats break a law of growth that
//! their method keeps, or whose moves or clean copies break theirs, is printed as a line that
//! `compare --replay LINE` runs again.

use compare::{check, Case, Counts, Inputs};
use std::io::Read;
use std::process::ExitCode;
use std::sync::atomic::{AtomicU64, Ordering};
use std::sync::Mutex;
use std::thread;

const USAGE: &str = "\
compare --seed S --count N [--threads T] [--trace]
compare --replay LINE       (or - for a line on standard input)
--trace prints each input before it is run, on one thread, to find one that ends the program.";

/// After so many differing inputs a run ends.
const ENOUGH: usize = 5;

struct Options {
    seed: u64,
    count: u64,
    threads: usize,
    trace: bool,
    replay: Option<String>,
}

fn main() -> ExitCode {
    let Some(options) = options() else {
        eprintln!("{USAGE}");
        return ExitCode::from(2);
    };
    let same = match &options.replay {
        Some(line) => replay(line),
        None => run(&options),
    };
    ExitCode::from(if same { 0 } else { 1 })
}

fn options() -> Option<Options> {
    let mut options = Options {
        seed: 1,
        count: 200_000,
        threads: thread::available_parallelism().map_or(1, usize::from),
        trace: false,
        replay: None,
    };
    let mut words = std::env::args().skip(1);
    while let Some(word) = words.next() {
        match word.as_str() {
            "--seed" => options.seed = words.next()?.parse().ok()?,
            "--count" => options.count = words.next()?.parse().ok()?,
            "--threads" => options.threads = words.next()?.parse().ok().filter(|&t| t > 0)?,
            "--trace" => options.trace = true,
            "--replay" => options.replay = Some(words.next()?),
            _ => return None,
        }
    }
    if options.trace {
        options.threads = 1;
    }
    Some(options)
}

/// Runs one printed input again.
fn replay(line: &str) -> bool {
    let mut line = line.to_string();
    if line == "-" {
        line.clear();
        if std::io::stdin().read_to_string(&mut line).is_err() {
            eprintln!("standard input is not text");
            return false;
        }
    }
    let Some(case) = Case::parse(&line) else {
        eprintln!("not an input: {line}");
        return false;
    };
    match check(&case, &mut Counts::default()) {
        Ok(()) => println!("the same"),
        Err(difference) => {
            println!("differs: {difference}");
            return false;
        }
    }
    true
}

/// Runs the inputs of a seed on all threads and prints the closing line.
fn run(options: &Options) -> bool {
    let inputs = Inputs::new(options.seed);
    let next = AtomicU64::new(0);
    let counts = Mutex::new(Counts::default());
    let differing = Mutex::new(Vec::new());
    thread::scope(|scope| {
        for _ in 0..options.threads {
            scope.spawn(|| {
                let mut mine = Counts::default();
                loop {
                    let number = next.fetch_add(1, Ordering::Relaxed);
                    if number >= options.count {
                        break;
                    }
                    let case = inputs.get(number);
                    if options.trace {
                        eprintln!("{number}: {case}");
                    }
                    if let Err(difference) = check(&case, &mut mine) {
                        let mut all = differing.lock().expect("no thread has failed");
                        all.push((number, case, difference));
                        if all.len() >= ENOUGH {
                            next.store(options.count, Ordering::Relaxed);
                        }
                    }
                }
                counts.lock().expect("no thread has failed").add(&mine);
            });
        }
    });

    let counts = counts.into_inner().expect("no thread has failed");
    let mut differing = differing.into_inner().expect("no thread has failed");
    differing.sort_by_key(|(number, _, _)| *number);
    for (number, case, difference) in &differing {
        println!(
            "input {number} of seed {} differs: {difference}",
            options.seed
        );
        println!("  --replay '{case}'");
    }
    println!("{}", closing_line(options.seed, &counts, differing.len()));
    differing.is_empty()
}

/// What was compared, in one line: inputs of each kind, calls, answers by refusal number, and what
/// came of the laws of moves, of growth and of clean copies.
fn closing_line(seed: u64, counts: &Counts, differing: usize) -> String {
    let kinds = Case::KINDS.iter().zip(counts.inputs);
    let kinds: Vec<String> = kinds
        .map(|(kind, count)| format!("{count} {kind}"))
        .collect();
    let numbers = counts.refusals.iter().enumerate().skip(1);
    let refusals: Vec<String> = numbers
        .filter(|(_, &count)| count > 0)
        .map(|(number, count)| format!("{number}: {count}"))
        .collect();
    let (more, polls) = (&counts.one_seat_more, &counts.two_polls);
    let sum = |numbers: &[u64]| numbers.iter().sum::<u64>();
    format!(
        "seed {seed}: {} inputs ({}), {} calls, {} searched through, accepted {}, refused {}; \
         {} pairs of moves were one by their sum ({} with seats moved by both); \
         one seat more held {} times and two polls {} times ({} with seats moved), \
         broken {} and {} times under methods that are excepted; \
         {} clean copies read and cleaned again, of pairs of registers {} had equal ones and {} had \
         not; {differing} differ",
        sum(&counts.inputs),
        kinds.join(", "),
        counts.calls,
        counts.searched,
        counts.refusals[0],
        refusals.join(", "),
        counts.sums,
        counts.halts,
        sum(&more.held),
        sum(&polls.held),
        counts.moved,
        sum(&more.broken),
        sum(&polls.broken),
        counts.copies,
        counts.equal_copies,
        counts.other_copies,
    )
}
