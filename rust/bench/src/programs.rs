//! Whole programs: a register in, its listing out. The proved one is `target/bin/allotment` at the
//! repository's root (`make programs` builds it); the plain one is this program itself, which
//! answers `bench plain` from the reference.

use std::io::{Read, Write};
use std::path::Path;
use std::process::{Command, Stdio};
use std::time::Instant;

/// Runs of each program; they take turns, and the median counts.
const RUNS: usize = 401;

/// The plain allotment program.
pub fn be_plain() {
    let mut bytes = Vec::new();
    std::io::stdin()
        .read_to_end(&mut bytes)
        .expect("a register on standard input");
    let printed = match reference::listing(&bytes) {
        Ok(listing) => listing,
        Err(refusal) => format!("refused,{},{}\n", refusal.number, refusal.line).into_bytes(),
    };
    std::io::stdout()
        .write_all(&printed)
        .expect("room for the listing");
}

/// Times both programs on a register and prints their medians and the ratio.
pub fn time_them(register: &[u8]) {
    let root = Path::new(env!("CARGO_MANIFEST_DIR")).join("../..");
    let proved = || Command::new(root.join("target/bin/allotment"));
    let plain = || {
        let mut command = Command::new(std::env::current_exe().expect("this program's name"));
        command.arg("plain");
        command
    };
    assert_eq!(
        run(proved(), register).0,
        run(plain(), register).0,
        "the listings differ"
    );
    let mut times = (Vec::new(), Vec::new());
    for _ in 0..RUNS {
        times.0.push(run(proved(), register).1);
        times.1.push(run(plain(), register).1);
    }
    let (proved, plain) = (median(times.0), median(times.1));
    println!("the allotment program: {proved:.0} µs; the plain program: {plain:.0} µs");
    println!("ratio: {:.2}", proved / plain);
}

/// What a program prints for a register, and its time from its start to its end, in microseconds.
fn run(mut command: Command, register: &[u8]) -> (Vec<u8>, f64) {
    let start = Instant::now();
    let mut child = command
        .stdin(Stdio::piped())
        .stdout(Stdio::piped())
        .spawn()
        .expect("a program that starts");
    let mut input = child.stdin.take().expect("a pipe");
    input.write_all(register).expect("a program that reads");
    drop(input);
    let printed = child
        .wait_with_output()
        .expect("a program that ends")
        .stdout;
    (printed, start.elapsed().as_nanos() as f64 / 1_000.0)
}

fn median(mut times: Vec<f64>) -> f64 {
    times.sort_by(f64::total_cmp);
    times[times.len() / 2]
}
