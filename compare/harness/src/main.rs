//! Differential runs: the Rattle library, the Rust and a model of docs/FORMAT.md on the same inputs.
//!
//!     compare COUNT SEED CORPUS       inputs of every sort, until COUNT cases are made
//!     compare list SEED CORPUS        the fixed list, on standard output
//!     compare show MODE HEX ..        what each answers of one input
//!     compare bench, compare table    executed instructions: bench.rs

mod bench;
mod content;
mod fixed_list;
mod inputs;
mod judging;
mod model;
mod oracle;
mod ours;

use inputs::real::corpus;
use judging::{judge, Case, Run};

fn main() {
    silence_the_rust();
    let args: Vec<String> = std::env::args().collect();
    let seed = || args[2].parse().expect("a seed");
    match args[1].as_str() {
        "show" => show(args[2].parse().expect("a mode"), &args[3..]),
        "bench" => bench::run(&corpus(&args[2]), None),
        "table" => {
            let counts = std::fs::read_to_string(&args[3]).expect("the counts");
            bench::run(&corpus(&args[2]), Some(counts.lines().map(|l| l.parse().expect("a count")).collect()))
        }
        "list" => fixed_list::print(seed(), &args[3]),
        count => compare(count.parse().expect("a count"), seed(), &args[3]),
    }
}

/// A panic of the Rust is an answer, and not shown; any other is.
fn silence_the_rust() {
    let loud = std::panic::take_hook();
    std::panic::set_hook(Box::new(move |p| {
        if !oracle::CALLED.load(std::sync::atomic::Ordering::Relaxed) {
            loud(p);
        }
    }));
}

fn show(mode: u8, digits: &[String]) {
    let buf: Vec<u8> = digits.iter().map(|h| u8::from_str_radix(h, 16).expect("a byte")).collect();
    let expected = model::decode(mode, &buf);
    let (seen, consumed) = oracle::decode(mode, &buf);
    println!("ours {:?}\nmodel {expected:?}\nthe Rust {seen:?}, {consumed} consumed", ours::decode(mode, &buf));
    println!("{:?}", judge(&Case { mode, buf: &buf, seen: &seen, consumed }, &expected));
}

fn compare(count: u64, seed: u64, folder: &str) {
    let mut run = Run::default();
    inputs::everything(&mut run, count, seed, folder);
    let good = run.end(seed);
    println!("{}", if good { "compare: passed" } else { "compare: FAILED" });
    std::process::exit(if good { 0 } else { 1 });
}
