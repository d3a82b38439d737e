//! The inputs: generated, damaged and real, and rows to be built, each handed to the run that judges it.

pub mod contents;
pub mod damaged;
pub mod generated;
mod random;
pub mod real;
mod rows;

pub use random::Rng;

use crate::judging::{hex, Run};

/// Inputs of every sort, until `count` cases are made.
pub fn everything(run: &mut Run, count: u64, seed: u64, folder: &str) {
    let mut r = Rng(seed);
    let traffic = real::corpus(folder);
    println!("{} frames of real traffic", traffic.len());
    generated::bytes_alone(run);
    run.unknown_kinds();
    let alphabet = generated::alphabet(count);
    println!("an alphabet of {} bytes: {}", alphabet.len(), hex(alphabet));
    generated::exhaustive(run, alphabet);
    generated::first_packets(run, alphabet);
    generated::boundaries(run, &mut r, if count > 2_000_000 { 8 } else { 1 });
    // one of these takes as long as thousands of others
    let turns = (count / 1_000_000).clamp(1, 50) as usize;
    generated::long_lists(run, &mut r.clone(), turns);
    rows::around_the_limits(run, &mut r.clone(), turns);
    rows::histories(run, &mut r.clone(), count / 100);
    real::real_traffic(run, &mut r, &traffic, if count > 2_000_000 { 4 } else { 16 });
    // a third at least are random
    let count = count.max(run.cases + count / 3);
    while run.cases < count {
        generated::random(run, &mut r);
    }
}

/// The inputs that the fixed list is taken from.
pub fn for_the_list(run: &mut Run, seed: u64, folder: &str) {
    let mut r = Rng(seed);
    generated::bytes_alone(run);
    generated::exhaustive(run, &generated::ALPHABET[..3]);
    generated::first_packets(run, &generated::ALPHABET[..3]);
    let traffic = real::corpus(folder);
    real::real_traffic(run, &mut r, &traffic, 4);
    real::real_traffic(run, &mut r.clone(), &real::left_out(&traffic), 4);
    for _ in 0..20_000 {
        generated::random(run, &mut r);
    }
}
