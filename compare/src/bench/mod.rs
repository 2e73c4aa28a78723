//! `compare bench`: batches on the library and on the crate, in turn, timed and held to the same answers. Both start
//! each batch with the same tree; loading it is not timed.

mod linked;
mod mix;
mod rival;

use std::process::exit;
use std::time::Instant;

use crate::batch::{self, ANSWER, RECORD};
use crate::lent::{Command, Lent, Operation};
use crate::oracle::Oracle;
use mix::{Maker, RECORDS};

/// One batch in so many ends with a clear; what it empties is there again for the next one.
const CLEARING: usize = 100;

struct Options {
    batches: usize,
    repeats: usize,
    seed: u64,
    machine: String,
}

/// Microseconds for each batch, the least of some repetitions.
#[derive(Default)]
struct Times {
    library: Vec<f64>,
    rival: Vec<f64>,
}

pub fn run(words: &[String]) {
    let Some(options) = options(words) else {
        eprintln!("usage: compare bench [--batches N] [--repeats N] [--seed S] [--machine NAME]");
        exit(2);
    };
    let times = timed(&options);
    let ratio = times.library.iter().sum::<f64>() / times.rival.iter().sum::<f64>();
    println!("{} batches of {RECORDS} records on about {} linked slots", options.batches, mix::LINKED);
    println!("the least of {} repetitions for each, in microseconds:", options.repeats);
    println!("  library: {}", summary(times.library));
    println!("  crate:   {}", summary(times.rival));
    println!("library / crate, ratio of the sums: {ratio:.2}");
    let here = std::env::consts::ARCH;
    println!("all answers and trees are equal");
    if options.machine == here {
        println!("both sides ran natively on {here}");
    } else {
        println!("both sides are for {here} and ran emulated on {}: these times say little", options.machine);
    }
}

fn options(words: &[String]) -> Option<Options> {
    let machine = std::env::consts::ARCH.to_string();
    let mut options = Options { batches: 1000, repeats: 5, seed: 1, machine };
    let mut words = words.iter();
    while let Some(word) = words.next() {
        match word.as_str() {
            "--batches" => options.batches = words.next()?.parse().ok()?,
            "--repeats" => options.repeats = words.next()?.parse().ok().filter(|&repeats: &usize| repeats > 0)?,
            "--seed" => options.seed = words.next()?.parse().ok()?,
            "--machine" => options.machine = words.next()?.clone(),
            _ => return None,
        }
    }
    Some(options)
}

fn timed(options: &Options) -> Times {
    let (mut maker, mut times) = (Maker::new(options.seed), Times::default());
    for number in 1..=options.batches {
        let before = maker.lent();
        let mut input = maker.batch();
        if number % CLEARING == 0 {
            let clear = Command { operation: Operation::Clear, kind: 0, position: 0, slot: 0, key: 0 };
            input.splice((RECORDS - 1) * RECORD.., batch::record(&clear));
        }
        let least = (0..options.repeats).map(|_| once(&before, &input)).reduce(|a, b| (a.0.min(b.0), a.1.min(b.1)));
        let (library, rival) = least.expect("one repetition at least");
        times.library.push(library);
        times.rival.push(rival);
    }
    times
}

/// The microseconds of the library and of the crate for one batch, whose answers and trees must be equal.
fn once(before: &Lent, input: &[u8]) -> (f64, f64) {
    let (mut lent, mut answers) = (before.clone(), vec![0; RECORDS * ANSWER]);
    let start = Instant::now();
    let (code, count) = linked::batch(&mut lent, input, &mut answers);
    let library = start.elapsed();
    assert_eq!((code, count as usize), (0, RECORDS), "the library refuses a batch");

    let (mut tree, mut others) = (Oracle::load(before), vec![0; RECORDS * ANSWER]);
    let start = Instant::now();
    rival::batch(&mut tree, input, &mut others);
    let rival = start.elapsed();
    assert!(answers == others, "different answers");
    assert!(lent == tree.read(), "different trees");
    (library.as_secs_f64() * 1e6, rival.as_secs_f64() * 1e6)
}

fn summary(mut times: Vec<f64>) -> String {
    times.sort_by(f64::total_cmp);
    format!("median {:.1}, best {:.1}, sum {:.0}", times[times.len() / 2], times[0], times.iter().sum::<f64>())
}
