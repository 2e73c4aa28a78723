//! The parts of the comparison, in their order, and how much of each.

use std::time::Instant;

use super::report::Report;
use super::shapes::{self, SHAPES};
use super::talk::Talk;
use super::{batches, extremes, lines, pipes, reach, single};
use crate::random::Random;
use crate::scripts;
use crate::trials::Trial;

/// From this size on all states of four slots are compared too; below that one only those of two.
const LONG: usize = 50;
const SHORT: usize = 5;

type Part = fn(&mut Talk, &Amount) -> Result<(), Report>;

/// The size is in tenths of the usual one.
pub struct Amount {
    pub seed: u64,
    pub size: usize,
}

const PARTS: [(&str, Part); 8] = [
    ("every state of few slots", states),
    ("scripts on few slots", short_scripts),
    ("scripts on 2,048 slots", long_scripts),
    ("refusals, damaged arrays, entries", trials),
    ("lengths, roots and garbage", far_numbers),
    ("lines", all_lines),
    ("batches", all_batches),
    ("the program", program),
];

pub fn hold(talk: &mut Talk, amount: &Amount) -> Result<(), Report> {
    for (name, part) in PARTS {
        let (start, before) = (Instant::now(), talk.compared);
        part(talk, amount)?;
        let seconds = start.elapsed().as_secs_f32();
        println!("  {name}: {} calls, {seconds:.1} s", talk.compared - before);
    }
    Ok(())
}

fn states(talk: &mut Talk, amount: &Amount) -> Result<(), Report> {
    let most = match amount.size {
        LONG.. => 4,
        SHORT.. => 3,
        _ => 2,
    };
    for capacity in 0..=most {
        let states = reach::hold(capacity, talk)?;
        println!("    {states} states of {capacity} slots");
    }
    Ok(())
}

fn short_scripts(talk: &mut Talk, amount: &Amount) -> Result<(), Report> {
    for round in 0..4 * amount.size as u64 {
        for (number, shape) in SHAPES.into_iter().enumerate() {
            for capacity in [1, 2, 4, 7, 12, 20, 33, 100] {
                let seed = amount.seed ^ round << 32 ^ (number * 1000 + capacity) as u64;
                shapes::hold(shape, capacity, 40 + 4 * capacity, talk, seed)?;
            }
        }
    }
    Ok(())
}

fn long_scripts(talk: &mut Talk, amount: &Amount) -> Result<(), Report> {
    for (number, shape) in SHAPES.into_iter().enumerate() {
        shapes::hold(shape, 2048, 320 * amount.size, talk, amount.seed + number as u64)?;
    }
    shapes::hold_large(2048, 300 * amount.size, talk, amount.seed)
}

fn trials(talk: &mut Talk, amount: &Amount) -> Result<(), Report> {
    let offered = |trial: &Trial| {
        !matches!(trial, Trial::Meant { .. } | Trial::Move { .. } | Trial::End { .. } | Trial::Program(_))
    };
    single::hold(talk, scripts::trials(10_000 * amount.size, amount.seed).into_iter().filter(offered))
}

fn far_numbers(talk: &mut Talk, amount: &Amount) -> Result<(), Report> {
    let random = &mut Random::new(amount.seed);
    for lent in extremes::edges(random) {
        single::hold(talk, extremes::calls(&lent, random))?;
    }
    for _ in 0..300 * amount.size {
        let lent = extremes::garbage(random);
        single::hold(talk, extremes::calls(&lent, random))?;
    }
    for number in 0..10 * amount.size {
        let lent = extremes::large(number % 3 != 0, random);
        single::hold(talk, extremes::calls(&lent, random))?;
    }
    Ok(())
}

fn all_lines(talk: &mut Talk, amount: &Amount) -> Result<(), Report> {
    let random = &mut Random::new(amount.seed);
    single::hold(talk, lines::fixed())?;
    single::hold(talk, (0..5000 * amount.size).flat_map(|_| lines::random(random)))
}

fn all_batches(talk: &mut Talk, amount: &Amount) -> Result<(), Report> {
    let random = &mut Random::new(amount.seed);
    single::hold(talk, batches::edges(random))?;
    single::hold(talk, batches::bad_records(random))?;
    single::hold(talk, (0..100 * amount.size).flat_map(|_| batches::singly(random)))?;
    for _ in 0..amount.size.div_ceil(5) {
        single::hold(talk, [batches::full(random)])?;
    }
    Ok(())
}

fn program(talk: &mut Talk, amount: &Amount) -> Result<(), Report> {
    if !talk.programs.doors.exists() {
        println!("    left out: there is no program {}", talk.programs.doors.display());
        return Ok(());
    }
    pipes::hold(talk, amount.size, &mut Random::new(amount.seed))
}
