//! The program, over pipes: what it reads in pieces of any size, and what it writes.

use std::io::{Error, Read, Write};
use std::process::{Command, Stdio};
use std::thread;
use std::time::Duration;

use super::report::{smallest, Report};
use super::talk::Talk;
use crate::batch::{self, RECORD};
use crate::lent::{Command as Asked, Lent, Operation};
use crate::random::Random;
use crate::scripts;

/// Holds the program to inputs round the edges and to so many random ones.
pub fn hold(talk: &mut Talk, more: usize, random: &mut Random) -> Result<(), Report> {
    for (input, piece) in inputs(more, random) {
        talk.compared += 1;
        let mut output = run(talk, &input, piece);
        let made = output.as_mut().ok().and_then(|output| talk.spoiler.spoil_output(output));
        if let Some(told) = difference(&input, &output) {
            if !talk.spoiler.expects(made, &told) {
                return Err(shrunk(talk, &input, piece, &told));
            }
        }
    }
    Ok(())
}

/// Inputs, each with the size of the pieces in which it is written.
fn inputs(more: usize, random: &mut Random) -> Vec<(Vec<u8>, usize)> {
    let records = |count: usize, random: &mut Random| scripts::records(count, &Lent::empty(24), random);
    let mut made = vec![(sample(), 48), (sample(), 1), (Vec::new(), 1), (filling(), 10_000)];
    for cut in 1..RECORD {
        let mut input = records(3, random);
        input.truncate(3 * RECORD - cut);
        made.push((input, 7));
    }
    for (count, piece) in [(1, 5), (1023, 4093), (1024, 1 << 20), (1025, 16_384), (2049, 16_385), (3000, 997)] {
        made.push((records(count, random), piece));
    }
    for _ in 0..more {
        let (count, piece) = (random.below(1500), 1 + random.below(5000));
        let mut input = records(count, random);
        input.extend(&input.clone()[..random.below(RECORD).min(input.len())]);
        made.push((input, piece));
    }
    made
}

/// The program's example in 01.
fn sample() -> Vec<u8> {
    let asked = |operation, slot, key| batch::record(&Asked { operation, kind: 0, position: 0, slot, key });
    let insert = asked(Operation::Insert, 1, 5);
    [insert, insert, asked(Operation::Find, 0, 6)].concat()
}

/// Each slot hung, and one more that is not there; then half of them taken out.
fn filling() -> Vec<u8> {
    let asked = |operation, number: u32| {
        batch::record(&Asked {
            operation,
            kind: 0,
            position: number,
            slot: number,
            key: u64::from(number * 7919 % 2048),
        })
    };
    let hung = (1..=2049).map(|slot| asked(Operation::Insert, slot));
    hung.chain((0..1025).map(|half| asked(Operation::Remove, 2 * half))).flatten().collect()
}

fn difference(input: &[u8], output: &Result<Vec<u8>, Error>) -> Option<String> {
    let told = match output {
        Ok(told) => told,
        Err(error) => return Some(format!("the program failed: {error}")),
    };
    let wanted = batch::program(input);
    let at = (0..told.len().max(wanted.len())).find(|&at| told.get(at) != wanted.get(at))?;
    Some(format!("byte {at} of the output is {:?}, not {:?}", told.get(at), wanted.get(at)))
}

/// What the program writes, given its input in pieces, with a pause between some of them.
fn run(talk: &Talk, input: &[u8], piece: usize) -> Result<Vec<u8>, Error> {
    let mut command = Command::new(&talk.programs.launch);
    let mut program = command.arg(&talk.programs.doors).stdin(Stdio::piped()).stdout(Stdio::piped()).spawn()?;
    let mut output = program.stdout.take().expect("piped");
    let reader = thread::spawn(move || {
        let mut bytes = Vec::new();
        output.read_to_end(&mut bytes).map(|_| bytes)
    });
    let mut pipe = program.stdin.take().expect("piped");
    for (number, part) in input.chunks(piece).enumerate() {
        pipe.write_all(part)?;
        pipe.flush()?;
        if number < 20 {
            thread::sleep(Duration::from_millis(3));
        }
    }
    drop(pipe);
    let written = reader.join().expect("reading does not panic")?;
    match program.wait()? {
        status if status.success() => Ok(written),
        status => Err(Error::other(format!("it ended with {status}"))),
    }
}

fn shrunk(talk: &Talk, input: &[u8], piece: usize, told: &str) -> Report {
    let records: Vec<_> = input.chunks(RECORD).map(<[u8]>::to_vec).collect();
    let differs = |some: &[Vec<u8>]| difference(&some.concat(), &run(talk, &some.concat(), piece));
    let kept = smallest(&records, |some| differs(some).is_some());
    let told = differs(&kept).unwrap_or_else(|| told.to_string());
    Report::of_list(&format!("the start of the program, in pieces of {piece} bytes"), &kept, &told)
}
