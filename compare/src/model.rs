//! `compare model`: writes the vectors that hold the model against 01 and the crate.

use std::collections::HashSet;
use std::mem::discriminant;
use std::path::{Path, PathBuf};
use std::process::exit;

use crate::coverage::Kinds;
use crate::lent::Entry;
use crate::paper;
use crate::scripts;
use crate::trials::{self, Said, Trial};
use crate::vectors;

/// Out of so many further trials those are kept that meet a kind of case which few trials have met.
const POOL: usize = 100_000;
const WANTED: usize = 5;

struct Options {
    count: usize,
    seed: u64,
    model: PathBuf,
    spoil: bool,
    place: PathBuf,
}

pub fn run(words: &[String]) {
    let Some(options) = options(words) else {
        eprintln!("usage: compare model [--count N] [--seed S] [--model FOLDER] [--spoil] DIR");
        exit(2);
    };
    paper::hold();
    let (mut vectors, kinds) = vectors(options.count, options.seed);
    let wrong = if options.spoil { spoil(&mut vectors) } else { 0 };
    if let Err(error) = vectors::write(&vectors, &options.model, &options.place) {
        eprintln!("compare: {}: {error}", options.place.display());
        exit(2);
    }
    print!("{} outcomes, {} kinds of case, seed {}", vectors.len(), kinds.len(), options.seed);
    println!("{}", if options.spoil { format!(", {wrong} made wrong") } else { String::new() });
}

fn options(words: &[String]) -> Option<Options> {
    let model = Path::new(env!("CARGO_MANIFEST_DIR")).join("../crates/model");
    let mut options = Options { count: 1500, seed: 1, model, spoil: false, place: PathBuf::new() };
    let mut words = words.iter();
    while let Some(word) = words.next() {
        match word.as_str() {
            "--count" => options.count = words.next()?.parse().ok()?,
            "--seed" => options.seed = words.next()?.parse().ok()?,
            "--model" => options.model = words.next()?.into(),
            "--spoil" => options.spoil = true,
            _ if word.starts_with('-') => return None,
            _ => options.place = word.into(),
        }
    }
    (!options.place.as_os_str().is_empty()).then_some(options)
}

fn vectors(count: usize, seed: u64) -> (Vec<(Trial, Said)>, Kinds) {
    let mut kinds = Kinds::default();
    let answered = |trial| {
        let said = trials::said(&trial);
        (trial, said)
    };
    let large = scripts::large(if count < 5000 { 8 } else { 10 }, seed);
    let mut chosen: Vec<_> = scripts::trials(count, seed).into_iter().chain(large).map(answered).collect();
    for (trial, said) in &chosen {
        kinds.note(trial, said, WANTED);
    }
    let pool = scripts::trials(POOL, seed.wrapping_add(1)).into_iter().map(answered);
    chosen.extend(pool.filter(|(trial, said)| kinds.note(trial, said, WANTED)));
    (chosen, kinds)
}

/// Makes one expected number wrong in the first vector of each sort, and tells how many these are.
fn spoil(vectors: &mut [(Trial, Said)]) -> usize {
    let mut sorts = HashSet::new();
    for (_, said) in vectors {
        if sorts.insert(discriminant(said)) {
            make_wrong(said);
        }
    }
    sorts.len()
}

fn make_wrong(said: &mut Said) {
    match said {
        Said::Holds(holds) => *holds = !*holds,
        Said::Outcome(outcome) => outcome.answer.slot += 1,
        Said::Meant { list, .. } => list.push(1),
        Said::Moved { cursor, .. } => *cursor += 1,
        Said::Entered { entry: Entry::Occupied(slot) | Entry::Vacant(slot, _), .. } => *slot += 1,
        Said::Slot(slot) => *slot += 1,
        Said::Read(reading) => reading.key += 1,
        Said::Batched(batch) => batch.count += 1,
        Said::Bytes(bytes) => bytes.push(0),
    }
}
