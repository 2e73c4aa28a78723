//! Holds this repository against the crate that it ports, and against the text of 01. Subcommands:
//! `model` writes vectors for the definitions of crates/model (see `validate` beside this package), `run` compares the
//! compiled library (see `run` there), `vectors` writes records with their answers for a program that replays them,
//! and `bench`, with the feature `linked`, times the library beside the crate (see `bench` there).

mod antt;
mod batch;
#[cfg(feature = "linked")]
mod bench;
mod cases;
mod codes;
mod coverage;
mod damage;
mod halfway;
mod lent;
mod model;
mod oracle;
mod paper;
mod random;
mod rules;
mod run;
mod scripts;
mod stored;
mod trees;
mod trials;
mod vectors;
mod wellformed;

fn main() {
    let words: Vec<String> = std::env::args().skip(1).collect();
    match words.split_first() {
        Some((word, rest)) if word == "model" => model::run(rest),
        Some((word, rest)) if word == "run" => run::run(rest),
        #[cfg(feature = "linked")]
        Some((word, rest)) if word == "bench" => bench::run(rest),
        Some((word, rest)) if word == "vectors" => stored::run(rest),
        _ => {
            eprintln!("usage: compare model|run|vectors|bench ..");
            std::process::exit(2);
        }
    }
}
