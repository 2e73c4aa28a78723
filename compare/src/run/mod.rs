//! `compare run`: the compiled library against the crate and against the rules of 01, by running both.

mod batches;
mod extremes;
mod library;
mod lines;
mod parts;
mod pipes;
mod reach;
mod reply;
mod report;
mod script;
mod shapes;
mod single;
mod spoil;
mod talk;

use std::path::PathBuf;
use std::process::exit;

use crate::paper;
use parts::Amount;
use report::Report;
use shapes::Shape;
use spoil::{Plan, Spoiler};
use talk::{Programs, Talk};

/// How much is compared, in tenths: usually, and in the self-test.
const USUAL: usize = 10;
const SELF_TEST: usize = 2;

struct Options {
    amount: Amount,
    self_test: bool,
    programs: Programs,
}

pub fn run(words: &[String]) {
    let Some(options) = options(words) else {
        eprintln!(
            "usage: compare run [--seed S] [--size N] [--self-test] --launch SCRIPT --server PROGRAM [--doors PROGRAM]"
        );
        exit(2);
    };
    paper::hold();
    let told = if options.self_test { self_test(&options) } else { compare(&options) };
    match told {
        Ok(told) => println!("{told}"),
        Err(report) => {
            println!("DIFFERENT: {}", report.text);
            exit(1);
        }
    }
}

fn options(words: &[String]) -> Option<Options> {
    let programs = Programs { launch: PathBuf::new(), server: PathBuf::new(), doors: PathBuf::new() };
    let mut options = Options { amount: Amount { seed: 1, size: USUAL }, self_test: false, programs };
    let mut words = words.iter();
    while let Some(word) = words.next() {
        match word.as_str() {
            "--self-test" => (options.self_test, options.amount.size) = (true, SELF_TEST),
            "--seed" => options.amount.seed = words.next()?.parse().ok()?,
            "--size" => options.amount.size = words.next()?.parse().ok()?,
            "--launch" => options.programs.launch = words.next()?.into(),
            "--server" => options.programs.server = words.next()?.into(),
            "--doors" => options.programs.doors = words.next()?.into(),
            _ => return None,
        }
    }
    Some(options)
}

fn start(options: &Options, spoiler: Spoiler) -> Talk {
    Talk::start(options.programs.clone(), spoiler).unwrap_or_else(|error| {
        eprintln!("compare: the server could not be started: {error}");
        exit(2);
    })
}

fn compare(options: &Options) -> Result<String, Report> {
    let mut talk = start(options, Spoiler::Nothing);
    parts::hold(&mut talk, &options.amount)?;
    let (calls, kinds) = (talk.compared, talk.kinds.len());
    Ok(format!("{calls} calls of {kinds} kinds compared, seed {}: all agree", options.amount.seed))
}

/// Replies are made wrong: just these must be found, and what is shown of one must be as small as can be.
fn self_test(options: &Options) -> Result<String, Report> {
    let mut talk = start(options, Spoiler::OneOfEach(Plan::new(options.amount.seed)));
    parts::hold(&mut talk, &options.amount)?;
    let Spoiler::OneOfEach(plan) = &talk.spoiler else { unreachable!("it stays what it is") };
    if plan.found != plan.made || !plan.missing().is_empty() {
        let text = format!("{} of {} wrong replies found; never made: {:?}", plan.found, plan.made, plan.missing());
        return Err(Report { text, size: 0 });
    }
    let told = format!("{} wrong replies made among {}, and just these found", plan.made, talk.compared);
    let size = smallest_script(options);
    if size != 4 {
        return Err(Report { text: format!("a fault that three slots and a command show is shown with {size}"), size });
    }
    Ok(format!("{told}; a fault shown with the fewest commands"))
}

/// How many commands are shown of a library that answers `next` wrongly in a tree of three.
fn smallest_script(options: &Options) -> usize {
    let mut talk = start(options, Spoiler::HighNext);
    let held = shapes::hold(Shape::Mixed, 12, 2000, &mut talk, options.amount.seed);
    held.err().map_or(0, |report| report.size)
}
