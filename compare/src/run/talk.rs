//! Holds the library's replies against what is said of the trials, and counts what was met.

use std::path::PathBuf;

use super::library::Library;
use super::reply::Reply;
use super::spoil::Spoiler;
use crate::coverage::Kinds;
use crate::trials::{self, Said, Trial};

/// A trial to which the library says something else, and what.
#[derive(Debug)]
pub struct Difference {
    pub trial: Trial,
    pub told: String,
}

pub type Held = Result<(), Box<Difference>>;

/// The programs that the comparison starts.
#[derive(Clone)]
pub struct Programs {
    /// runs a program for the library's processor
    pub launch: PathBuf,
    pub server: PathBuf,
    pub doors: PathBuf,
}

pub struct Talk {
    pub programs: Programs,
    pub spoiler: Spoiler,
    pub compared: usize,
    pub kinds: Kinds,
    library: Library,
}

impl Talk {
    pub fn start(programs: Programs, spoiler: Spoiler) -> std::io::Result<Talk> {
        let library = Library::start(&programs.launch, &programs.server)?;
        Ok(Talk { programs, spoiler, compared: 0, kinds: Kinds::default(), library })
    }

    /// Holds the library to what 01 and the crate say to each of the trials.
    pub fn hold_all(&mut self, trials: impl IntoIterator<Item = Trial>) -> Held {
        let said = |trial: Trial| {
            let said = trials::said(&trial);
            (trial, said)
        };
        self.hold(trials.into_iter().map(said).collect())
    }

    /// Holds it to what is said of each, up to the first difference; differences that were made are only noted.
    pub fn hold(&mut self, trials: Vec<(Trial, Said)>) -> Held {
        let replies = self.library.ask(trials.iter().map(|(trial, _)| trial));
        let answered = replies.len();
        for ((trial, said), mut reply) in trials.iter().zip(replies) {
            self.compared += 1;
            self.kinds.note(trial, said, 0);
            let made = self.spoiler.spoil(trial, &mut reply);
            if let Some(told) = reply.difference(&Reply::expected(trial, said)) {
                if !self.spoiler.expects(made, &told) {
                    return Err(Box::new(Difference { trial: trial.clone(), told }));
                }
            }
        }
        match trials.into_iter().nth(answered) {
            None => Ok(()),
            Some((trial, _)) => Err(Box::new(self.ended_at(trial))),
        }
    }

    fn ended_at(&mut self, trial: Trial) -> Difference {
        self.library = Library::start(&self.programs.launch, &self.programs.server).expect("it was started before");
        Difference { trial, told: "the call ended the program".to_string() }
    }
}
