//! Scripts: commands one after another on the library and on the crate's tree, which lives on from the first to the
//! last, the two being held together at every step.

use super::report::{smallest, Report};
use super::single;
use super::talk::{Held, Talk};
use crate::lent::{Command, Lent};
use crate::oracle::Oracle;
use crate::rules;
use crate::trials::{Said, Trial};

/// So many steps are made before the library is asked for them.
const AT_ONCE: usize = 64;

/// The crate's tree, and the numbers that it stands for.
struct Living {
    tree: Oracle,
    now: Lent,
}

impl Living {
    fn step(&mut self, command: Command) -> (Trial, Said) {
        let outcome = rules::operate_on(&mut self.tree, &command, &self.now);
        let before = std::mem::replace(&mut self.now, outcome.after.clone());
        (Trial::Call { command, before }, Said::Outcome(outcome))
    }
}

/// Holds the library to a script from `start`; `next` gives the next command for the present numbers.
pub fn hold(talk: &mut Talk, start: &Lent, mut next: impl FnMut(&Lent) -> Option<Command>) -> Result<(), Report> {
    let mut given = Vec::new();
    let record = |lent: &Lent| {
        let command = next(lent)?;
        given.push(command);
        Some(command)
    };
    let held = play(talk, start, record);
    held.map_err(|_| shrunk(talk, start, &given))
}

fn play(talk: &mut Talk, start: &Lent, mut next: impl FnMut(&Lent) -> Option<Command>) -> Held {
    let mut living = Living { tree: Oracle::load(start), now: start.clone() };
    loop {
        let steps: Vec<_> = (0..AT_ONCE).map_while(|_| next(&living.now).map(|command| living.step(command))).collect();
        if steps.is_empty() {
            return Ok(());
        }
        talk.hold(steps)?;
    }
}

fn replay(talk: &mut Talk, start: &Lent, commands: &[Command]) -> Held {
    let mut commands = commands.iter();
    play(talk, start, |_| commands.next().copied())
}

/// From the empty tree, the fewest commands that still differ; from another start, the one call that does.
fn shrunk(talk: &mut Talk, start: &Lent, commands: &[Command]) -> Report {
    let kept = smallest(commands, |some| replay(talk, start, some).is_err());
    let slots = format!("{} empty slots", start.capacity());
    match replay(talk, start, &kept) {
        Err(difference) if start.root != 0 => single::shrunk(talk, difference),
        Err(difference) => Report::of_list(&slots, &kept, &difference.told),
        Ok(()) => Report::of_list(&slots, commands, "it differs only now and then"),
    }
}
