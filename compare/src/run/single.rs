//! Calls that stand alone. A batch or a line that differs is shown without the records or bytes that it can spare,
//! another call on small trees where it differs there too.

use super::report::{smallest, Report};
use super::talk::{Difference, Talk};
use crate::batch::RECORD;
use crate::lent::{Command, Lent, Operation};
use crate::rules;
use crate::trials::Trial;

pub fn hold(talk: &mut Talk, trials: impl IntoIterator<Item = Trial>) -> Result<(), Report> {
    talk.hold_all(trials).map_err(|difference| shrunk(talk, difference))
}

/// The same difference with less, as far as it can be had.
pub fn shrunk(talk: &mut Talk, difference: Box<Difference>) -> Report {
    match &difference.trial {
        Trial::Batch { input, buffer, before } => {
            let records: Vec<_> = input.chunks(RECORD).map(<[u8]>::to_vec).collect();
            let trial = |records: &[Vec<u8>]| Trial::Batch {
                input: records.concat(),
                buffer: buffer.clone(),
                before: before.clone(),
            };
            let kept = smallest(&records, |some| talk.hold_all([trial(some)]).is_err());
            again(talk, trial(&kept), &difference, kept.len())
        }
        Trial::Line(line) => {
            let kept = smallest(line, |some| talk.hold_all([Trial::Line(some.to_vec())]).is_err());
            again(talk, Trial::Line(kept.clone()), &difference, kept.len())
        }
        trial => match on_small_trees(trial).into_iter().find_map(|trial| talk.hold_all([trial]).err()) {
            Some(smaller) => Report::from(smaller),
            None => Report::from(difference),
        },
    }
}

/// The same call on other lent numbers: no slot, a few free ones, and the keys 1, 2, .. in so many slots.
fn on_small_trees(trial: &Trial) -> Vec<Trial> {
    let insert = |slot: u32| Command { operation: Operation::Insert, kind: 0, position: 0, slot, key: slot.into() };
    let grown = |count| (1..=count).fold(Lent::empty(4), |lent, slot| rules::operate(&insert(slot), &lent).after);
    let small = [Lent::empty(0), Lent::empty(1), Lent::empty(4), grown(1), grown(2), grown(3), grown(4)];
    let on = |lent: Lent| match trial.clone() {
        Trial::Call { command, .. } => Trial::Call { command, before: lent },
        Trial::Entry { key, .. } => Trial::Entry { key, lent },
        Trial::OrInsert { entry, slot, key, .. } => Trial::OrInsert { entry, slot, key, before: lent },
        other => other,
    };
    small.map(on).into()
}

/// What is told of the smaller trial, or of the first one where nothing could be spared.
fn again(talk: &mut Talk, smaller: Trial, first: &Difference, size: usize) -> Report {
    let difference = talk.hold_all([smaller]).err();
    let difference =
        difference.unwrap_or_else(|| Box::new(Difference { trial: first.trial.clone(), told: first.told.clone() }));
    Report { size, ..Report::from(difference) }
}
