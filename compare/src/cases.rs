//! The cases of hanging and removal that few slots can reach: every shape of tree is made by hanging a slot at each
//! place and taking out each slot, until no shape is new.

use std::collections::{HashSet, VecDeque};

use crate::coverage::Kinds;
use crate::lent::{Command, Lent, Operation, Side};
use crate::rules;
use crate::trials::{Said, Trial};

/// What all of them meet, and how many shapes there are.
pub fn all(slots: usize) -> (Kinds, usize) {
    let start = Lent::empty(slots);
    let (mut kinds, mut seen, mut waiting) =
        (Kinds::default(), HashSet::from([start.clone()]), VecDeque::from([start]));
    while let Some(before) = waiting.pop_front() {
        for command in changes(&before) {
            let outcome = rules::operate(&command, &before);
            let after = in_order(&outcome.after);
            kinds.note(&Trial::Call { command, before: before.clone() }, &Said::Outcome(outcome), 0);
            if seen.insert(after.clone()) {
                waiting.push_back(after);
            }
        }
    }
    (kinds, seen.len())
}

/// Each slot taken out, and a slot hung at each place, where the slots stand in order and all keys are equal.
fn changes(lent: &Lent) -> Vec<Command> {
    let linked = lent.order().len() as u32;
    let change = |operation, position, slot| Command { operation, kind: 0, position, slot, key: 0 };
    let mut made: Vec<_> = (1..=linked).map(|position| change(Operation::Remove, position, 0)).collect();
    if linked < lent.capacity() {
        made.extend((0..=linked).map(|position| change(Operation::InsertAfter, position, linked + 1)));
    }
    made
}

/// The same shape with its slots numbered in order.
fn in_order(lent: &Lent) -> Lent {
    let list = lent.order();
    let number = |slot: u32| list.iter().position(|&other| other == slot).map_or(0, |index| index as u32 + 1);
    let mut same = Lent::empty(lent.pc.len());
    for (index, &slot) in list.iter().enumerate() {
        same.left[index] = number(lent.child(Side::Left, slot));
        same.right[index] = number(lent.child(Side::Right, slot));
        same.pc[index] = 2 * number(lent.parent(slot)) + u32::from(!lent.is_red(slot));
    }
    same.root = number(lent.root);
    same
}
