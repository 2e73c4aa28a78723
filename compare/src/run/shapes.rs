//! Scripts by shape: keys that rise, fall, come from both ends or are equal, fewer slots with time, a mixture.

use super::report::Report;
use super::script;
use super::talk::Talk;
use crate::lent::{Command, Lent, Operation};
use crate::random::Random;
use crate::scripts;
use crate::trees;

#[derive(Clone, Copy, Debug)]
pub enum Shape {
    Rising,
    Falling,
    BothEnds,
    Equal,
    Shrinking,
    Mixed,
}

pub const SHAPES: [Shape; 6] =
    [Shape::Rising, Shape::Falling, Shape::BothEnds, Shape::Equal, Shape::Shrinking, Shape::Mixed];

/// A script of one shape from the empty tree: slots are hung until none is free, then taken out until half are left,
/// and so on; one command in ten is any command.
pub fn hold(shape: Shape, capacity: usize, steps: usize, talk: &mut Talk, seed: u64) -> Result<(), Report> {
    let mut random = Random::new(seed);
    let (mut step, mut filling) = (0, true);
    script::hold(talk, &Lent::empty(capacity), |lent| {
        step += 1;
        let linked = lent.slots().filter(|&slot| lent.is_linked(slot)).count();
        filling = if filling { linked < capacity } else { linked <= capacity / 2 };
        (step <= steps).then(|| next(shape, step as u64, filling, lent, &mut random))
    })
}

/// A mixture on a tree of many slots, which stays large.
pub fn hold_large(slots: usize, steps: usize, talk: &mut Talk, seed: u64) -> Result<(), Report> {
    let mut random = Random::new(seed);
    let start = loop {
        let tree = trees::random(slots, &mut random);
        let lent = trees::lay(&tree, slots, &mut random);
        if lent.order().len() > slots / 2 {
            break lent;
        }
    };
    let mut step = 0;
    script::hold(talk, &start, |lent| {
        step += 1;
        (step <= steps).then(|| any_but_clear(lent, &mut random))
    })
}

fn next(shape: Shape, step: u64, filling: bool, lent: &Lent, random: &mut Random) -> Command {
    let taking = match shape {
        Shape::Mixed => return scripts::command(lent, random),
        _ if random.once_in(10) => return any_but_clear(lent, random),
        Shape::Shrinking => !filling || random.once_in(3),
        _ => !filling,
    };
    let key = key(shape, step, random);
    let slot = scripts::any_slot(|slot| !lent.is_linked(slot), lent, random);
    let operation = if taking { Operation::Remove } else { random.pick(&[Operation::Insert, Operation::OrInsert]) };
    let operation = if slot != 0 || taking { operation } else { Operation::Find };
    Command { operation, kind: 0, position: taken(shape, lent, random), slot, key }
}

fn any_but_clear(lent: &Lent, random: &mut Random) -> Command {
    let command = scripts::command(lent, random);
    if command.operation == Operation::Clear {
        Command { operation: Operation::Remove, ..command }
    } else {
        command
    }
}

fn key(shape: Shape, step: u64, random: &mut Random) -> u64 {
    match shape {
        Shape::Rising => step,
        Shape::Falling => u64::MAX - step,
        Shape::BothEnds if step & 1 == 0 => u64::MAX - step,
        Shape::BothEnds => step,
        Shape::Equal => 1 << 40,
        Shape::Shrinking | Shape::Mixed => random.below(1000) as u64,
    }
}

/// The slot that is taken out: the first or the last one, the root, or any.
fn taken(shape: Shape, lent: &Lent, random: &mut Random) -> u32 {
    let list = lent.order();
    let slot = match shape {
        Shape::Rising => list.first().copied(),
        Shape::Falling => list.last().copied(),
        Shape::BothEnds => Some(lent.root),
        _ => None,
    };
    slot.unwrap_or_else(|| scripts::any_slot(|slot| lent.is_linked(slot), lent, random))
}
