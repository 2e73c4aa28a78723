//! 01, "Hanging and removal": the tree between the two halves of a change, hung and not yet climbed from, or spliced
//! and not yet repaired.

use crate::lent::{Command, Lent, Operation, Side};
use crate::rules;

/// The links in the middle of an accepted command, with the keys before it; where nothing is hung or spliced, those
/// after it.
pub fn unmended(command: &Command, before: &Lent) -> Lent {
    let after = Lent { key: before.key.clone(), ..rules::perform(command, before).after };
    let hangs = command.operation.has_slot() && command.operation != Operation::ReplaceWith;
    if command.operation == Operation::Remove {
        spliced(before, command.position)
    } else if hangs && after != *before {
        hung(before, command.slot, place(command, before))
    } else {
        after
    }
}

/// Where an accepted command hangs its slot: the parent and the side; none where the tree is empty.
pub fn place(command: &Command, lent: &Lent) -> Option<(u32, Side)> {
    let list = rules::meaning(command, lent).1;
    let index = list.iter().position(|&slot| slot == command.slot).expect("hung");
    let before = index.checked_sub(1).map(|at| list[at]);
    let right_of = before.filter(|&slot| lent.child(Side::Right, slot) == 0).map(|slot| (slot, Side::Right));
    right_of.or_else(|| list.get(index + 1).map(|&slot| (slot, Side::Left)))
}

fn hung(before: &Lent, slot: u32, place: Option<(u32, Side)>) -> Lent {
    let mut lent = before.clone();
    match place {
        None => {
            lent.root = slot;
            lent.pc[slot as usize - 1] = 1;
        }
        Some((parent, side)) => {
            *child(&mut lent, side, parent) = slot;
            lent.pc[slot as usize - 1] = 2 * parent;
        }
    }
    lent
}

/// The slot that leaves its place when a node is removed: the node itself if it lacks a child, else its next.
pub fn taken(lent: &Lent, node: u32) -> u32 {
    if lent.child(Side::Left, node) == 0 || lent.child(Side::Right, node) == 0 {
        return node;
    }
    let mut slot = lent.child(Side::Right, node);
    while lent.child(Side::Left, slot) != 0 {
        slot = lent.child(Side::Left, slot);
    }
    slot
}

/// Its only child, or 0.
pub fn child_of_taken(lent: &Lent, taken: u32) -> u32 {
    lent.child(Side::Left, taken).max(lent.child(Side::Right, taken))
}

fn spliced(before: &Lent, node: u32) -> Lent {
    let mut lent = before.clone();
    let taken = taken(before, node);
    put(&mut lent, taken, child_of_taken(before, taken));
    if taken != node {
        put(&mut lent, node, taken);
        lent.pc[taken as usize - 1] = lent.pc[node as usize - 1];
        for side in [Side::Left, Side::Right] {
            let moved = lent.child(side, node);
            *child(&mut lent, side, taken) = moved;
            adopt(&mut lent, taken, moved);
        }
    }
    [lent.left[node as usize - 1], lent.right[node as usize - 1], lent.pc[node as usize - 1]] = [0, 0, 0];
    lent
}

/// The slot `new`, or none, takes the place of `old` below its parent.
fn put(lent: &mut Lent, old: u32, new: u32) {
    let parent = lent.parent(old);
    if parent == 0 {
        lent.root = new;
    } else {
        let side = if lent.child(Side::Left, parent) == old { Side::Left } else { Side::Right };
        *child(lent, side, parent) = new;
    }
    adopt(lent, parent, new);
}

/// The slot, if there is one, gets the parent and keeps its colour.
fn adopt(lent: &mut Lent, parent: u32, slot: u32) {
    if slot != 0 {
        lent.pc[slot as usize - 1] = 2 * parent + lent.pc[slot as usize - 1] % 2;
    }
}

fn child(lent: &mut Lent, side: Side, slot: u32) -> &mut u32 {
    match side {
        Side::Left => &mut lent.left[slot as usize - 1],
        Side::Right => &mut lent.right[slot as usize - 1],
    }
}
