//! W1 to W6 of 01, each part tested as it is stated.

use crate::lent::{Lent, Side};

type Rule = (&'static str, fn(&Lent) -> bool);

/// A later stage reads the arrays in ways that only the earlier ones make sense of.
const STAGES: [&[Rule]; 4] = [
    &[("W1 lengths", lengths), ("W1 capacity", capacity)],
    &[("W1 root above C", root_fits), ("W2", unlinked_are_bare), ("W3 child above C", children_fit)],
    &[
        ("W3 child unlinked", children_are_linked),
        ("W3 child of another", children_know_parent),
        ("W3 equal children", children_differ),
        ("W3 root red", root_is_black),
        ("W3 root below another", root_is_on_top),
        ("W3 no root", empty_without_root),
        ("W3 unreached", all_are_reached),
    ],
    &[("W4", keys_rise), ("W5", reds_are_apart), ("W6", blacks_are_even)],
];

/// The rules that the lent numbers break, of the first stage that has any.
pub fn broken(lent: &Lent) -> Vec<&'static str> {
    let of_stage = |stage: &[Rule]| -> Vec<_> { stage.iter().filter(|(_, holds)| !holds(lent)).map(|r| r.0).collect() };
    STAGES.iter().map(|stage| of_stage(stage)).find(|names| !names.is_empty()).unwrap_or_default()
}

pub fn holds(lent: &Lent) -> bool {
    broken(lent).is_empty()
}

fn lengths(lent: &Lent) -> bool {
    let capacity = lent.pc.len();
    lent.left.len() == capacity && lent.right.len() == capacity && lent.key.len() == capacity
}

fn capacity(lent: &Lent) -> bool {
    lent.pc.len() <= 2048
}

fn root_fits(lent: &Lent) -> bool {
    lent.root <= lent.capacity()
}

fn children(lent: &Lent, slot: u32) -> [u32; 2] {
    [lent.child(Side::Left, slot), lent.child(Side::Right, slot)]
}

fn linked(lent: &Lent) -> impl Iterator<Item = u32> + '_ {
    lent.slots().filter(|&slot| lent.is_linked(slot))
}

fn unlinked_are_bare(lent: &Lent) -> bool {
    lent.slots().all(|slot| lent.is_linked(slot) || children(lent, slot) == [0, 0])
}

/// Every child number of a linked slot that isn't 0 passes the test, as child and parent.
fn each_child(lent: &Lent, test: impl Fn(u32, u32) -> bool) -> bool {
    linked(lent).all(|slot| children(lent, slot).into_iter().all(|child| child == 0 || test(child, slot)))
}

fn children_fit(lent: &Lent) -> bool {
    each_child(lent, |child, _| child <= lent.capacity())
}

fn children_are_linked(lent: &Lent) -> bool {
    each_child(lent, |child, _| lent.is_linked(child))
}

fn children_know_parent(lent: &Lent) -> bool {
    each_child(lent, |child, slot| lent.parent(child) == slot)
}

fn children_differ(lent: &Lent) -> bool {
    linked(lent).map(|slot| children(lent, slot)).all(|[left, right]| left != right || left == 0)
}

fn root_is_black(lent: &Lent) -> bool {
    lent.root == 0 || !lent.is_red(lent.root)
}

fn root_is_on_top(lent: &Lent) -> bool {
    lent.root == 0 || lent.parent(lent.root) == 0
}

fn empty_without_root(lent: &Lent) -> bool {
    lent.root != 0 || linked(lent).next().is_none()
}

fn all_are_reached(lent: &Lent) -> bool {
    let mut reached = vec![false; lent.pc.len() + 1];
    let mut waiting = vec![lent.root];
    while let Some(slot) = waiting.pop() {
        if slot != 0 && !reached[slot as usize] {
            reached[slot as usize] = true;
            waiting.extend(children(lent, slot));
        }
    }
    lent.root == 0 || linked(lent).all(|slot| reached[slot as usize])
}

fn keys_rise(lent: &Lent) -> bool {
    lent.order().windows(2).all(|pair| lent.key_of(pair[0]) <= lent.key_of(pair[1]))
}

fn reds_are_apart(lent: &Lent) -> bool {
    each_child(lent, |child, slot| !(lent.is_red(slot) && lent.is_red(child)))
}

fn blacks_are_even(lent: &Lent) -> bool {
    let mut counts = Vec::new();
    ways(lent, lent.root, 0, &mut counts);
    counts.windows(2).all(|pair| pair[0] == pair[1])
}

/// The black nodes on each way from a slot to a missing child, `above` of them being met before it.
fn ways(lent: &Lent, slot: u32, above: u32, counts: &mut Vec<u32>) {
    if slot == 0 {
        counts.push(above);
        return;
    }
    let met = above + u32::from(!lent.is_red(slot));
    children(lent, slot).into_iter().for_each(|child| ways(lent, child, met, counts));
}
