//! Lent numbers that are mostly not well formed, each rule being broken alone by some of them.

use crate::lent::Lent;
use crate::random::Random;
use crate::trees;

/// Well-formed arrays with one or two numbers, a length or the balance spoilt.
pub fn arrays(mut lent: Lent, random: &mut Random) -> Lent {
    if random.once_in(5) {
        let nodes = random.below(6);
        return trees::lay(&trees::loose(nodes, true, random), nodes + random.below(2), random);
    }
    for _ in 0..1 + random.below(2) {
        spoil(&mut lent, random);
    }
    lent
}

fn spoil(lent: &mut Lent, random: &mut Random) {
    let capacity = lent.pc.len().min(lent.left.len()).min(lent.right.len()).min(lent.key.len());
    let number = random.below(capacity + 2) as u32;
    let number = if random.once_in(20) { u32::MAX } else { number };
    if capacity == 0 || random.once_in(8) {
        return spoil_whole(lent, number, random);
    }
    let (one, other) = (random.below(capacity), random.below(capacity));
    match random.below(11) {
        0 => lent.left[one] = number,
        1 => lent.right[one] = number,
        2 => lent.right[one] = lent.left[one],
        3 => lent.pc[one] ^= 1,
        4 => lent.pc[one] = number.min(1 << 30) * 2 + random.below(2) as u32,
        5 => lent.pc[one] = 0,
        6 => lent.key[one] = random.below(50) as u64,
        7 => lent.key.swap(one, other),
        8 => std::mem::swap(&mut lent.left[one], &mut lent.right[other]),
        9 => twin(lent, capacity),
        _ => island(lent, one, other),
    }
}

/// A length or the root.
fn spoil_whole(lent: &mut Lent, number: u32, random: &mut Random) {
    match random.below(8) {
        0 => lent.left.push(0),
        1 => lent.right.push(0),
        2 => lent.pc.push(0),
        3 => lent.key.push(0),
        4 => drop(lent.left.pop()),
        5 => drop(lent.right.pop()),
        6 => drop(lent.key.pop()),
        _ => lent.root = number,
    }
}

/// A node whose children are both at the bottom names one of them twice, and all keys are equal: just as many nodes are
/// met as are linked, and nothing else is wrong.
fn twin(lent: &mut Lent, capacity: usize) {
    let last =
        |lent: &Lent, child: u32| (1..=capacity).contains(&(child as usize)) && lent.left[child as usize - 1] == 0;
    if let Some(fork) = (0..capacity).find(|&at| last(lent, lent.left[at]) && last(lent, lent.right[at])) {
        lent.right[fork] = lent.left[fork];
    }
    lent.key.fill(7);
}

/// Slots that are each other's parent and child, which nothing else reaches if they were free.
fn island(lent: &mut Lent, one: usize, other: usize) {
    for (slot, next) in [(one, other), (other, one)] {
        lent.left[slot] = next as u32 + 1;
        lent.pc[slot] = 2 * (next as u32 + 1) + 1;
    }
}
