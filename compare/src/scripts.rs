//! Makes the trials: scripts of commands from empty and from grown trees, every small tree, damaged arrays, entries,
//! lines, batches. The same seed gives the same trials.

use crate::batch;
use crate::damage;
use crate::lent::{Code, Command, Entry, Lent, Operation, Side, OPERATIONS};
use crate::random::Random;
use crate::rules;
use crate::trees;
use crate::trials::Trial;

type Maker = fn(&mut Random) -> Vec<Trial>;

/// About so many trials, in fixed shares.
pub fn trials(count: usize, seed: u64) -> Vec<Trial> {
    let random = &mut Random::new(seed);
    let makers: [(usize, Maker); 9] =
        [(5, script), (1, tall), (4, damaged), (1, meant), (1, moved), (2, entries), (1, end), (1, line), (1, batched)];
    let mut made = small_trees(count / 5, random);
    for (share, maker) in makers {
        let mut part = Vec::new();
        while part.len() < count * share / 20 {
            part.extend(maker(random));
        }
        made.extend(part);
    }
    made
}

/// The few trials on many slots: the program, and a descent down a way of 2 × `blacks` nodes.
pub fn large(blacks: usize, seed: u64) -> Vec<Trial> {
    let random = &mut Random::new(seed);
    let cut = 1 + random.below(15);
    vec![program(0, random), program(cut, random), tallest(blacks, random)]
}

/// The first trials on all red-black trees, by size: each node removed, and a slot hung at each place.
fn small_trees(count: usize, random: &mut Random) -> Vec<Trial> {
    let mut made = Vec::new();
    for tree in (0..).flat_map(trees::all) {
        let before = trees::lay(&tree, 8, random);
        let Some(slot) = before.slots().find(|&slot| !before.is_linked(slot)) else { return made };
        let mut positions = before.order();
        for &position in &positions {
            let command = Command { operation: Operation::Remove, kind: 0, position, slot, key: 0 };
            made.push(Trial::Call { command, before: before.clone() });
        }
        positions.push(0);
        for position in positions {
            let key = if position == 0 { 0 } else { before.key_of(position) };
            let command = Command { operation: Operation::InsertAfter, kind: 0, position, slot, key };
            made.push(Trial::Call { command, before: before.clone() });
        }
        if made.len() >= count {
            return made;
        }
    }
    made
}

/// Well-formed arrays: mostly few slots, sometimes none of them linked.
fn start(random: &mut Random) -> Lent {
    let capacity = random.pick(&[0, 1, 2, 3, 4, 5, 6, 7, 8, 8, 8, 16]);
    let most = if random.once_in(4) { 0 } else { capacity };
    let tree = trees::random(most, random);
    trees::lay(&tree, capacity, random)
}

/// A removal or an insertion in a larger tree.
fn tall(random: &mut Random) -> Vec<Trial> {
    let tree = trees::random(24, random);
    let before = trees::lay(&tree, 25, random);
    let operation = random.pick(&[Operation::Remove, Operation::Remove, Operation::Insert]);
    vec![Trial::Call { command: Command { operation, ..command(&before, random) }, before }]
}

/// A descent down the longest way of a tall tree. With 10 black nodes on each way it nearly fills 2,048 slots.
fn tallest(blacks: usize, random: &mut Random) -> Trial {
    let before = trees::lay(&trees::tallest(blacks), 2 << blacks, random);
    let command = Command { operation: Operation::LowerBound, kind: 0, position: 0, slot: 0, key: 0 };
    Trial::Call { command, before }
}

/// Commands one after another.
fn script(random: &mut Random) -> Vec<Trial> {
    let mut made = Vec::new();
    let mut before = start(random);
    for _ in 0..10 + random.below(31) {
        let command = command(&before, random);
        let after = rules::perform(&command, &before).after;
        made.push(Trial::Call { command, before });
        before = after;
    }
    made
}

/// A command that is accepted more often than not.
pub fn command(lent: &Lent, random: &mut Random) -> Command {
    let operation =
        if random.once_in(3) { random.pick(&[Operation::Insert, Operation::Remove]) } else { random.pick(&OPERATIONS) };
    let operation = if operation == Operation::Clear && !random.once_in(4) { Operation::OrInsert } else { operation };
    let position = position(lent, random);
    let kind = random.pick(&[0, 1, 1, 1, 2, 2, 2, 3, 255]);
    Command { operation, kind, position, slot: slot(lent, random), key: key(lent, position, random) }
}

/// One of the slots that are wanted, or 0.
pub fn any_slot(wanted: impl Fn(u32) -> bool, lent: &Lent, random: &mut Random) -> u32 {
    let fitting: Vec<u32> = lent.slots().filter(|&slot| wanted(slot)).collect();
    if fitting.is_empty() {
        0
    } else {
        random.pick(&fitting)
    }
}

/// A number that names no slot, or may not.
fn odd_slot(lent: &Lent, random: &mut Random) -> u32 {
    let capacity = lent.capacity();
    let low_byte = any_slot(|_| true, lent, random);
    random.pick(&[0, capacity, capacity + 1, 256 + low_byte, 256 + low_byte, u32::MAX])
}

pub fn position(lent: &Lent, random: &mut Random) -> u32 {
    match random.below(12) {
        0 => 0,
        1 => odd_slot(lent, random),
        2 => any_slot(|slot| !lent.is_linked(slot), lent, random),
        _ => any_slot(|slot| lent.is_linked(slot), lent, random),
    }
}

pub fn slot(lent: &Lent, random: &mut Random) -> u32 {
    match random.below(12) {
        0 => odd_slot(lent, random),
        1 => any_slot(|slot| lent.is_linked(slot), lent, random),
        _ => any_slot(|slot| !lent.is_linked(slot), lent, random),
    }
}

/// A key near those of the tree, often that of the position.
pub fn key(lent: &Lent, position: u32, random: &mut Random) -> u64 {
    let key_of = |slot: u32| lent.key.get((slot as usize).wrapping_sub(1)).copied().unwrap_or(0);
    let near = any_slot(|slot| lent.is_linked(slot), lent, random);
    match random.below(8) {
        0..=2 => key_of(position),
        3 => key_of(position).saturating_add(1),
        4 => key_of(near),
        5 => key_of(near).saturating_sub(1),
        6 => random.pick(&[0, u64::MAX, key_of(near) | 1 << 32]),
        _ => random.below(30) as u64,
    }
}

fn mostly_fit(random: &mut Random) -> Lent {
    let lent = start(random);
    if random.once_in(7) {
        damage::arrays(lent, random)
    } else {
        lent
    }
}

fn damaged(random: &mut Random) -> Vec<Trial> {
    let before = damage::arrays(start(random), random);
    vec![Trial::Check(before.clone()), Trial::Call { command: command(&before, random), before }]
}

/// What is said of a call, if it is accepted.
fn meant(random: &mut Random) -> Vec<Trial> {
    let before = start(random);
    let command = command(&before, random);
    let accepted = rules::perform(&command, &before).answer.code == Code::Done;
    let made = accepted.then_some(Trial::Meant { command, before });
    made.into_iter().collect()
}

fn moved(random: &mut Random) -> Vec<Trial> {
    let lent = mostly_fit(random);
    vec![Trial::Move { side: side(random), cursor: position(&lent, random), lent }]
}

pub fn side(random: &mut Random) -> Side {
    random.pick(&[Side::Left, Side::Right])
}

/// An entry, then or_insert with it: at once, or for another key, or after another command, or with an invented one.
fn entries(random: &mut Random) -> Vec<Trial> {
    let lent = mostly_fit(random);
    let asked = key(&lent, 0, random);
    let mut entry = rules::entry(asked, &lent).1;
    let (mut key, mut before) = (asked, lent.clone());
    match random.below(6) {
        0 => key = self::key(&lent, 0, random),
        1 => before = rules::perform(&command(&lent, random), &lent).after,
        2 => entry = Entry::Vacant(position(&lent, random), side(random)),
        3 => entry = Entry::Occupied(position(&lent, random)),
        _ => {}
    }
    let slot = slot(&before, random);
    vec![Trial::Entry { key: asked, lent }, Trial::OrInsert { entry, slot, key, before }]
}

/// Link records at random, or in one chain.
fn end(random: &mut Random) -> Vec<Trial> {
    let count = random.below(7) as u32;
    let any = |random: &mut Random| random.below(count as usize + 2) as u32;
    let mut links: Vec<_> = (0..count).map(|_| (any(random), any(random), any(random))).collect();
    let mut chain: Vec<u32> = (1..=count).collect();
    random.shuffle(&mut chain);
    if random.once_in(2) {
        for pair in chain.windows(2) {
            links[pair[0] as usize - 1] = (pair[1], pair[1], 0);
        }
        if let Some(last) = chain.last() {
            let after = random.pick(&[0, 0, count + 1, chain[0]]);
            links[*last as usize - 1] = (after, after, 0);
        }
    }
    let start = if random.once_in(4) { any(random) } else { chain.first().copied().unwrap_or(0) };
    vec![Trial::End { side: side(random), links, start }]
}

/// A line of about the right length, with spaces round it and sometimes a byte that no code has.
pub fn line(random: &mut Random) -> Vec<Trial> {
    let good: Vec<u8> = (b'0'..=b'9').chain(b'A'..=b'Z').chain(b'a'..=b'z').collect();
    let length = random.pick(&[0, 1, 2, 5, 8, 11, 12, 12, 13]);
    let mut part: Vec<u8> = (0..length).map(|_| random.pick(&good)).collect();
    if length != 0 && random.once_in(3) {
        let odd = random.pick(&[0, 9, 31, 32, 33, 45, 47, 58, 64, 91, 96, 123, 128, 255]);
        part[random.below(length)] = odd;
    }
    let spaces = |random: &mut Random| vec![32; random.pick(&[0, 0, 1, 3])];
    vec![Trial::Line([spaces(random), part, spaces(random)].concat())]
}

/// The records of a script, some of them spoilt.
pub fn records(count: usize, lent: &Lent, random: &mut Random) -> Vec<u8> {
    let mut now = lent.clone();
    let mut input = Vec::new();
    for _ in 0..count {
        let command = command(&now, random);
        let mut record = batch::record(&command);
        match random.below(20) {
            0 => record[random.below(2)] ^= 1,
            1 => record[2] = random.pick(&[0, 13, 255]),
            _ => now = rules::perform(&command, &now).after,
        }
        input.extend(record);
    }
    input
}

/// A batch; its length, its buffer or its arrays are sometimes wrong.
pub fn batched(random: &mut Random) -> Vec<Trial> {
    let before = mostly_fit(random);
    let count = random.below(9);
    let mut input = records(count, &before, random);
    if random.once_in(8) {
        input.extend((0..1 + random.below(15)).map(|byte| byte as u8));
    }
    let room = if random.once_in(8) { (6 * count).saturating_sub(1) } else { 6 * count + random.below(8) };
    let buffer = (0..room).map(|_| random.below(256) as u8).collect();
    vec![Trial::Batch { input, buffer, before }]
}

/// A few records for the program, its last slot and the one after that among them, with so many bytes cut off.
fn program(cut: usize, random: &mut Random) -> Trial {
    let mut input = records(4, &Lent::empty(8), random);
    for slot in [2048, 2049] {
        let command = Command { operation: Operation::Insert, kind: 0, position: 0, slot, key: 9 };
        input.extend(batch::record(&command));
    }
    input.extend(records(2, &Lent::empty(8), random));
    input.truncate(input.len() - cut);
    Trial::Program(input)
}
