//! The rules of 01 for single calls, written from its text: refusals in their order, probes, keys, the list meaning.
//! What an accepted command makes of links and colours comes from the crate, and is held against the list meaning; the
//! probes are held against the comparisons that the crate makes.

use crate::lent::{Answer, Code, Command, Entry, Lent, Operation, Outcome, Side};
use crate::oracle::Oracle;
use crate::wellformed;

/// A single call.
pub fn perform(command: &Command, before: &Lent) -> Outcome {
    if wellformed::holds(before) {
        operate(command, before)
    } else {
        refused(Code::Damaged, before)
    }
}

/// The same on arrays that are known to be well formed.
pub fn operate(command: &Command, before: &Lent) -> Outcome {
    match refusals(command, before).first() {
        Some(&code) => refused(code, before),
        None => accept(command, before, &mut Oracle::load(before)),
    }
}

/// The same where the crate's tree, which holds just these numbers, lives on.
pub fn operate_on(tree: &mut Oracle, command: &Command, before: &Lent) -> Outcome {
    match refusals(command, before).first() {
        Some(&code) => refused(code, before),
        None => accept(command, before, tree),
    }
}

/// The library's `entry`.
pub fn entry(key: u64, lent: &Lent) -> (Code, Entry) {
    if wellformed::holds(lent) {
        (Code::Done, entry_now(key, lent))
    } else {
        (Code::Damaged, Entry::Vacant(0, Side::Right))
    }
}

/// The library's `or_insert` with an entry.
pub fn or_insert(entry: Entry, slot: u32, key: u64, before: &Lent) -> Outcome {
    let command = Command { operation: Operation::OrInsert, kind: 0, position: 0, slot, key };
    if !wellformed::holds(before) {
        return refused(Code::Damaged, before);
    }
    match entry_refusals(entry, slot, key, before).first() {
        Some(&code) => refused(code, before),
        None => accept(&command, before, &mut Oracle::load(before)),
    }
}

/// Every refusal of `or_insert` on well-formed arrays that there is a reason for, in their order: new slot, 7.
pub fn entry_refusals(entry: Entry, slot: u32, key: u64, lent: &Lent) -> Vec<Code> {
    let stale = if entry == entry_now(key, lent) { Code::Done } else { Code::Stale };
    [slot_refusal(slot, lent), stale].into_iter().filter(|&code| code != Code::Done).collect()
}

pub fn refused(code: Code, before: &Lent) -> Outcome {
    Outcome { answer: Answer { code, probes: 0, slot: 0 }, after: before.clone() }
}

// ---- refusals

/// Every refusal that there is a reason for, in their order: 8, position, new slot, 5. Where a position is refused, the
/// order of keys can't be told.
pub fn refusals(command: &Command, lent: &Lent) -> Vec<Code> {
    let operation = command.operation;
    let kind = if operation.has_kind() && command.kind > 2 { Code::BadRecord } else { Code::Done };
    let position = if operation.has_position() { position_refusal(command, lent) } else { Code::Done };
    let slot = if operation.has_slot() { slot_refusal(command.slot, lent) } else { Code::Done };
    let order = if position == Code::Done && !fits(command, lent) { Code::OutOfOrder } else { Code::Done };
    [kind, position, slot, order].into_iter().filter(|&code| code != Code::Done).collect()
}

fn position_refusal(command: &Command, lent: &Lent) -> Code {
    let needs_node = matches!(command.operation, Operation::Remove | Operation::ReplaceWith);
    match command.position {
        position if position > lent.capacity() => Code::BadSlot,
        0 if needs_node => Code::NullCursor,
        position if position != 0 && !lent.is_linked(position) => Code::NotLinked,
        _ => Code::Done,
    }
}

fn slot_refusal(slot: u32, lent: &Lent) -> Code {
    if slot == 0 || slot > lent.capacity() {
        Code::BadSlot
    } else if lent.is_linked(slot) {
        Code::AlreadyLinked
    } else {
        Code::Done
    }
}

/// Whether a key placed by a cursor lies between the keys of its neighbours to be.
fn fits(command: &Command, lent: &Lent) -> bool {
    let (position, order) = (command.position, lent.order());
    let (before, after) = match command.operation {
        Operation::InsertAfter => (position, next_in(position, &order)),
        Operation::InsertBefore => (prev_in(position, &order), position),
        Operation::ReplaceWith => (prev_in(position, &order), next_in(position, &order)),
        _ => (0, 0),
    };
    (before == 0 || lent.key_of(before) <= command.key) && (after == 0 || command.key <= lent.key_of(after))
}

// ---- the descent

/// Where the comparison with a node's key sends the descent; nowhere if it ends there.
fn step(command: &Command, current: u64) -> Option<Side> {
    let key = command.key;
    let left = match (command.operation, command.kind) {
        (Operation::OrInsert | Operation::Find, _) if key == current => return None,
        (Operation::LowerBound, 0) => true,
        (Operation::UpperBound, 0) => false,
        (Operation::LowerBound, 1) | (Operation::UpperBound, 2) => key <= current,
        _ => key < current,
    };
    Some(if left { Side::Left } else { Side::Right })
}

/// The nodes on the path from the root, and the side to which the last of them sends it.
fn descent(command: &Command, lent: &Lent) -> (Vec<u32>, Option<Side>) {
    let (mut path, mut sent, mut slot) = (Vec::new(), Some(Side::Right), lent.root);
    while slot != 0 {
        path.push(slot);
        sent = step(command, lent.key_of(slot));
        slot = sent.map_or(0, |side| lent.child(side, slot));
    }
    (path, sent)
}

fn probes(command: &Command, lent: &Lent) -> u32 {
    if command.operation as u8 <= 5 {
        descent(command, lent).0.len() as u32
    } else {
        0
    }
}

fn entry_now(key: u64, lent: &Lent) -> Entry {
    let find = Command { operation: Operation::Find, kind: 0, position: 0, slot: 0, key };
    let (path, sent) = descent(&find, lent);
    let last = path.last().copied().unwrap_or(0);
    match sent {
        None => Entry::Occupied(last),
        Some(side) => Entry::Vacant(last, side),
    }
}

// ---- accepted commands

fn accept(command: &Command, before: &Lent, tree: &mut Oracle) -> Outcome {
    let (slot, compared) = tree.run_counted(command);
    let after = tree.read();
    let (answer, list) = meaning(command, before);
    let told = format!("01 and the crate differ on {command:?} at {before:?}");
    assert_eq!((slot, after.order()), (answer, list), "{told}");
    assert_eq!(after.key, keys_after(command, before, &after), "{told}");
    assert!(wellformed::holds(&after), "{told}");
    let probes = probes(command, before);
    let unbounded = command.operation.has_kind() && command.kind == 0;
    assert_eq!(compared, if unbounded { 0 } else { probes }, "{told}");
    Outcome { answer: Answer { code: Code::Done, probes, slot }, after }
}

/// The answered slot and the in-order list afterwards, by "Operations".
pub fn meaning(command: &Command, lent: &Lent) -> (u32, Vec<u32>) {
    let Command { operation, position, slot, key, .. } = *command;
    let list = lent.order();
    let place = |index: usize| [&list[..index], &[slot][..], &list[index..]].concat();
    let index = list.iter().position(|&s| s == position);
    let upper = list.iter().filter(|&&s| lent.key_of(s) <= key).count();
    match operation {
        Operation::Insert => (slot, place(upper)),
        Operation::OrInsert => match entry_now(key, lent) {
            Entry::Occupied(found) => (found, list),
            Entry::Vacant(..) => (slot, place(upper)),
        },
        Operation::Find | Operation::LowerBound | Operation::UpperBound => (searched(command, lent), list),
        Operation::Next => (next_in(position, &list), list),
        Operation::Prev => (prev_in(position, &list), list),
        Operation::Remove => (next_in(position, &list), list.iter().copied().filter(|&s| s != position).collect()),
        Operation::InsertAfter => (slot, place(index.map_or(0, |i| i + 1))),
        Operation::InsertBefore => (slot, place(index.unwrap_or(list.len()))),
        Operation::ReplaceWith => (slot, list.iter().map(|&s| if s == position { slot } else { s }).collect()),
        Operation::Clear => (0, Vec::new()),
    }
}

fn searched(command: &Command, lent: &Lent) -> u32 {
    let (list, key) = (lent.order(), command.key);
    let found = match (command.operation, command.kind) {
        (Operation::LowerBound, 0) => list.first(),
        (Operation::LowerBound, 1) => list.iter().find(|&&s| lent.key_of(s) >= key),
        (Operation::LowerBound, _) => list.iter().find(|&&s| lent.key_of(s) > key),
        (Operation::UpperBound, 0) => list.last(),
        (Operation::UpperBound, 1) => list.iter().rfind(|&&s| lent.key_of(s) <= key),
        (Operation::UpperBound, _) => list.iter().rfind(|&&s| lent.key_of(s) < key),
        _ => match entry_now(key, lent) {
            Entry::Occupied(slot) => return slot,
            Entry::Vacant(..) => None,
        },
    };
    found.copied().unwrap_or(0)
}

/// A placed key is stored where its slot was hung; every other key stays.
fn keys_after(command: &Command, before: &Lent, after: &Lent) -> Vec<u64> {
    let mut keys = before.key.clone();
    let hung = |slot: u32| !before.is_linked(slot) && after.is_linked(slot);
    if command.operation.has_slot() && hung(command.slot) {
        keys[command.slot as usize - 1] = command.key;
    }
    keys
}

fn next_in(position: u32, list: &[u32]) -> u32 {
    let from = list.iter().position(|&slot| slot == position).map_or(0, |index| index + 1);
    list.get(from).copied().unwrap_or(0)
}

fn prev_in(position: u32, list: &[u32]) -> u32 {
    let end = list.iter().position(|&slot| slot == position).unwrap_or(list.len());
    list[..end].last().copied().unwrap_or(0)
}
