//! Which kinds of case the trials meet: every code of every operation, every rule that can be broken, every way
//! through hanging and removal.

use std::collections::BTreeMap;

use crate::batch;
use crate::halfway;
use crate::lent::{Answer, Code, Command, Entry, Lent, Operation, Outcome, Side};
use crate::rules;
use crate::trials::{Said, Trial};
use crate::wellformed;

/// How often each kind of case has been met.
#[derive(Clone, Default)]
pub struct Kinds(BTreeMap<String, usize>);

impl Kinds {
    pub fn len(&self) -> usize {
        self.0.len()
    }

    /// The cases of hanging and removal among them.
    pub fn repairs(&self) -> Vec<&str> {
        let parts = ["hang ", "remove ", "repair "];
        self.0.keys().map(String::as_str).filter(|kind| parts.iter().any(|part| kind.starts_with(part))).collect()
    }

    /// Adds what a trial meets, and tells whether one kind of it was met fewer than `wanted` times before.
    pub fn note(&mut self, trial: &Trial, said: &Said, wanted: usize) -> bool {
        let mut rare = false;
        for kind in kinds(trial, said) {
            let times = self.0.entry(kind).or_default();
            rare |= *times < wanted;
            *times += 1;
        }
        rare
    }
}

fn kinds(trial: &Trial, said: &Said) -> Vec<String> {
    match (trial, said) {
        (Trial::Check(lent), _) => vec![format!("check: {}", broken_rules(lent))],
        (Trial::Call { command, before }, Said::Outcome(outcome)) => of_call(command, before, outcome),
        (Trial::Meant { command, before }, _) => match command.operation {
            Operation::Remove => vec![format!("meant {}", of_splice(before, command.position))],
            operation => vec![format!("meant {operation:?}{}{}", at_null(command), equal_keys(command, before))],
        },
        (Trial::OrInsert { entry, slot, key, before }, _) => of_or_insert(*entry, *slot, *key, before),
        (Trial::Entry { .. }, Said::Entered { code, entry }) => vec![format!("entry {} {code:?}", variant(entry))],
        (Trial::Move { side, .. }, Said::Moved { answer, .. }) => vec![format!("move {side:?} {:?}", answer.code)],
        (Trial::Line(_), Said::Read(reading)) => vec![format!("line {:?} {}", reading.code, reading.part.len())],
        (Trial::Batch { input, buffer, before }, Said::Batched(told)) => {
            let mut kinds = vec![format!("batch {:?}", batch::refusals(input, buffer, before))];
            let answers = told.buffer.chunks(batch::ANSWER).take(told.count);
            kinds.extend(answers.map(|answer| format!("record answered {}", answer[2])));
            kinds.extend(input.chunks_exact(batch::RECORD).take(told.count).flat_map(used_bytes));
            kinds
        }
        _ => Vec::new(),
    }
}

/// The places of a record where a byte that isn't 0 counts.
fn used_bytes(record: &[u8]) -> Vec<String> {
    let Some(command) = batch::command(record) else { return Vec::new() };
    let (operation, mut used) = (command.operation, Vec::new());
    let fields = [
        (operation.has_kind(), 3..4),
        (operation.has_position(), 4..6),
        (operation.has_slot(), 6..8),
        (operation.has_key(), 8..16),
    ];
    for (_, places) in fields.into_iter().filter(|(has, _)| *has) {
        used.extend(places.filter(|&place| record[place] != 0).map(|place| format!("record byte {place}")));
    }
    used
}

fn at_null(command: &Command) -> &'static str {
    if command.operation.has_position() && command.position == 0 {
        " at 0"
    } else {
        ""
    }
}

/// How many slots have the command's key: none, one or more.
fn equal_keys(command: &Command, lent: &Lent) -> &'static str {
    let equal = lent.order().iter().filter(|&&slot| lent.key_of(slot) == command.key).count();
    match equal {
        _ if !command.operation.has_key() => "",
        0 => " without an equal key",
        1 => " with an equal key",
        _ => " with equal keys",
    }
}

fn variant(entry: &Entry) -> &'static str {
    if matches!(entry, Entry::Occupied(_)) {
        "occupied"
    } else {
        "vacant"
    }
}

fn of_or_insert(entry: Entry, slot: u32, key: u64, before: &Lent) -> Vec<String> {
    let (code, now) = rules::entry(key, before);
    if code == Code::Damaged {
        return vec!["or_insert damaged".to_string()];
    }
    let other = match (entry, now) {
        _ if entry == now => "the same",
        (Entry::Vacant(parent, _), Entry::Vacant(place, _)) if parent == place => "another side",
        _ if variant(&entry) == variant(&now) => "another slot",
        _ => "another variant",
    };
    let refusals = rules::entry_refusals(entry, slot, key, before);
    vec![format!("or_insert {} {other} {refusals:?}", variant(&entry))]
}

fn of_call(command: &Command, before: &Lent, outcome: &Outcome) -> Vec<String> {
    let Answer { code, slot, .. } = outcome.answer;
    let operation = command.operation;
    if code == Code::Damaged {
        return vec![format!("{operation:?} damaged"), format!("broken: {}", broken_rules(before))];
    }
    let mut kinds = vec![format!("{operation:?} {:?}{}", rules::refusals(command, before), at_null(command))];
    if code != Code::Done {
        return kinds;
    }
    let kind = if operation.has_kind() { command.kind } else { 0 };
    kinds.push(format!("{operation:?} kind {kind}{}", equal_keys(command, before)));
    match operation {
        Operation::Remove => of_removal(before, command.position, &mut kinds),
        Operation::ReplaceWith => {}
        _ if operation.has_slot() && slot == command.slot => of_hanging(command, before, &mut kinds),
        _ => {}
    }
    kinds
}

/// The rules that the lent numbers break, by name.
fn broken_rules(lent: &Lent) -> String {
    let broken = wellformed::broken(lent);
    let rules = if broken.len() <= 2 { broken.join(", ") } else { format!("{}, ..", broken[0]) };
    let falls = if rules == "W4" { fall(lent) } else { "" };
    format!("{rules}{falls}")
}

/// How the first two keys that fall lie in the tree.
fn fall(lent: &Lent) -> &'static str {
    let list = lent.order();
    let falls = |pair: &&[u32]| lent.key_of(pair[0]) > lent.key_of(pair[1]);
    match list.windows(2).find(falls).expect("keys fall") {
        [first, second] if lent.parent(*first) == *second => " to the parent",
        [first, second] if lent.parent(*second) == *first => " to the child",
        [first, _] if lent.child(Side::Right, *first) == 0 => " to a further ancestor",
        _ => " to a further descendant",
    }
}

fn opposite(side: Side) -> Side {
    if side == Side::Left {
        Side::Right
    } else {
        Side::Left
    }
}

fn side_of(lent: &Lent, slot: u32) -> Side {
    if lent.child(Side::Left, lent.parent(slot)) == slot {
        Side::Left
    } else {
        Side::Right
    }
}

fn is_red(lent: &Lent, slot: u32) -> bool {
    slot != 0 && lent.is_red(slot)
}

fn of_hanging(command: &Command, lent: &Lent, kinds: &mut Vec<String>) {
    let Some((mut parent, mut side)) = halfway::place(command, lent) else {
        kinds.push("hang first".to_string());
        return;
    };
    let mut step = 1;
    while is_red(lent, parent) {
        let (above, at) = (lent.parent(parent), side_of(lent, parent));
        let bend = if at == side { "outer" } else { "inner" };
        if !is_red(lent, lent.child(opposite(at), above)) {
            kinds.push(format!("hang step {step} {bend} {at:?}"));
            return;
        }
        kinds.push(format!("hang step {step} red uncle {bend} {at:?}"));
        if above == lent.root {
            kinds.push(format!("hang step {step} up to the root"));
            return;
        }
        (parent, side, step) = (lent.parent(above), side_of(lent, above), step + 1);
    }
    kinds.push(format!("hang step {step} black parent"));
}

fn of_splice(lent: &Lent, node: u32) -> String {
    let taken = halfway::taken(lent, node);
    let moved = match taken {
        _ if taken == node => "the node",
        _ if taken == lent.child(Side::Right, node) => "the right child",
        _ => "further down",
    };
    let color = if lent.is_red(taken) { "red" } else { "black" };
    let child = if halfway::child_of_taken(lent, taken) == 0 { "childless" } else { "with a child" };
    format!("remove {moved} {color} {child}")
}

/// Colours by place are the same in the spliced tree as before, so the ways of the repair can be read off.
fn of_removal(lent: &Lent, node: u32, kinds: &mut Vec<String>) {
    kinds.push(of_splice(lent, node));
    let taken = halfway::taken(lent, node);
    if lent.parent(taken) != 0 && !lent.is_red(taken) && halfway::child_of_taken(lent, taken) == 0 {
        of_repair(lent, taken, kinds);
    }
}

fn of_repair(lent: &Lent, place: u32, kinds: &mut Vec<String>) {
    let (mut place, mut step) = (place, 1);
    loop {
        let (parent, side) = (lent.parent(place), side_of(lent, place));
        let mut sibling = lent.child(opposite(side), parent);
        let mut red_parent = lent.is_red(parent);
        let mut name = format!("repair {} {side:?}", if step == 1 { "first" } else { "later" });
        if lent.is_red(sibling) {
            name += " red sibling";
            (sibling, red_parent) = (lent.child(side, sibling), true);
        }
        let inner = is_red(lent, lent.child(side, sibling));
        let outer = is_red(lent, lent.child(opposite(side), sibling));
        let end = match (inner, outer) {
            (false, false) if red_parent => "none red, red parent",
            (false, false) if parent == lent.root => "none red, at the root",
            (false, false) => "none red, repeat",
            (true, false) => "inner red",
            (false, true) => "outer red",
            (true, true) => "both red",
        };
        kinds.push(format!("{name} {end}"));
        if end != "none red, repeat" {
            return;
        }
        (place, step) = (parent, step + 1);
    }
}
