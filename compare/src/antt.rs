//! Trials, and what is said to them, as terms of the model.

use crate::lent::{Answer, Code, Command, Entry, Lent, Operation, Side};
use crate::trials::{Link, Said, Trial};

pub fn list<T: ToString>(items: impl IntoIterator<Item = T>) -> String {
    let mut text: String = items.into_iter().map(|item| item.to_string() + " ∷ ").collect();
    text.push_str("[]");
    text
}

fn code(code: Code) -> &'static str {
    match code {
        Code::Done => "done",
        Code::Damaged => "damaged",
        Code::BadSlot => "bad_slot",
        Code::AlreadyLinked => "already_linked",
        Code::NotLinked => "not_linked",
        Code::OutOfOrder => "out_of_order",
        Code::NullCursor => "null_cursor",
        Code::Stale => "stale",
        Code::BadRecord => "bad_record",
        Code::BadLength => "bad_length",
        Code::Short => "short",
        Code::BadCode => "bad_code",
    }
}

fn side(side: Side) -> &'static str {
    match side {
        Side::Left => "lft",
        Side::Right => "rgt",
    }
}

fn lent(lent: &Lent) -> String {
    let arrays = [list(&lent.left), list(&lent.right), list(&lent.pc), list(&lent.key)];
    format!("(lent ({}) ({}) ({}) ({}) {})", arrays[0], arrays[1], arrays[2], arrays[3], lent.root)
}

fn name(operation: Operation) -> &'static str {
    match operation {
        Operation::Insert => "insert",
        Operation::OrInsert => "or_insert",
        Operation::Find => "find",
        Operation::LowerBound => "lower_bound",
        Operation::UpperBound => "upper_bound",
        Operation::Remove => "remove",
        Operation::Next => "next",
        Operation::Prev => "prev",
        Operation::InsertAfter => "insert_after",
        Operation::InsertBefore => "insert_before",
        Operation::ReplaceWith => "replace_with",
        Operation::Clear => "clear",
    }
}

/// Only the fields that the operation has.
fn command(command: &Command) -> String {
    let operation = command.operation;
    let mut text = format!("({}", name(operation));
    let fields = [
        (operation.has_kind(), u64::from(command.kind)),
        (operation.has_position(), u64::from(command.position)),
        (operation.has_slot(), u64::from(command.slot)),
        (operation.has_key(), command.key),
    ];
    for (_, field) in fields.iter().filter(|(has, _)| *has) {
        text.push_str(&format!(" {field}"));
    }
    text + ")"
}

fn entry(entry: &Entry) -> String {
    match entry {
        Entry::Occupied(slot) => format!("(occupied {slot})"),
        Entry::Vacant(parent, at) => format!("(vacant {parent} {})", side(*at)),
    }
}

fn links(links: &[Link]) -> String {
    list(links.iter().map(|(left, right, pc)| format!("(link {left} {right} {pc})")))
}

fn answer(answer: &Answer) -> String {
    let Answer { code: c, probes, slot } = answer;
    format!("record {{ code = {}; probes = {probes}; slot = {slot} }}", code(*c))
}

pub fn trial(trial: &Trial) -> String {
    match trial {
        Trial::Check(m) => format!("tested {}", lent(m)),
        Trial::Call { command: c, before } => format!("call {} {}", command(c), lent(before)),
        Trial::Meant { command: c, before } => format!("meant {} {}", command(c), lent(before)),
        Trial::Move { side: at, cursor, lent: m } => format!("move {} {cursor} {}", side(*at), lent(m)),
        Trial::Entry { key, lent: m } => format!("enter {key} {}", lent(m)),
        Trial::OrInsert { entry: e, slot, key, before } => {
            format!("or_insert_at {} {slot} {key} {}", entry(e), lent(before))
        }
        Trial::End { side: at, links: l, start } => format!("end {} ({}) {start}", side(*at), links(l)),
        Trial::Line(line) => format!("line ({})", list(line)),
        Trial::Batch { input, buffer, before } => {
            format!("batched ({}) ({}) {}", list(input), list(buffer), lent(before))
        }
        Trial::Program(input) => format!("run ({})", list(input)),
    }
}

pub fn said(said: &Said) -> String {
    match said {
        Said::Holds(holds) => format!("of_check {holds}"),
        Said::Outcome(o) => {
            let Answer { code: c, probes, slot } = o.answer;
            format!("of_call (outcome {} {probes} {slot} {})", code(c), lent(&o.after))
        }
        Said::Meant { list: l, keys, halfway } => {
            format!("of_meaning ({}) ({}) {}", list(l), list(keys), lent(halfway))
        }
        Said::Moved { answer: a, cursor } => {
            format!("of_move (record {{ answer = {}; cursor = {cursor} }})", answer(a))
        }
        Said::Entered { code: c, entry: e } => {
            format!("of_entry (record {{ code = {}; entry = {} }})", code(*c), entry(e))
        }
        Said::Slot(slot) => format!("of_end {slot}"),
        Said::Read(r) => {
            let part = list(&r.part);
            format!("of_line (record {{ code = {}; key = {}; part = {part} }})", code(r.code), r.key)
        }
        Said::Batched(b) => {
            let (buffer, after) = (list(&b.buffer), lent(&b.after));
            let fields = format!("code = {}; count = {}; buffer = {buffer}; after = {after}", code(b.code), b.count);
            format!("of_batch (record {{ {fields} }})")
        }
        Said::Bytes(bytes) => format!("of_run ({})", list(bytes)),
    }
}
