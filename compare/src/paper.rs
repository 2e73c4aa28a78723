//! 01, "What the desk can try" and the program's example: they must hold of the rules that the model is held against.

use crate::batch;
use crate::codes;
use crate::lent::{Answer, Code, Command, Lent, Operation};
use crate::rules;

pub fn hold() {
    trees();
    searches();
    order();
    lines();
    program();
}

fn call(operation: Operation, kind: u32, position: u32, slot: u32, key: u64) -> Command {
    Command { operation, kind, position, slot, key }
}

fn done(probes: u32, slot: u32) -> Answer {
    Answer { code: Code::Done, probes, slot }
}

/// The keys in the slots 1, 2, .., inserted in this order.
fn inserted(keys: &[u64]) -> Lent {
    (1..).zip(keys).fold(Lent::empty(keys.len() + 1), |lent, (slot, &key)| {
        rules::perform(&call(Operation::Insert, 0, 0, slot, key), &lent).after
    })
}

/// P1, P2, P3.
fn trees() {
    let (three, four) = (inserted(&[1, 2, 3]), inserted(&[1, 2, 3, 4]));
    assert_eq!((three.root, &three.pc[..3]), (2, &[4, 1, 4][..]), "P1");
    assert_eq!((four.root, &four.pc[..4]), (2, &[5, 1, 5, 6][..]), "P2");
    let removed = rules::perform(&call(Operation::Remove, 0, 1, 0, 0), &four);
    assert_eq!((removed.answer, removed.after.root), (done(0, 2), 3), "P3");
    assert_eq!(removed.after.pc[..4], [0, 7, 1, 7], "P3");
}

/// P4, P5, P6.
fn searches() {
    let told = |lent: &Lent, operation, kind| rules::perform(&call(operation, kind, 0, 0, 7), lent).answer;
    let sevens = inserted(&[7, 7, 7]);
    assert_eq!(told(&sevens, Operation::Find, 0), done(1, 2), "P4");
    assert_eq!(told(&sevens, Operation::LowerBound, 1), done(2, 1), "P5");
    assert_eq!(told(&sevens, Operation::UpperBound, 1), done(2, 3), "P5");
    assert_eq!(told(&sevens, Operation::LowerBound, 2), done(2, 0), "P5");
    assert_eq!(told(&sevens, Operation::UpperBound, 2), done(2, 0), "P5");
    let searching = [Operation::Find, Operation::Next, Operation::Prev, Operation::LowerBound, Operation::UpperBound];
    for (operation, kind) in searching.into_iter().flat_map(|o| [(o, 0), (o, 1), (o, 2)]) {
        assert_eq!(told(&Lent::empty(3), operation, kind), done(0, 0), "P6");
    }
}

/// P7.
fn order() {
    let told =
        |position, key| rules::perform(&call(Operation::InsertAfter, 0, position, 2, key), &inserted(&[5])).answer;
    let refused = Answer { code: Code::OutOfOrder, probes: 0, slot: 0 };
    assert_eq!([told(1, 4), told(1, 5), told(0, 6)], [refused, done(0, 2), refused], "P7");
}

/// P8, P9, P10.
fn lines() {
    let key = |line: &[u8]| codes::read(line).key;
    assert_eq!([key(b"0"), key(b"A")], [177_917_621_779_460_413, 1_957_093_839_574_064_543], "P8");
    assert_eq!([key(b"Ab"), key(b"aB"), key(b" AB ")], [2_014_796_852_043_078_731; 3], "P9");
    assert_eq!(key(&[b'Z'; 12]), 6_582_952_005_840_035_280, "P10");
    assert_eq!([codes::read(&[b'Z'; 13]).code, codes::read(b"   ").code], [Code::BadCode; 2], "P10");
}

fn program() {
    let insert = batch::record(&call(Operation::Insert, 0, 0, 1, 5));
    let find = batch::record(&call(Operation::Find, 0, 0, 0, 6));
    let told = batch::program(&[insert, insert, find].concat());
    let answers = [[0x41, 0x4E, 0, 0, 1, 0], [0x41, 0x4E, 3, 0, 0, 0], [0x41, 0x4E, 0, 1, 0, 0]];
    assert_eq!(told, answers.concat(), "the program's example");
}
