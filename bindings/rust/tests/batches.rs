//! Batches: the bytes arrive and come back at their places, and a batch that is refused as a whole changes nothing.
mod desk;

use desk::{command, Desk, HIGH};
use lichenbrooch::{Batched, Code, BATCH_LIMIT};

fn batched(code: Code, count: u32) -> Batched {
    Batched { code, count }
}

/// A byte that no answer has at its place, so that it shows where bytes were written.
const UNTOUCHED: u8 = 0xEE;

/// The batch is refused with a code, and neither the arrays nor the room for answers change.
fn refused(desk: &Desk, code: Code, commands: &[u8], room: usize) {
    let mut lent = desk.clone();
    let mut answers = vec![UNTOUCHED; room];
    assert_eq!(lent.index().batch(commands, &mut answers), batched(code, 0));
    assert_eq!(&lent, desk);
    assert!(answers.iter().all(|byte| *byte == UNTOUCHED));
}

#[test]
fn the_sample_of_the_scope() {
    let mut desk = Desk::new(2048);
    let insert = [0x43, 0x4E, 1, 0, 0, 0, 1, 0, 5, 0, 0, 0, 0, 0, 0, 0];
    let find = [0x43, 0x4E, 3, 0, 0, 0, 0, 0, 6, 0, 0, 0, 0, 0, 0, 0];
    let mut answers = [UNTOUCHED; 20];
    assert_eq!(desk.index().batch(&[insert, insert, find].concat(), &mut answers), batched(Code::Done, 3));
    let expected = [0x41, 0x4E, 0, 0, 1, 0, 0x41, 0x4E, 3, 0, 0, 0, 0x41, 0x4E, 0, 1, 0, 0];
    assert_eq!((&answers[..18], &answers[18..]), (&expected[..], &[UNTOUCHED; 2][..]));
    assert_eq!((desk.root, desk.parent_color[0], desk.key[0]), (1, 1, 5));
}

#[test]
fn fields_of_a_record_are_not_mixed_up() {
    let mut desk = Desk::new(300);
    let commands = [
        command(1, 0, 0, 258, HIGH + 10),
        command(9, 0, 258, 5, HIGH + 20),
        command(4, 2, 0, 0, HIGH + 10),
        command(5, 1, 0, 0, HIGH + 10),
        command(4, 3, 0, 0, 1),
        command(13, 0, 0, 0, 1),
    ];
    let mut answers = [UNTOUCHED; 36];
    assert_eq!(desk.index().batch(&commands.concat(), &mut answers), batched(Code::Done, 6));
    let told: Vec<[u8; 4]> = answers.chunks(6).map(|answer| [answer[2], answer[3], answer[4], answer[5]]).collect();
    assert_eq!(told, [[0, 0, 2, 1], [0, 0, 5, 0], [0, 2, 5, 0], [0, 2, 2, 1], [8, 0, 0, 0], [8, 0, 0, 0]]);
    assert_eq!((desk.root, desk.right[257], desk.parent_color[4]), (258, 5, 516));
    assert_eq!((desk.key[257], desk.key[4]), (HIGH + 10, HIGH + 20));
}

#[test]
fn refused_as_a_whole() {
    let desk = Desk::with(&[1, 2], 1);
    let record = command(12, 0, 0, 0, 0);
    refused(&desk, Code::BadLength, &record[..15], 6);
    refused(&desk, Code::BadLength, &record.repeat(1025), 6 * 1025);
    refused(&desk, Code::Short, &record, 5);
    refused(&desk, Code::Short, &record, 0);
    let damaged = Desk { root: 3, ..desk };
    refused(&damaged, Code::Damaged, &record, 6);
    refused(&damaged, Code::Short, &record, 5);
    refused(&damaged, Code::BadLength, &record[..1], 0);
}

#[test]
fn the_longest_and_the_shortest_batch() {
    let mut desk = Desk::with(&[HIGH], 0);
    let commands = command(3, 0, 0, 0, HIGH).repeat(1024);
    assert_eq!(commands.len(), BATCH_LIMIT);
    let mut answers = [UNTOUCHED; 6 * 1024];
    assert_eq!(desk.index().batch(&commands, &mut answers), batched(Code::Done, 1024));
    assert_eq!(answers[..], [0x41, 0x4E, 0, 1, 1, 0].repeat(1024));
    assert_eq!(desk.index().batch(&[], &mut []), batched(Code::Done, 0));
}
