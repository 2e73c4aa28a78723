//! Every code that a single call can give comes back as its case, and a refused call changes nothing.
mod desk;

use desk::Desk;
use lichenbrooch::raw::lichenbrooch_lower_bound;
use lichenbrooch::{code_key, Answer, Code, Entry, Index, Key, Side, Slot};

/// A call on the tree of keys 10, 20, 30 with a spare slot 4 is refused with a code and nothing else.
fn refused(code: Code, call: fn(&mut Index) -> Answer) {
    let mut desk = Desk::with(&[10, 20, 30], 1);
    let before = desk.clone();
    assert_eq!(call(&mut desk.index()), Answer { code, probes: 0, slot: Slot(0) });
    assert_eq!(desk, before);
}

#[test]
fn numbers_are_those_of_the_scope() {
    let cases = [
        Code::Done,
        Code::Damaged,
        Code::BadSlot,
        Code::AlreadyLinked,
        Code::NotLinked,
        Code::OutOfOrder,
        Code::NullCursor,
        Code::Stale,
        Code::BadRecord,
        Code::BadLength,
        Code::Short,
        Code::BadCode,
        Code::Other(12),
    ];
    for (number, case) in (0..).zip(cases) {
        assert_eq!(Code::from(number), case);
    }
    assert_eq!(Code::from(u32::MAX), Code::Other(u32::MAX));
}

#[test]
fn damaged() {
    let mut desk = Desk::with(&[10, 20, 30], 1);
    desk.root = 3;
    let before = desk.clone();
    for (name, call) in desk::CALLS {
        assert_eq!(call(&mut desk.index()), Code::Damaged, "{name}");
        assert_eq!(desk, before, "{name}");
    }
}

#[test]
fn bad_slot() {
    refused(Code::BadSlot, |index| index.insert(Slot(0), Key(5)));
    refused(Code::BadSlot, |index| index.insert(Slot(5), Key(5)));
    refused(Code::BadSlot, |index| index.find_or_insert(Slot(u32::MAX), Key(5)));
    refused(Code::BadSlot, |index| index.next(Slot(5)));
    refused(Code::BadSlot, |index| index.prev(Slot(u32::MAX)));
    refused(Code::BadSlot, |index| index.remove(Slot(5)));
    refused(Code::BadSlot, |index| index.insert_after(Slot(5), Slot(4), Key(5)));
    refused(Code::BadSlot, |index| index.insert_before(Slot(1), Slot(5), Key(5)));
}

#[test]
fn already_linked() {
    refused(Code::AlreadyLinked, |index| index.insert(Slot(3), Key(5)));
    refused(Code::AlreadyLinked, |index| index.find_or_insert(Slot(3), Key(10)));
    refused(Code::AlreadyLinked, |index| index.replace_with(Slot(2), Slot(2), Key(20)));
}

#[test]
fn not_linked() {
    refused(Code::NotLinked, |index| index.remove(Slot(4)));
    refused(Code::NotLinked, |index| index.next(Slot(4)));
    refused(Code::NotLinked, |index| index.prev(Slot(4)));
    refused(Code::NotLinked, |index| index.replace_with(Slot(4), Slot(4), Key(5)));
}

#[test]
fn out_of_order() {
    refused(Code::OutOfOrder, |index| index.insert_after(Slot(1), Slot(4), Key(9)));
    refused(Code::OutOfOrder, |index| index.insert_before(Slot(1), Slot(4), Key(11)));
    refused(Code::OutOfOrder, |index| index.replace_with(Slot(2), Slot(4), Key(31)));
}

#[test]
fn null_cursor() {
    refused(Code::NullCursor, |index| index.remove(Slot(0)));
    refused(Code::NullCursor, |index| index.replace_with(Slot(0), Slot(4), Key(5)));
}

#[test]
fn stale() {
    refused(Code::Stale, |index| index.or_insert(Entry::Occupied(Slot(1)), Slot(4), Key(20)));
    refused(Code::Stale, |index| index.or_insert(Entry::Occupied(Slot(2)), Slot(4), Key(5)));
    refused(Code::Stale, |index| {
        index.or_insert(Entry::Vacant { parent: Slot(0), side: Side::Right }, Slot(4), Key(5))
    });
}

/// The wrapper's bounds have no other kinds, so this one goes by the interface itself.
#[test]
fn bad_record() {
    let mut desk = Desk::with(&[10, 20, 30], 1);
    for (kind, code) in [(2, Code::Done), (3, Code::BadRecord), (u32::MAX, Code::BadRecord)] {
        let (links, key) = ([&desk.left, &desk.right, &desk.parent_color], &desk.key);
        let [left, right, parent_color] = links.map(|link| link.as_ptr());
        let answer = unsafe {
            lichenbrooch_lower_bound(left, 4, right, 4, parent_color, 4, key.as_ptr(), 4, desk.root, kind, 5)
        };
        assert_eq!(Code::from(answer.code), code);
    }
    assert_eq!(desk.index().check(), Code::Done);
}

#[test]
fn bad_code() {
    assert_eq!(code_key(b"no code"), Err(Code::BadCode));
}
