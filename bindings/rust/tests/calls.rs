//! Every argument arrives at its place and every answer comes back whole; the expected numbers are worked by hand from
//! the rules of the scope, or are its own examples (P1 to P5).
mod desk;

use desk::{Desk, HIGH};
use lichenbrooch::{Answer, Code, Key, Slot};
use std::ops::Bound;

fn done(probes: u32, slot: u32) -> Answer {
    Answer { code: Code::Done, probes, slot: Slot(slot) }
}

#[test]
fn insert_hangs_and_turns() {
    let mut desk = Desk::new(4);
    assert_eq!(desk.index().insert(Slot(1), Key(1)), done(0, 1));
    assert_eq!(desk.index().insert(Slot(2), Key(2)), done(1, 2));
    assert_eq!(desk.index().insert(Slot(3), Key(3)), done(2, 3));
    assert_eq!((desk.root, &desk.parent_color[..]), (2, &[4, 1, 4, 0][..]));
    assert_eq!((&desk.left[..], &desk.right[..]), (&[0, 1, 0, 0][..], &[0, 3, 0, 0][..]));
    assert_eq!(desk.index().insert(Slot(4), Key(4)), done(2, 4));
    assert_eq!(desk.parent_color, [5, 1, 5, 6]);
    assert_eq!((&desk.left[..], &desk.right[..]), (&[0, 1, 0, 0][..], &[0, 3, 4, 0][..]));
    assert_eq!(desk.key, [1, 2, 3, 4]);
}

#[test]
fn remove_answers_the_next_and_keeps_the_key() {
    let mut desk = Desk::with(&[1, 2, 3, 4], 0);
    assert_eq!(desk.index().remove(Slot(1)), done(0, 2));
    assert_eq!((desk.root, &desk.parent_color[..]), (3, &[0, 7, 1, 7][..]));
    assert_eq!((&desk.left[..], &desk.right[..]), (&[0, 0, 2, 0][..], &[0, 0, 4, 0][..]));
    assert_eq!(desk.key, [1, 2, 3, 4]);
}

#[test]
fn find_and_bounds_with_their_probes() {
    let mut desk = Desk::with(&[7, 7, 7], 0);
    let index = desk.index();
    assert_eq!(index.find(Key(7)), done(1, 2));
    assert_eq!(index.lower_bound(Bound::Included(Key(7))), done(2, 1));
    assert_eq!(index.upper_bound(Bound::Included(Key(7))), done(2, 3));
    assert_eq!(index.lower_bound(Bound::Excluded(Key(7))), done(2, 0));
    assert_eq!(index.upper_bound(Bound::Excluded(Key(7))), done(2, 0));
    assert_eq!(index.lower_bound(Bound::Unbounded), done(2, 1));
    assert_eq!(index.upper_bound(Bound::Unbounded), done(2, 3));
}

#[test]
fn keys_keep_all_their_bits() {
    let keys = [5, HIGH + 5, u64::MAX, u64::from(u32::MAX)];
    let mut desk = Desk::with(&keys, 0);
    assert_eq!(desk.key, keys);
    let index = desk.index();
    for (slot, k) in (1..).zip(keys) {
        assert_eq!(index.find(Key(k)).slot, Slot(slot));
        assert_eq!(index.lower_bound(Bound::Included(Key(k))).slot, Slot(slot));
        assert_eq!(index.upper_bound(Bound::Included(Key(k))).slot, Slot(slot));
    }
    assert_eq!(index.find(Key(HIGH)).slot, Slot(0));
    assert_eq!(index.lower_bound(Bound::Excluded(Key(HIGH + 5))).slot, Slot(3));
    assert_eq!(index.upper_bound(Bound::Excluded(Key(HIGH + 5))).slot, Slot(4));
}

#[test]
fn next_and_prev_walk_both_ways() {
    let mut desk = Desk::with(&[30, 10, 20], 0);
    let index = desk.index();
    let ahead = [0, 2, 3, 1].map(|slot| index.next(Slot(slot)));
    assert_eq!(ahead, [2, 3, 1, 0].map(|slot| done(0, slot)));
    let back = [0, 1, 3, 2].map(|slot| index.prev(Slot(slot)));
    assert_eq!(back, [1, 3, 2, 0].map(|slot| done(0, slot)));
}

#[test]
fn find_or_insert_gives_the_old_or_the_new_slot() {
    let mut desk = Desk::with(&[HIGH], 2);
    let before = desk.clone();
    assert_eq!(desk.index().find_or_insert(Slot(3), Key(HIGH)), done(1, 1));
    assert_eq!(desk, before);
    assert_eq!(desk.index().find_or_insert(Slot(3), Key(HIGH - 1)), done(1, 3));
    assert_eq!((&desk.left[..], &desk.parent_color[..]), (&[3, 0, 0][..], &[1, 0, 2][..]));
    assert_eq!(desk.key, [HIGH, 0, HIGH - 1]);
}

#[test]
fn position_slot_and_key_are_not_mixed_up() {
    let mut desk = Desk::new(5);
    assert_eq!(desk.index().insert(Slot(2), Key(10)), done(0, 2));
    assert_eq!(desk.index().insert_after(Slot(2), Slot(5), Key(HIGH + 7)), done(0, 5));
    assert_eq!((&desk.right[..], &desk.parent_color[..]), (&[0, 5, 0, 0, 0][..], &[0, 1, 0, 0, 4][..]));
    assert_eq!(desk.index().insert_before(Slot(2), Slot(4), Key(3)), done(0, 4));
    assert_eq!((&desk.left[..], &desk.parent_color[..]), (&[0, 4, 0, 0, 0][..], &[0, 1, 0, 4, 4][..]));
    assert_eq!(desk.index().replace_with(Slot(5), Slot(1), Key(HIGH + 9)), done(0, 1));
    assert_eq!((&desk.right[..], &desk.parent_color[..]), (&[0, 1, 0, 0, 0][..], &[4, 1, 0, 4, 0][..]));
    assert_eq!(desk.index().insert_after(Slot(0), Slot(3), Key(1)), done(0, 3));
    assert_eq!((&desk.left[..], &desk.parent_color[..]), (&[0, 4, 0, 3, 0][..], &[5, 1, 8, 5, 0][..]));
    assert_eq!(desk.index().insert_before(Slot(0), Slot(5), Key(HIGH + 9)), done(0, 5));
    assert_eq!((&desk.right[..], &desk.parent_color[..]), (&[5, 1, 0, 0, 0][..], &[5, 1, 8, 5, 2][..]));
    assert_eq!((desk.root, &desk.key[..]), (2, &[HIGH + 9, 10, 1, 3, HIGH + 9][..]));
}

#[test]
fn clear_keeps_the_keys() {
    let mut desk = Desk::with(&[3, 1, 2], 1);
    assert_eq!(desk.index().clear(), done(0, 0));
    assert_eq!(desk, Desk { key: vec![3, 1, 2, 0], ..Desk::new(4) });
}
