//! The ported crate itself, run on lent numbers: its `RBTree` over an array of nodes, one for each slot.

use std::cell::Cell;
use std::ptr::NonNull;

use intrusive_collections::rbtree::{Color, Cursor, Entry, LinkOps, RBTree, RBTreeOps};
use intrusive_collections::{intrusive_adapter, Bound, KeyAdapter, RBTreeLink, UnsafeRef};

use crate::lent::{Command, Lent, Operation};

pub struct Node {
    pub link: RBTreeLink,
    pub key: Cell<u64>,
}

intrusive_adapter!(pub NodeAdapter = UnsafeRef<Node>: Node { link => RBTreeLink });

impl<'a> KeyAdapter<'a> for NodeAdapter {
    type Key = u64;

    fn get_key(&self, node: &'a Node) -> u64 {
        READ.set(READ.get() + 1);
        node.key.get()
    }
}

thread_local! {
    /// How many keys the crate has read.
    static READ: Cell<u32> = const { Cell::new(0) };
}

/// The tree stands before its nodes, so that it is dropped first: dropping it releases them.
pub struct Oracle {
    tree: RBTree<NodeAdapter>,
    pub nodes: Box<[Node]>,
}

impl Oracle {
    /// A tree with the links, colours and keys of well-formed arrays.
    pub fn load(lent: &Lent) -> Oracle {
        let nodes = lent.key.iter().map(|&key| Node { link: RBTreeLink::new(), key: Cell::new(key) }).collect();
        let mut oracle = Oracle { tree: RBTree::new(NodeAdapter::new()), nodes };
        if lent.root != 0 {
            oracle.tree.insert(oracle.node(lent.root)); // the crate has no other way to name its root
        }
        for slot in lent.slots().filter(|&slot| lent.is_linked(slot)) {
            let index = slot as usize - 1;
            let color = if lent.is_red(slot) { Color::Red } else { Color::Black };
            let (mut ops, link) = (LinkOps, oracle.link(slot).expect("a slot"));
            unsafe {
                ops.set_left(link, oracle.link(lent.left[index]));
                ops.set_right(link, oracle.link(lent.right[index]));
                ops.set_parent(link, oracle.link(lent.parent(slot)));
                ops.set_color(link, color);
            }
        }
        oracle
    }

    /// The lent numbers of the tree. The crate leaves old child pointers in a node that it releases; 01 wants 0 there.
    pub fn read(&self) -> Lent {
        let mut lent = Lent::empty(self.nodes.len());
        for (index, node) in self.nodes.iter().enumerate() {
            lent.key[index] = node.key.get();
            if node.link.is_linked() {
                let link = NonNull::from(&node.link);
                unsafe {
                    lent.left[index] = self.slot_of(LinkOps.left(link));
                    lent.right[index] = self.slot_of(LinkOps.right(link));
                    let color = if LinkOps.color(link) == Color::Black { 1 } else { 0 };
                    lent.pc[index] = 2 * self.slot_of(LinkOps.parent(link)) + color;
                }
            }
        }
        lent.root = self.root();
        lent
    }

    /// Runs an accepted command, and gives the slot that it answers and the nodes whose keys the crate compared: a
    /// descent to an unbounded end compares none, and insert reads its own key too, if it compares it with any.
    pub fn run_counted(&mut self, command: &Command) -> (u32, u32) {
        READ.set(0);
        let slot = self.run(command);
        let own = u32::from(command.operation == Operation::Insert);
        (slot, READ.get().saturating_sub(own))
    }

    /// Runs an accepted command and gives the slot that it answers.
    pub fn run(&mut self, command: &Command) -> u32 {
        let Command { position, slot, key, .. } = *command;
        match command.operation {
            Operation::Insert => {
                let node = self.placed(slot, key);
                self.tree.insert(node);
                slot
            }
            Operation::OrInsert => self.or_insert(slot, key),
            Operation::Find => self.at(self.tree.find(&key)),
            Operation::LowerBound => self.at(self.tree.lower_bound(bound(command))),
            Operation::UpperBound => self.at(self.tree.upper_bound(bound(command))),
            Operation::Next => self.at(self.cursor(position).peek_next()),
            Operation::Prev => self.at(self.cursor(position).peek_prev()),
            Operation::Clear => {
                self.tree.clear();
                0
            }
            _ => self.run_at_cursor(command),
        }
    }

    fn run_at_cursor(&mut self, command: &Command) -> u32 {
        let new = command.operation.has_slot().then(|| self.placed(command.slot, command.key));
        let mut cursor = match command.position {
            0 => self.tree.cursor_mut(),
            slot => unsafe { self.tree.cursor_mut_from_ptr(&self.nodes[slot as usize - 1]) },
        };
        match (command.operation, new) {
            (Operation::InsertAfter, Some(node)) => cursor.insert_after(node),
            (Operation::InsertBefore, Some(node)) => cursor.insert_before(node),
            (Operation::ReplaceWith, Some(node)) => assert!(cursor.replace_with(node).is_ok()),
            _ => assert!(cursor.remove().is_some()),
        }
        if command.operation == Operation::Remove {
            let next = cursor.get_ptr();
            self.slot_at(next)
        } else {
            command.slot
        }
    }

    fn or_insert(&mut self, slot: u32, key: u64) -> u32 {
        let new = self.node(slot);
        let found = match self.tree.entry(&key) {
            Entry::Occupied(cursor) => cursor.get_ptr(),
            Entry::Vacant(place) => {
                new.key.set(key);
                place.insert(new).get_ptr()
            }
        };
        self.slot_at(found)
    }

    /// The root is private to the crate: it is the node above all others.
    fn root(&self) -> u32 {
        let mut top = self.tree.front().get().map(|node| NonNull::from(&node.link));
        while let Some(above) = top.and_then(|link| unsafe { LinkOps.parent(link) }) {
            top = Some(above);
        }
        self.slot_of(top)
    }

    fn node(&self, slot: u32) -> UnsafeRef<Node> {
        unsafe { UnsafeRef::from_raw(&self.nodes[slot as usize - 1]) }
    }

    /// The node of a slot, with a key that is to be placed.
    fn placed(&self, slot: u32, key: u64) -> UnsafeRef<Node> {
        let node = self.node(slot);
        node.key.set(key);
        node
    }

    fn link(&self, slot: u32) -> Option<NonNull<RBTreeLink>> {
        (slot != 0).then(|| NonNull::from(&self.nodes[slot as usize - 1].link))
    }

    fn slot_of(&self, link: Option<NonNull<RBTreeLink>>) -> u32 {
        let Some(link) = link else { return 0 };
        let slot = (link.as_ptr() as usize - self.nodes.as_ptr() as usize) / size_of::<Node>() + 1;
        debug_assert_eq!(self.link(slot as u32), Some(link), "a link of no slot");
        slot as u32
    }

    pub fn cursor(&self, position: u32) -> Cursor<'_, NodeAdapter> {
        match position {
            0 => self.tree.cursor(),
            slot => unsafe { self.tree.cursor_from_ptr(&self.nodes[slot as usize - 1]) },
        }
    }

    fn at(&self, cursor: Cursor<'_, NodeAdapter>) -> u32 {
        self.slot_at(cursor.get_ptr())
    }

    fn slot_at(&self, node: Option<NonNull<Node>>) -> u32 {
        self.slot_of(node.map(|node| unsafe { NonNull::from(&node.as_ref().link) }))
    }
}

fn bound(command: &Command) -> Bound<&u64> {
    match command.kind {
        0 => Bound::Unbounded,
        1 => Bound::Included(&command.key),
        _ => Bound::Excluded(&command.key),
    }
}
