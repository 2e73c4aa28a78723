//! Trees to begin with: every small red-black tree, random larger ones, random ones that keep no balance; and the
//! lent numbers that hold them.

use crate::lent::Lent;
use crate::random::Random;

#[derive(Clone, Debug)]
pub enum Tree {
    Missing,
    Node { red: bool, left: Box<Tree>, right: Box<Tree> },
}

fn node(red: bool, left: Tree, right: Tree) -> Tree {
    Tree::Node { red, left: Box::new(left), right: Box::new(right) }
}

fn size(tree: &Tree) -> usize {
    match tree {
        Tree::Missing => 0,
        Tree::Node { left, right, .. } => size(left) + 1 + size(right),
    }
}

/// Every tree of so many nodes that keeps W5 and W6 and has a black root.
pub fn all(nodes: usize) -> Vec<Tree> {
    balanced(nodes, false).into_iter().map(|(tree, _)| tree).collect()
}

/// The trees that keep W5 and W6, each with the black nodes on its ways down; red at the top only if that is allowed.
fn balanced(nodes: usize, red_allowed: bool) -> Vec<(Tree, usize)> {
    if nodes == 0 {
        return vec![(Tree::Missing, 0)];
    }
    let mut found = Vec::new();
    for red in [false, true].into_iter().filter(|&red| red_allowed || !red) {
        for before in 0..nodes {
            let rights = balanced(nodes - 1 - before, !red);
            for (left, blacks) in balanced(before, !red) {
                for (right, _) in rights.iter().filter(|(_, others)| *others == blacks) {
                    found.push((node(red, left.clone(), right.clone()), blacks + usize::from(!red)));
                }
            }
        }
    }
    found
}

/// A random tree of at most so many nodes that keeps W5 and W6.
pub fn random(most: usize, random: &mut Random) -> Tree {
    let highest = (most + 1).ilog2() as usize;
    loop {
        let blacks = random.below(highest + 1);
        let reds = random.pick(&[2, 3, 5, 30]);
        let tree = grown(blacks, false, reds, random);
        if size(&tree) <= most {
            return tree;
        }
    }
}

/// A tree with so many black nodes on each way, where one node in `reds` that may be red is.
fn grown(blacks: usize, red_allowed: bool, reds: usize, random: &mut Random) -> Tree {
    if red_allowed && random.once_in(reds) {
        return node(true, grown(blacks, false, reds, random), grown(blacks, false, reds, random));
    }
    if blacks == 0 {
        return Tree::Missing;
    }
    node(false, grown(blacks - 1, true, reds, random), grown(blacks - 1, true, reds, random))
}

/// The smallest tree that keeps W5 and W6 and has a way of 2 × `blacks` nodes, down its left side: it has
/// 2^(blacks + 1) - 2 nodes.
pub fn tallest(blacks: usize) -> Tree {
    if blacks == 0 {
        return Tree::Missing;
    }
    let full = |height: usize| (0..height).fold(Tree::Missing, |tree, _| node(false, tree.clone(), tree));
    node(false, node(true, tallest(blacks - 1), full(blacks - 1)), full(blacks - 1))
}

/// A random tree of so many nodes, its colours at random below a black root.
pub fn loose(nodes: usize, top: bool, random: &mut Random) -> Tree {
    if nodes == 0 {
        return Tree::Missing;
    }
    let before = random.below(nodes);
    let red = !top && random.once_in(2);
    node(red, loose(before, false, random), loose(nodes - 1 - before, false, random))
}

/// The tree in lent arrays of so many slots: which slot has which node is random, and so are the keys, which rise, and
/// the keys of the slots that are left.
pub fn lay(tree: &Tree, capacity: usize, random: &mut Random) -> Lent {
    let mut lent = Lent::empty(capacity);
    let mut slots: Vec<u32> = lent.slots().collect();
    random.shuffle(&mut slots);
    lent.root = hang(tree, 0, &mut slots, &mut lent);
    lent.key.iter_mut().for_each(|key| *key = random.below(50) as u64);
    let mut least = random.below(3) as u64;
    for slot in lent.order() {
        let step = if random.once_in(60) { u64::MAX } else { random.pick(&[0, 0, 0, 0, 1, 1, 2, 2, 5, 1 << 32]) };
        least = least.saturating_add(step);
        lent.key[slot as usize - 1] = least;
    }
    lent
}

/// The top slot of the tree, once it stands in the arrays.
fn hang(tree: &Tree, parent: u32, slots: &mut Vec<u32>, lent: &mut Lent) -> u32 {
    let Tree::Node { red, left, right } = tree else { return 0 };
    let slot = slots.pop().expect("as many slots as nodes");
    lent.pc[slot as usize - 1] = 2 * parent + u32::from(!red);
    let children = [hang(left, slot, slots, lent), hang(right, slot, slots, lent)];
    [lent.left[slot as usize - 1], lent.right[slot as usize - 1]] = children;
    slot
}
