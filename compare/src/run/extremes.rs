//! Lent numbers that nobody should lend: unequal lengths, too many slots, roots that name nothing, garbage; and every
//! call on each of them, with arguments up to the largest numbers.

use crate::batch;
use crate::damage;
use crate::lent::{Command, Entry, Lent, OPERATIONS};
use crate::random::Random;
use crate::rules;
use crate::scripts;
use crate::trees;
use crate::trials::Trial;

/// Every call of the library on the same numbers.
pub fn calls(lent: &Lent, random: &mut Random) -> Vec<Trial> {
    let mut made = vec![Trial::Check(lent.clone())];
    for operation in OPERATIONS {
        let command = far(Command { operation, ..scripts::command(lent, random) }, random);
        made.push(Trial::Call { command, before: lent.clone() });
    }
    let Command { kind, position, slot, key, .. } = scripts::command(lent, random);
    let entry = if kind == 1 { Entry::Occupied(position) } else { Entry::Vacant(position, scripts::side(random)) };
    made.push(Trial::Entry { key, lent: lent.clone() });
    for entry in [entry, rules::entry(key, lent).1, far_entry(rules::entry(key, lent).1, random)] {
        made.push(Trial::OrInsert { entry, slot, key, before: lent.clone() });
    }
    let input: Vec<u8> = (0..3).flat_map(|_| batch::record(&scripts::command(lent, random))).collect();
    made.push(Trial::Batch { input, buffer: vec![0xEE; 20], before: lent.clone() });
    made
}

/// Now and then an argument with a high bit that a narrower number would lose.
fn far(command: Command, random: &mut Random) -> Command {
    let high = random.pick(&[1 << 8, 1 << 16, 1 << 31, u32::MAX]);
    match random.below(12) {
        0 => Command { position: command.position | high, ..command },
        1 => Command { slot: command.slot | high, ..command },
        2 => Command { kind: command.kind | high, ..command },
        3 => Command { key: command.key | 1 << 63, ..command },
        _ => command,
    }
}

/// The entry with a high bit in its slot.
fn far_entry(entry: Entry, random: &mut Random) -> Entry {
    let high = random.pick(&[1 << 8, 1 << 16, 1 << 31]);
    match entry {
        Entry::Occupied(slot) => Entry::Occupied(slot | high),
        Entry::Vacant(parent, side) => Entry::Vacant(parent | high, side),
    }
}

/// The edges of W1: lengths one apart, 2,048 and 2,049 slots, roots above C.
pub fn edges(random: &mut Random) -> Vec<Lent> {
    let tree = trees::random(4, random);
    let fine = trees::lay(&tree, 4, random);
    let mut made = vec![Lent::empty(0), Lent::empty(2048), Lent::empty(2049), fine.clone()];
    for root in [5, 6, 1 << 16, 1 << 31, u32::MAX] {
        made.push(Lent { root, ..fine.clone() });
        made.push(Lent { root, ..Lent::empty(4) });
        made.push(Lent { root, ..Lent::empty(0) });
    }
    for which in 0..4 {
        made.extend(unequal(&fine, which));
        made.extend(unequal(&Lent::empty(2048), which));
    }
    made
}

/// One array longer, shorter, and without any number.
fn unequal(fine: &Lent, which: usize) -> [Lent; 3] {
    let change = |length: fn(usize) -> usize| {
        let mut lent = fine.clone();
        match which {
            0 => lent.left.resize(length(fine.left.len()), 0),
            1 => lent.right.resize(length(fine.right.len()), 0),
            2 => lent.pc.resize(length(fine.pc.len()), 0),
            _ => lent.key.resize(length(fine.key.len()), 0),
        }
        lent
    };
    [change(|n| n + 1), change(|n| n - 1), change(|_| 0)]
}

/// Numbers at random: some name slots, some are as large as they can be.
pub fn garbage(random: &mut Random) -> Lent {
    let capacity = random.below(9);
    let number = |random: &mut Random| match random.below(10) {
        0 => u32::MAX - random.below(3) as u32,
        1 => random.below(1 << 32) as u32,
        _ => random.below(2 * capacity + 4) as u32,
    };
    let mut lent = Lent::empty(capacity);
    for at in 0..capacity {
        let few = random.below(3) == 0;
        lent.left[at] = if few { number(random) } else { 0 };
        lent.right[at] = if few { 0 } else { number(random) };
        lent.pc[at] = number(random);
        lent.key[at] = random.below(6) as u64;
    }
    lent.root = number(random);
    lent
}

/// The tallest tree that 2,048 slots can hold or a random one, with a number spoilt or none.
pub fn large(spoilt: bool, random: &mut Random) -> Lent {
    let tree = if random.once_in(2) { trees::tallest(10) } else { trees::random(2048, random) };
    let lent = trees::lay(&tree, 2048, random);
    if spoilt {
        damage::arrays(lent, random)
    } else {
        lent
    }
}
