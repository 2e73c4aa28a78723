//! The self-test: replies are made wrong before they are compared, one in each way, and just these must be found.

use super::reply::Reply;
use crate::lent::Operation;
use crate::random::Random;
use crate::trials::Trial;

/// A way to make a reply wrong, which tells whether it could; one of so many replies that it fits is taken.
#[derive(Clone, Copy)]
struct Fault {
    name: &'static str,
    within: usize,
    make: fn(&mut Reply) -> bool,
}

const FAULTS: [Fault; 16] = [
    Fault { name: "left", within: 3_000, make: |r| bump(r.lent.left.last_mut()) },
    Fault { name: "right", within: 3_000, make: |r| bump(r.lent.right.first_mut()) },
    Fault { name: "parent_color", within: 3_000, make: |r| r.lent.pc.last_mut().map(|number| *number ^= 1).is_some() },
    Fault { name: "parent_color", within: 3_000, make: |r| r.lent.pc.first_mut().map(|n| *n ^= 2).is_some() },
    Fault { name: "key", within: 3_000, make: |r| r.lent.key.last_mut().map(|key| *key ^= 1 << 63).is_some() },
    Fault { name: "root", within: 3_000, make: |r| bump(Some(&mut r.lent.root)) },
    Fault { name: "code", within: 3_000, make: |r| add(r.code < 11, &mut r.code) },
    Fault { name: "probes", within: 1_000, make: |r| add(r.probes != 0, &mut r.probes) },
    Fault { name: "slot", within: 1_000, make: |r| add(r.slot != 0, &mut r.slot) },
    Fault { name: "occupied", within: 20, make: |r| add(r.occupied == 1, &mut r.occupied) },
    Fault { name: "on_left", within: 20, make: |r| add(r.on_left == 1, &mut r.on_left) },
    Fault { name: "the code's key", within: 200, make: |r| add(r.key != 0, &mut r.key) },
    Fault { name: "the part", within: 200, make: |r| r.part.as_mut().and_then(Vec::pop).is_some() },
    Fault { name: "count", within: 20, make: |r| add(r.count != 0, &mut r.count) },
    Fault { name: "the answers", within: 20, make: |r| r.buffer.last_mut().map(|byte| *byte ^= 0x80).is_some() },
    Fault { name: "the number", within: 3_000, make: |r| add(true, &mut r.spilt) },
];

fn bump(number: Option<&mut u32>) -> bool {
    number.map(|number| *number = number.wrapping_add(1)).is_some()
}

fn add(fits: bool, number: &mut u64) -> bool {
    *number += u64::from(fits);
    fits
}

/// What is done to replies before they are compared.
pub enum Spoiler {
    Nothing,
    OneOfEach(Plan),
    /// `next` tells too high a slot in a tree of three or more
    HighNext,
}

/// The faults that are still to be made, how many outputs of the program were seen, how many faults were made, and how
/// many of these were found.
pub struct Plan {
    random: Random,
    waiting: Vec<Fault>,
    outputs: usize,
    pub made: usize,
    pub found: usize,
}

impl Plan {
    pub fn new(seed: u64) -> Plan {
        Plan { random: Random::new(seed), waiting: FAULTS.into(), outputs: 0, made: 0, found: 0 }
    }

    /// The faults that no reply could be found for.
    pub fn missing(&self) -> Vec<&'static str> {
        self.waiting.iter().map(|fault| fault.name).collect()
    }

    /// The fifth output of the program gets a wrong byte.
    fn spoil_output(&mut self, output: &mut [u8]) -> Option<&'static str> {
        let last = output.last_mut()?;
        self.outputs += 1;
        let due = self.outputs == 5;
        *last ^= u8::from(due);
        self.made += usize::from(due);
        due.then_some("byte")
    }

    fn spoil(&mut self, reply: &mut Reply) -> Option<&'static str> {
        let random = &mut self.random;
        let which = self.waiting.iter().position(|fault| random.once_in(fault.within) && (fault.make)(reply))?;
        self.made += 1;
        Some(self.waiting.remove(which).name)
    }
}

impl Spoiler {
    /// Makes the reply wrong if its turn has come, and names what is wrong.
    pub fn spoil(&mut self, trial: &Trial, reply: &mut Reply) -> Option<&'static str> {
        match self {
            Spoiler::Nothing => None,
            Spoiler::OneOfEach(plan) => plan.spoil(reply),
            Spoiler::HighNext => {
                let next = matches!(trial, Trial::Call { command, .. } if command.operation == Operation::Next);
                let large = reply.lent.pc.iter().filter(|&&number| number != 0).count() >= 3;
                (next && add(large, &mut reply.slot)).then_some("slot")
            }
        }
    }

    /// The same for what the program writes.
    pub fn spoil_output(&mut self, output: &mut [u8]) -> Option<&'static str> {
        match self {
            Spoiler::OneOfEach(plan) => plan.spoil_output(output),
            _ => None,
        }
    }

    /// Whether a difference is just the one that was made, and the comparison goes on.
    pub fn expects(&mut self, made: Option<&str>, told: &str) -> bool {
        match (self, made) {
            (Spoiler::OneOfEach(plan), Some(name)) if told.starts_with(name) => {
                plan.found += 1;
                true
            }
            _ => false,
        }
    }
}
