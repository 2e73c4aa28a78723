//! A reply of the server: every number of every result, and all that was lent, after the call.

use crate::lent::{Answer, Code, Entry, Lent, Side};
use crate::trials::{Said, Trial};

/// How many numbers a `struct reply` has.
pub const NUMBERS: usize = 11;

/// Where a result has no such field, it is 0 or empty; `spilt` bytes beside the lent ones were changed. The part of a
/// line is missing if it isn't one.
#[derive(Clone, Debug, Default, PartialEq, Eq)]
pub struct Reply {
    pub code: u64,
    pub probes: u64,
    pub slot: u64,
    pub occupied: u64,
    pub on_left: u64,
    pub count: u64,
    pub key: u64,
    pub spilt: u64,
    pub part: Option<Vec<u8>>,
    pub lent: Lent,
    pub input: Vec<u8>,
    pub buffer: Vec<u8>,
}

impl Reply {
    /// From what the server sends.
    pub fn new(numbers: [u64; NUMBERS], lent: Lent, input: Vec<u8>, buffer: Vec<u8>) -> Reply {
        let [code, probes, slot, occupied, on_left, count, key, start, length, root, spilt] = numbers;
        let lent = Lent { root: root as u32, ..lent };
        let end = start.saturating_add(length);
        let part = input.get(start as usize..end as usize).map(<[u8]>::to_vec);
        Reply { code, probes, slot, occupied, on_left, count, key, spilt, part, lent, input, buffer }
    }

    /// The reply to a trial that says what 01 and the crate say.
    pub fn expected(trial: &Trial, said: &Said) -> Reply {
        let same = match trial {
            Trial::Check(lent) | Trial::Entry { lent, .. } => Reply::lending(lent),
            Trial::Line(line) => Reply { input: line.clone(), ..Reply::default() },
            Trial::Batch { input, .. } => Reply { input: input.clone(), ..Reply::default() },
            _ => Reply::default(),
        };
        let same = Reply { part: Some(Vec::new()), ..same };
        match said {
            Said::Holds(holds) => Reply { code: if *holds { Code::Done } else { Code::Damaged } as u64, ..same },
            Said::Outcome(outcome) => {
                let Answer { code, probes, slot } = outcome.answer;
                let lent = outcome.after.clone();
                Reply { code: code as u64, probes: probes.into(), slot: slot.into(), lent, ..same }
            }
            Said::Entered { code, entry } => same.entered(*code, *entry),
            Said::Read(r) => Reply { code: r.code as u64, key: r.key, part: Some(r.part.clone()), ..same },
            Said::Batched(told) => {
                let (lent, buffer) = (told.after.clone(), told.buffer.clone());
                Reply { code: told.code as u64, count: told.count as u64, lent, buffer, ..same }
            }
            _ => panic!("not said of a call of the library: {said:?}"),
        }
    }

    fn lending(lent: &Lent) -> Reply {
        Reply { lent: lent.clone(), ..Reply::default() }
    }

    fn entered(self, code: Code, entry: Entry) -> Reply {
        let (occupied, slot, on_left) = match entry {
            Entry::Occupied(slot) => (1, slot, 0),
            Entry::Vacant(parent, side) => (0, parent, u64::from(side == Side::Left)),
        };
        Reply { code: code as u64, occupied, slot: slot.into(), on_left, ..self }
    }

    /// The first field in which the library's reply is another than the expected one, with both.
    pub fn difference(&self, expected: &Reply) -> Option<String> {
        let (numbers, wanted) = (self.numbers(), expected.numbers());
        for (at, (name, number)) in numbers.iter().enumerate() {
            if *number != wanted[at].1 {
                return Some(format!("{name} is {number}, not {}", wanted[at].1));
            }
        }
        let arrays = [
            ("left", place(&self.lent.left, &expected.lent.left)),
            ("right", place(&self.lent.right, &expected.lent.right)),
            ("parent_color", place(&self.lent.pc, &expected.lent.pc)),
            ("key", place(&self.lent.key, &expected.lent.key)),
            ("the bytes that are read", place(&self.input, &expected.input)),
            ("the answers", place(&self.buffer, &expected.buffer)),
        ];
        let of_arrays = arrays.into_iter().find_map(|(name, at)| at.map(|at| format!("{name}{at}")));
        let of_part =
            (self.part != expected.part).then(|| format!("the part is {:?}, not {:?}", self.part, expected.part));
        of_arrays.or(of_part)
    }

    fn numbers(&self) -> [(&'static str, u64); 9] {
        [
            ("code", self.code),
            ("probes", self.probes),
            ("slot", self.slot),
            ("occupied", self.occupied),
            ("on_left", self.on_left),
            ("count", self.count),
            ("the code's key", self.key),
            ("root", self.lent.root.into()),
            ("the number of bytes changed beside the lent ones", self.spilt),
        ]
    }
}

/// The first place in which two lists differ, with both numbers.
fn place<T: PartialEq + ToString>(found: &[T], expected: &[T]) -> Option<String> {
    let at = (0..found.len().max(expected.len())).find(|&at| found.get(at) != expected.get(at))?;
    let shown = |list: &[T]| list.get(at).map_or("missing".to_string(), T::to_string);
    Some(format!("[{at}] is {}, not {}", shown(found), shown(expected)))
}
