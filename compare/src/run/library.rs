//! The compiled library, asked through `server.c`, which serves its calls over pipes.

use std::io::{BufReader, Read, Result, Write};
use std::path::Path;
use std::process::{Child, ChildStdin, ChildStdout, Command, Stdio};

use super::reply::{self, Reply};
use crate::lent::{Entry, Lent, Side};
use crate::trials::Trial;

/// So many bytes fit into a pipe: the server can write them before anyone reads.
const ON_THE_WAY: usize = 48 * 1024;

pub struct Library {
    server: Child,
    requests: ChildStdin,
    replies: BufReader<ChildStdout>,
}

impl Library {
    /// Starts the server; `launch` runs a program that is built for the library's processor.
    pub fn start(launch: &Path, server: &Path) -> Result<Library> {
        let mut server = Command::new(launch).arg(server).stdin(Stdio::piped()).stdout(Stdio::piped()).spawn()?;
        let requests = server.stdin.take().expect("piped");
        let replies = BufReader::new(server.stdout.take().expect("piped"));
        Ok(Library { server, requests, replies })
    }

    /// What the library says to each of the trials, in their order; less where a call ended the server.
    pub fn ask<'a>(&mut self, trials: impl Iterator<Item = &'a Trial>) -> Vec<Reply> {
        let mut told = Vec::new();
        let _ = self.ask_all(trials, &mut told);
        told
    }

    fn ask_all<'a>(&mut self, trials: impl Iterator<Item = &'a Trial>, told: &mut Vec<Reply>) -> Result<()> {
        let (mut sent, mut bytes) = (Vec::new(), Vec::new());
        for trial in trials {
            let request = Request::of(trial);
            let more = request.bytes();
            if !sent.is_empty() && bytes.len() + more.len() > ON_THE_WAY {
                self.exchange(&mut sent, &mut bytes, told)?;
            }
            bytes.extend(more);
            sent.push(request);
        }
        self.exchange(&mut sent, &mut bytes, told)
    }

    fn exchange(&mut self, sent: &mut Vec<Request>, bytes: &mut Vec<u8>, told: &mut Vec<Reply>) -> Result<()> {
        self.requests.write_all(bytes)?;
        bytes.clear();
        for request in sent.drain(..) {
            told.push(self.receive(&request)?);
        }
        Ok(())
    }

    fn receive(&mut self, request: &Request) -> Result<Reply> {
        let mut numbers = [0; reply::NUMBERS];
        for number in &mut numbers {
            *number = self.number(8)?;
        }
        let lent = Lent {
            left: self.numbers(request.lent.left.len())?,
            right: self.numbers(request.lent.right.len())?,
            pc: self.numbers(request.lent.pc.len())?,
            key: (0..request.lent.key.len()).map(|_| self.number(8)).collect::<Result<_>>()?,
            root: 0,
        };
        let input = self.bytes(request.input.len())?;
        let buffer = self.bytes(request.buffer.len())?;
        Ok(Reply::new(numbers, lent, input, buffer))
    }

    fn number(&mut self, size: usize) -> Result<u64> {
        let mut bytes = [0; 8];
        self.replies.read_exact(&mut bytes[..size])?;
        Ok(u64::from_le_bytes(bytes))
    }

    fn numbers(&mut self, count: usize) -> Result<Vec<u32>> {
        (0..count).map(|_| Ok(self.number(4)? as u32)).collect()
    }

    fn bytes(&mut self, count: usize) -> Result<Vec<u8>> {
        let mut bytes = vec![0; count];
        self.replies.read_exact(&mut bytes)?;
        Ok(bytes)
    }
}

impl Drop for Library {
    /// The server waits for requests until it is ended.
    fn drop(&mut self) {
        let _ = self.server.kill();
        let _ = self.server.wait();
    }
}

/// The server's functions beyond the twelve that 01 numbers.
enum Function {
    Check = 13,
    Entry,
    OrInsert,
    Code,
    Batch,
}

static NOTHING: Lent = Lent { left: Vec::new(), right: Vec::new(), pc: Vec::new(), key: Vec::new(), root: 0 };

/// Numbers that mean yes where the library asks whether an entry is occupied or on the left. The side of an occupied
/// one is not looked at.
const YES: [u64; 4] = [1, 2, 1 << 31, u32::MAX as u64];

/// A request to the server, its numbers being those of `struct request` from `function` to `on_left`.
struct Request<'a> {
    numbers: [u64; 8],
    lent: &'a Lent,
    input: &'a [u8],
    buffer: &'a [u8],
}

impl<'a> Request<'a> {
    fn of(trial: &'a Trial) -> Request<'a> {
        let call = |function: Function, lent| Request::new([function as u64, 0, 0, 0, 0], None, lent);
        match trial {
            Trial::Check(lent) => call(Function::Check, lent),
            Trial::Call { command: c, before } => {
                Request::new([c.operation as u64, c.kind.into(), c.position.into(), c.slot.into(), c.key], None, before)
            }
            Trial::Entry { key, lent } => Request::new([Function::Entry as u64, 0, 0, 0, *key], None, lent),
            Trial::OrInsert { entry, slot, key, before } => {
                Request::new([Function::OrInsert as u64, 0, 0, (*slot).into(), *key], Some(*entry), before)
            }
            Trial::Line(line) => Request { input: line, ..call(Function::Code, &NOTHING) },
            Trial::Batch { input, buffer, before } => Request { input, buffer, ..call(Function::Batch, before) },
            _ => panic!("not a call of the library: {trial:?}"),
        }
    }

    fn new(call: [u64; 5], entry: Option<Entry>, lent: &'a Lent) -> Request<'a> {
        let yes = |slot: u32| YES[slot as usize % YES.len()];
        let entry = match entry {
            Some(Entry::Occupied(slot)) => [yes(slot), slot.into(), yes(slot / 2) - 1],
            Some(Entry::Vacant(parent, Side::Left)) => [0, parent.into(), yes(parent)],
            Some(Entry::Vacant(parent, Side::Right)) => [0, parent.into(), 0],
            None => [0; 3],
        };
        let numbers = [&call[..], &entry].concat().try_into().expect("eight numbers");
        Request { numbers, lent, input: &[], buffer: &[] }
    }

    fn bytes(&self) -> Vec<u8> {
        let lent = self.lent;
        let arrays = [lent.left.len(), lent.right.len(), lent.pc.len(), lent.key.len()];
        let lengths = [&arrays[..], &[self.input.len(), self.buffer.len()]].concat();
        let numbers = self.numbers.into_iter().chain([lent.root.into()]).chain(lengths.iter().map(|&n| n as u64));
        let mut bytes: Vec<u8> = numbers.flat_map(u64::to_le_bytes).collect();
        for array in [&lent.left, &lent.right, &lent.pc] {
            bytes.extend(array.iter().flat_map(|number| number.to_le_bytes()));
        }
        bytes.extend(lent.key.iter().flat_map(|key| key.to_le_bytes()));
        bytes.extend(self.input);
        bytes.extend(self.buffer);
        bytes
    }
}
