//! `compare vectors`: records over a few slots, and what 01 and the crate say to each, for a program that replays them.
//! They are chosen so that every kind of case is met that a search finds for so few slots, and every case of hanging
//! and removal that these can reach.

use std::fs;
use std::io::{Error, Result};
use std::path::Path;

use crate::batch::{self, RECORD};
use crate::cases;
use crate::coverage::Kinds;
use crate::lent::{Code, Command, Lent, Operation};
use crate::oracle::Oracle;
use crate::random::Random;
use crate::rules;
use crate::scripts;
use crate::trials::{Said, Trial};

const SLOTS: usize = 12;
const RECORDS: usize = 600;
/// Out of so many pieces of at most so many commands that one comes next which meets the most new kinds for its length.
const PIECES: usize = 500;
const LONGEST: usize = 40;

pub fn run(words: &[String]) {
    let told = match words {
        [folder] => write(Path::new(folder)),
        [word, folder] if word == "--check" => check(Path::new(folder)),
        _ => Err(Error::other("usage: compare vectors [--check] FOLDER")),
    };
    match told {
        Ok(told) => println!("{told}"),
        Err(error) => {
            eprintln!("compare: {error}");
            std::process::exit(2);
        }
    }
}

fn write(folder: &Path) -> Result<String> {
    let commands = chosen(&mut Random::new(1));
    let records = with_bad_operations(&commands);
    fs::write(folder.join("stdin"), records.concat())?;
    fs::write(folder.join("stdout"), output(&records))?;
    Ok(format!("{} records: {}", records.len(), coverage(&commands)))
}

/// Holds files that were written before to what 01 and the crate say now.
fn check(folder: &Path) -> Result<String> {
    let (input, stored) = (fs::read(folder.join("stdin"))?, fs::read(folder.join("stdout"))?);
    let records: Vec<[u8; RECORD]> = input.chunks(RECORD).map_while(|record| record.try_into().ok()).collect();
    let commands: Vec<Command> = records.iter().filter_map(|record| batch::command(record)).collect();
    if output(&records) != stored {
        println!("DIFFERENT: {} holds other answers", folder.join("stdout").display());
        std::process::exit(1);
    }
    Ok(format!("{} stored records agree: {}", records.len(), coverage(&commands)))
}

/// How much they meet; all cases of hanging and removal that there are must be among it.
fn coverage(commands: &[Command]) -> String {
    let mut kinds = Kinds::default();
    play(&Lent::empty(SLOTS), commands, |trial, said| {
        kinds.note(trial, said, 0);
    });
    let (reachable, shapes) = cases::all(SLOTS);
    let repairs = reachable.repairs();
    assert_eq!(kinds.repairs(), repairs, "not all cases of hanging and removal are met");
    let (kinds, repairs) = (kinds.len(), repairs.len());
    format!("{kinds} kinds of case, all {repairs} of hanging and removal that {shapes} shapes of tree have")
}

/// Commands one after another from the empty tree that meet each kind once, then twice, and so on.
fn chosen(random: &mut Random) -> Vec<Command> {
    let (mut commands, mut kinds, mut now) = (Vec::new(), Kinds::default(), Lent::empty(SLOTS));
    let mut wanted = 1;
    while commands.len() < RECORDS {
        match best_piece(&now, &kinds, wanted, random) {
            Some(piece) => {
                now = play(&now, &piece, |trial, said| {
                    kinds.note(trial, said, wanted);
                });
                commands.extend(piece);
            }
            None => wanted += 1,
        }
    }
    commands.truncate(RECORDS);
    commands
}

/// The piece that meets the most kinds for its length which were met fewer than `wanted` times.
fn best_piece(now: &Lent, kinds: &Kinds, wanted: usize, random: &mut Random) -> Option<Vec<Command>> {
    let mut best: Option<(usize, Vec<Command>)> = None;
    for _ in 0..PIECES {
        let commands = piece(now, random);
        let (mut met, mut useful, mut length, mut kinds) = (0, 0, 0, kinds.clone());
        play(now, &commands, |trial, said| {
            length += 1;
            if kinds.note(trial, said, wanted) {
                (met, useful) = (met + 1, length);
            }
        });
        let better = best.as_ref().is_none_or(|(most, piece)| met * piece.len() > most * useful);
        if met > 0 && better {
            best = Some((met, commands[..useful].to_vec()));
        }
    }
    best.map(|(_, piece)| piece)
}

/// Any commands; or all slots hung by rising or falling keys, then some taken out.
fn piece(now: &Lent, random: &mut Random) -> Vec<Command> {
    let mut commands = Vec::new();
    let any = |random: &mut Random, now: &Lent| as_recorded(scripts::command(now, random));
    let mut now = now.clone();
    let falling = random.once_in(2);
    let ordered = random.once_in(3);
    for step in 0..LONGEST {
        let mut command = any(random, &now);
        if ordered && step == 0 {
            command.operation = Operation::Clear;
        } else if ordered && step <= SLOTS {
            let slot = scripts::any_slot(|slot| !now.is_linked(slot), &now, random);
            let key = if falling { 100 - step } else { 100 + step } as u64;
            command = Command { operation: Operation::Insert, slot, key, ..command };
        } else if ordered || random.once_in(4) {
            command.operation = Operation::Remove;
        }
        now = rules::operate(&command, &now).after;
        commands.push(command);
    }
    commands
}

/// The command that is read from its record, whose fields are narrower.
fn as_recorded(command: Command) -> Command {
    batch::command(&batch::record(&command)).expect("a record of a command")
}

/// The numbers after the commands; each is shown with what is said to it.
fn play(start: &Lent, commands: &[Command], mut show: impl FnMut(&Trial, &Said)) -> Lent {
    let (mut tree, mut now) = (Oracle::load(start), start.clone());
    for &command in commands {
        let outcome = rules::operate_on(&mut tree, &command, &now);
        let trial = Trial::Call { command, before: now };
        now = outcome.after.clone();
        show(&trial, &Said::Outcome(outcome));
    }
    now
}

/// The records of the commands; after each fiftieth one stands a record whose operation is none.
fn with_bad_operations(commands: &[Command]) -> Vec<[u8; RECORD]> {
    let mut records = Vec::new();
    for (commands, operation) in commands.chunks(50).zip([0, 13, 255].into_iter().cycle()) {
        records.extend(commands.iter().map(batch::record));
        let mut bad = *records.last().expect("a chunk is not empty");
        bad[2] = operation;
        records.push(bad);
    }
    records
}

/// For each record its answer, the root, and of each slot left, right, parent_color and key; little endian.
fn output(records: &[[u8; RECORD]]) -> Vec<u8> {
    let (mut tree, mut now) = (Oracle::load(&Lent::empty(SLOTS)), Lent::empty(SLOTS));
    let mut bytes = Vec::new();
    for record in records {
        let outcome = match batch::command(record) {
            Some(command) => rules::operate_on(&mut tree, &command, &now),
            None => rules::refused(Code::BadRecord, &now),
        };
        now = outcome.after;
        bytes.extend(batch::answer(&outcome.answer));
        bytes.extend((now.root as u16).to_le_bytes());
        for slot in now.slots().map(|slot| slot as usize - 1) {
            let numbers = [now.left[slot], now.right[slot], now.pc[slot]];
            bytes.extend(numbers.iter().flat_map(|&number| (number as u16).to_le_bytes()));
            bytes.extend(now.key[slot].to_le_bytes());
        }
    }
    bytes
}
