//! A door's list of codes: each line typed is let in once, however it is spelled, and the list is read in order.
//!
//!     cargo run --example doors -- ' Rose7' ivy42 rOSE7 'moss 12'
use lichenbrooch::{code_key, code_part, Code, Index, Slot};
use std::process::ExitCode;

const SLOTS: usize = 64;

/// Lets a line's code in, in a new slot; false where it was in before.
fn enter(index: &mut Index, line: &str, free: Slot) -> Result<bool, Code> {
    let key = code_key(line.as_bytes())?;
    Ok(index.find_or_insert(free, key).done()? == free)
}

/// The slots in the order of their codes.
fn in_order(index: &Index) -> Result<Vec<Slot>, Code> {
    let mut slots = Vec::new();
    let mut slot = index.next(Slot(0)).done()?;
    while slot != Slot(0) {
        slots.push(slot);
        slot = index.next(slot).done()?;
    }
    Ok(slots)
}

fn run(lines: &[String]) -> Result<(), Code> {
    let (mut left, mut right, mut parent_color, mut key) = ([0; SLOTS], [0; SLOTS], [0; SLOTS], [0; SLOTS]);
    let mut index =
        Index { left: &mut left, right: &mut right, parent_color: &mut parent_color, key: &mut key, root: &mut 0 };
    let mut codes: Vec<&[u8]> = Vec::new();
    for line in lines {
        let free = Slot(codes.len() as u32 + 1);
        match enter(&mut index, line, free) {
            Ok(true) => codes.push(code_part(line.as_bytes())),
            Ok(false) => println!("{line:?} is in already"),
            Err(code) => println!("{line:?} is refused: {code:?}"),
        }
    }
    for slot in in_order(&index)? {
        println!("slot {}: {}", slot.0, String::from_utf8_lossy(codes[slot.0 as usize - 1]));
    }
    Ok(())
}

fn main() -> ExitCode {
    let lines: Vec<String> = std::env::args().skip(1).collect();
    match run(&lines) {
        Ok(()) => ExitCode::SUCCESS,
        Err(code) => {
            eprintln!("the index said {code:?}");
            ExitCode::FAILURE
        }
    }
}
