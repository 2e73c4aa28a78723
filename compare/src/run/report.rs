//! What is shown of a difference: the smallest input that still differs.

use std::fmt::Debug;
use std::time::{Duration, Instant};

use super::talk::Difference;

/// Looking for something smaller ends after this time.
const LONGEST: Duration = Duration::from_secs(30);
/// So much of an input is shown; the rest would fill the screen.
const SHOWN: usize = 4_000;

#[derive(Debug)]
pub struct Report {
    pub text: String,
    /// how many commands, records or bytes the input has
    pub size: usize,
}

impl From<Box<Difference>> for Report {
    fn from(difference: Box<Difference>) -> Report {
        Report { text: format!("{}\n  in {}", difference.told, short(&difference.trial)), size: 1 }
    }
}

impl Report {
    /// A difference after several items of a list that was made smaller.
    pub fn of_list<T: Debug>(start: &str, items: &[T], told: &str) -> Report {
        let lines: String = items.iter().map(|item| format!("\n    {item:?}")).collect();
        Report { text: format!("{told}\n  after this, from {start}:{}", cut(lines)), size: items.len() }
    }
}

fn short(input: &impl Debug) -> String {
    cut(format!("{input:?}"))
}

fn cut(mut text: String) -> String {
    if text.len() > SHOWN {
        let end = (0..=SHOWN).rev().find(|&at| text.is_char_boundary(at)).unwrap_or(0);
        text.truncate(end);
        text.push_str(" ..");
    }
    text
}

/// The list without what can be dropped from it while it still differs: large pieces first, then single items.
pub fn smallest<T: Clone>(items: &[T], mut differs: impl FnMut(&[T]) -> bool) -> Vec<T> {
    let (start, mut kept, mut piece) = (Instant::now(), items.to_vec(), items.len());
    while piece > 0 && start.elapsed() < LONGEST {
        let (mut at, mut dropped) = (0, false);
        while at < kept.len() && start.elapsed() < LONGEST {
            let end = (at + piece).min(kept.len());
            let rest = [&kept[..at], &kept[end..]].concat();
            if differs(&rest) {
                (kept, dropped) = (rest, true);
            } else {
                at = end;
            }
        }
        if !dropped || piece > 1 {
            piece /= 2;
        }
    }
    kept
}
