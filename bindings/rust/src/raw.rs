//! The interface of the library as it is for C: `bindings/c/lichenbrooch.h` says what each function does.
#![allow(missing_docs)]

#[repr(C)]
#[derive(Clone, Copy, Debug, PartialEq, Eq)]
pub struct Answer {
    pub code: u32,
    pub probes: u32,
    pub slot: u32,
}

#[repr(C)]
#[derive(Clone, Copy, Debug, PartialEq, Eq)]
pub struct Entry {
    pub code: u32,
    pub occupied: u32,
    pub slot: u32,
    pub on_left: u32,
}

#[repr(C)]
#[derive(Clone, Copy, Debug, PartialEq, Eq)]
pub struct Batched {
    pub code: u32,
    pub count: u32,
}

#[repr(C)]
#[derive(Clone, Copy, Debug, PartialEq, Eq)]
pub struct Coded {
    pub code: u32,
    pub key: u64,
}

#[repr(C)]
#[derive(Clone, Copy, Debug, PartialEq, Eq)]
pub struct Part {
    pub start: usize,
    pub length: usize,
}

// The functions over arrays to look at, or to change: the lent arrays and the root, then what each call has of its own.
macro_rules! over_arrays {
    ($(fn $name:ident(($($links:tt)*), ($($keys:tt)*), $root:ty $(, $argument:ident: $type:ty)*) -> $answer:ty;)*) => {
        extern "C" {
            $(pub fn $name(
                left: $($links)* u32,
                left_length: usize,
                right: $($links)* u32,
                right_length: usize,
                parent_color: $($links)* u32,
                parent_color_length: usize,
                key: $($keys)* u64,
                key_length: usize,
                root: $root
                $(, $argument: $type)*
            ) -> $answer;)*
        }
    };
}

over_arrays! {
    fn lichenbrooch_check((*const), (*const), u32) -> u32;
    fn lichenbrooch_find((*const), (*const), u32, k: u64) -> Answer;
    fn lichenbrooch_lower_bound((*const), (*const), u32, kind: u32, k: u64) -> Answer;
    fn lichenbrooch_upper_bound((*const), (*const), u32, kind: u32, k: u64) -> Answer;
    fn lichenbrooch_next((*const), (*const), u32, position: u32) -> Answer;
    fn lichenbrooch_prev((*const), (*const), u32, position: u32) -> Answer;
    fn lichenbrooch_entry_for((*const), (*const), u32, k: u64) -> Entry;
    fn lichenbrooch_insert((*mut), (*mut), *mut u32, slot: u32, k: u64) -> Answer;
    fn lichenbrooch_find_or_insert((*mut), (*mut), *mut u32, slot: u32, k: u64) -> Answer;
    fn lichenbrooch_or_insert((*mut), (*mut), *mut u32, entry: Entry, slot: u32, k: u64) -> Answer;
    fn lichenbrooch_remove((*mut), (*const), *mut u32, position: u32) -> Answer;
    fn lichenbrooch_insert_after((*mut), (*mut), *mut u32, position: u32, slot: u32, k: u64) -> Answer;
    fn lichenbrooch_insert_before((*mut), (*mut), *mut u32, position: u32, slot: u32, k: u64) -> Answer;
    fn lichenbrooch_replace_with((*mut), (*mut), *mut u32, position: u32, slot: u32, k: u64) -> Answer;
    fn lichenbrooch_clear((*mut), (*const), *mut u32) -> Answer;
    fn lichenbrooch_batch((*mut), (*mut), *mut u32, commands: *const u8, commands_length: usize,
        answers: *mut u8, answers_length: usize) -> Batched;
}

extern "C" {
    pub fn lichenbrooch_code_key(line: *const u8, line_length: usize) -> Coded;
    pub fn lichenbrooch_code_part(line: *const u8, line_length: usize) -> Part;
}
