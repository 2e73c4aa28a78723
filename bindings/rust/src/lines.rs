//! The code of a line: its key, and which part of the line it is.
use crate::raw;
use crate::{Code, Key};

/// The key of a line's code, or BadCode.
pub fn code_key(line: &[u8]) -> Result<Key, Code> {
    // The slice gives a pointer that is valid for its length.
    let coded = unsafe { raw::lichenbrooch_code_key(line.as_ptr(), line.len()) };
    match coded.code.into() {
        Code::Done => Ok(Key(coded.key)),
        code => Err(code),
    }
}

/// The code itself, a part of the caller's own line; empty where the line is refused.
pub fn code_part(line: &[u8]) -> &[u8] {
    // The slice gives a pointer that is valid for its length.
    let part = unsafe { raw::lichenbrooch_code_part(line.as_ptr(), line.len()) };
    line.get(part.start..).and_then(|rest| rest.get(..part.length)).unwrap_or_default()
}
