//! The library's batch call, linked into this program.

use crate::lent::Lent;

#[repr(C)]
struct Batched {
    code: u32,
    count: u32,
}

extern "C" {
    fn lichenbrooch_batch(
        left: *mut u32,
        left_length: usize,
        right: *mut u32,
        right_length: usize,
        parent_color: *mut u32,
        parent_color_length: usize,
        key: *mut u64,
        key_length: usize,
        root: *mut u32,
        commands: *const u8,
        commands_length: usize,
        answers: *mut u8,
        answers_length: usize,
    ) -> Batched;
}

/// The code and the number of answers.
pub fn batch(lent: &mut Lent, commands: &[u8], answers: &mut [u8]) -> (u32, u32) {
    let Lent { left, right, pc, key, root } = lent;
    let batched = unsafe {
        lichenbrooch_batch(
            left.as_mut_ptr(),
            left.len(),
            right.as_mut_ptr(),
            right.len(),
            pc.as_mut_ptr(),
            pc.len(),
            key.as_mut_ptr(),
            key.len(),
            root,
            commands.as_ptr(),
            commands.len(),
            answers.as_mut_ptr(),
            answers.len(),
        )
    };
    (batched.code, batched.count)
}
