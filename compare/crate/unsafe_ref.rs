//! A stand-in for the one file of the crate that its copy lacks: just what the other files ask of `UnsafeRef`.

use core::ops::Deref;
use core::ptr::NonNull;

/// A pointer without an owner, by which nodes are lent to a tree.
pub struct UnsafeRef<T: ?Sized>(NonNull<T>);

impl<T: ?Sized> UnsafeRef<T> {
    /// The reference that a raw pointer stands for.
    ///
    /// # Safety
    /// The pointer must be valid for as long as the reference is used.
    pub unsafe fn from_raw(value: *const T) -> UnsafeRef<T> {
        UnsafeRef(NonNull::new_unchecked(value as *mut T))
    }

    /// The raw pointer again.
    pub fn into_raw(this: UnsafeRef<T>) -> *mut T {
        this.0.as_ptr()
    }
}

impl<T: ?Sized> Clone for UnsafeRef<T> {
    fn clone(&self) -> UnsafeRef<T> {
        UnsafeRef(self.0)
    }
}

impl<T: ?Sized> Deref for UnsafeRef<T> {
    type Target = T;

    fn deref(&self) -> &T {
        unsafe { self.0.as_ref() }
    }
}
