//! How much of its stack a thread has left, asked of the C library: what a thread is given may be
//! more than what was asked for.

use std::ffi::c_void;

/// The stack that the calls are promised to need less than.
pub const SMALL_STACK: usize = 64 * 1024;

/// Room for the C library's pthread_attr_t, with some to spare.
#[repr(C, align(16))]
struct Attributes([u64; 16]);

extern "C" {
    fn pthread_self() -> usize;
    fn pthread_getattr_np(thread: usize, attributes: *mut Attributes) -> i32;
    fn pthread_attr_getstack(
        attributes: *const Attributes,
        lowest: *mut *mut c_void,
        bytes: *mut usize,
    ) -> i32;
    fn pthread_attr_destroy(attributes: *mut Attributes) -> i32;
}

/// Bytes between the caller's frame and the lowest address of this thread's stack.
#[inline(never)]
pub fn stack_left() -> usize {
    let mut attributes = Attributes([0; 16]);
    let (mut lowest, mut bytes) = (std::ptr::null_mut(), 0);
    // SAFETY: the attributes are those of the thread that runs, and each address is of a local.
    unsafe {
        assert_eq!(pthread_getattr_np(pthread_self(), &mut attributes), 0);
        assert_eq!(pthread_attr_getstack(&attributes, &mut lowest, &mut bytes), 0);
        pthread_attr_destroy(&mut attributes);
    }
    let here = &raw const attributes as usize;
    here - lowest as usize
}

#[cfg(test)]
mod small {
    use super::*;

    /// A thread that was asked to have a small stack has no more, and most of that is left.
    #[test]
    fn stack_is_as_asked() {
        let thread = std::thread::Builder::new().stack_size(SMALL_STACK).spawn(stack_left);
        let left = thread.expect("the thread starts").join().expect("the thread ends");
        println!("{left} of {SMALL_STACK} bytes left");
        assert!((SMALL_STACK / 2..=SMALL_STACK).contains(&left), "{left} bytes");
    }
}
