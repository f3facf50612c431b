//! A call made on a stack of its own that was painted before: how far down it wrote.

use std::ffi::{c_int, c_void};
use std::ptr::null_mut;

extern "C" {
    fn pthread_attr_init(attributes: *mut u64) -> c_int;
    fn pthread_attr_setstack(attributes: *mut u64, lowest: *mut c_void, length: usize) -> c_int;
    fn pthread_attr_destroy(attributes: *mut u64) -> c_int;
    fn pthread_create(
        thread: *mut usize,
        attributes: *const u64,
        start: extern "C" fn(*mut c_void) -> *mut c_void,
        argument: *mut c_void,
    ) -> c_int;
    fn pthread_join(thread: usize, result: *mut *mut c_void) -> c_int;
}

/// Room for what the system itself puts on a thread's stack, too.
const STACK: usize = 256 * 1024;
const PAINT: u8 = 0xA5;

struct Work<'a> {
    call: &'a mut dyn FnMut(),
    /// The stack's place before the call.
    entered: usize,
}

extern "C" fn start(work: *mut c_void) -> *mut c_void {
    // SAFETY: it is the `Work` of `stack_used`, which waits for this thread.
    let work = unsafe { &mut *work.cast::<Work>() };
    let here = 0u8;
    work.entered = std::hint::black_box(&here) as *const u8 as usize;
    (work.call)();
    null_mut()
}

/// Bytes from the place before the call down to the lowest that it changed. The call must not panic.
pub fn stack_used(call: &mut dyn FnMut()) -> usize {
    // Pages of 64 KB are the greatest that the system lays a stack out by.
    let mut stack: Vec<[u8; 4096]> = vec![[PAINT; 4096]; STACK / 4096 + 16];
    let lowest = (stack.as_mut_ptr() as usize).next_multiple_of(65_536);
    let mut work = Work { call, entered: 0 };
    // More than the system's own size of it on x86-64 and Arm, 56 and 64 bytes.
    let mut attributes = [0u64; 32];
    let (mut thread, mut result) = (0usize, null_mut());
    let work_place: *mut Work = &mut work;
    // SAFETY: the stack and the work outlive the thread, which is joined here.
    let done = unsafe {
        [
            pthread_attr_init(attributes.as_mut_ptr()),
            pthread_attr_setstack(attributes.as_mut_ptr(), lowest as *mut c_void, STACK),
            pthread_create(&mut thread, attributes.as_ptr(), start, work_place.cast()),
            pthread_join(thread, &mut result),
            pthread_attr_destroy(attributes.as_mut_ptr()),
        ]
    };
    assert_eq!(done, [0; 5], "a thread on a stack of our own");
    let first = lowest - stack.as_ptr() as usize;
    let bytes = &stack.as_flattened()[first..first + STACK];
    let untouched = bytes.iter().take_while(|&&byte| byte == PAINT).count();
    assert!(untouched > 0, "the stack was used up");
    work.entered - (lowest + untouched)
}
