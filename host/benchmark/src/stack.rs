//! How much stack a call takes: it runs in a thread on painted memory, and what is no longer painted
//! afterwards was used.

use std::ffi::{c_int, c_void};
use std::ptr;

/// The thread's stack, in words.
const WORDS: usize = 1 << 17;

/// What a word holds that was never written.
const PAINT: u64 = 0x5ea1_ed57_ac4b_0a12;

/// `pthread_attr_t` of x86-64 Linux.
#[repr(C)]
struct Attributes([u64; 7]);

/// Memory for a stack, aligned as pthreads ask.
#[repr(C, align(4096))]
struct Stack([u64; WORDS]);

extern "C" {
    fn pthread_attr_init(attributes: *mut Attributes) -> c_int;
    fn pthread_attr_setstack(attributes: *mut Attributes, at: *mut c_void, size: usize) -> c_int;
    fn pthread_create(
        thread: *mut u64,
        attributes: *const Attributes,
        start: extern "C" fn(*mut c_void) -> *mut c_void,
        argument: *mut c_void,
    ) -> c_int;
    fn pthread_join(thread: u64, result: *mut *mut c_void) -> c_int;
}

struct Task<'a> {
    call: &'a mut dyn FnMut(),
    from: usize,
}

extern "C" fn start(argument: *mut c_void) -> *mut c_void {
    let task = unsafe { &mut *argument.cast::<Task>() };
    let here = 0u8;
    task.from = ptr::from_ref(&here) as usize;
    (task.call)();
    ptr::null_mut()
}

/// The bytes of stack that a call takes, counted from its caller.
pub fn stack_of(call: &mut dyn FnMut()) -> usize {
    let mut stack: Box<Stack> = unsafe { Box::new_uninit().assume_init() };
    stack.0.fill(PAINT);
    let mut task = Task { call, from: 0 };
    let mut attributes = Attributes([0; 7]);
    let mut thread = 0;
    let at: *mut Stack = &mut *stack;
    unsafe {
        let argument = ptr::from_mut(&mut task).cast();
        assert_eq!(pthread_attr_init(&mut attributes), 0);
        assert_eq!(pthread_attr_setstack(&mut attributes, at.cast(), size_of::<Stack>()), 0);
        assert_eq!(pthread_create(&mut thread, &attributes, start, argument), 0);
        assert_eq!(pthread_join(thread, ptr::null_mut()), 0);
    }
    let unused = stack.0.iter().take_while(|&&word| word == PAINT).count();
    task.from - (at as usize + 8 * unused)
}
