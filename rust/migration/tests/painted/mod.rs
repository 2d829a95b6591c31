//! How much stack some work needs: it runs in a thread whose stack is memory of
//! ours, painted before, and what is no longer painted afterwards was needed.

use std::alloc::{alloc, dealloc, Layout};
use std::ffi::{c_int, c_void};
use std::ptr::null_mut;

/// The stack of the painted thread: more than any call needs.
const STACK: usize = 2 << 20;

/// The paint.
const PAINT: u8 = 0x5C;

/// As much room as the attributes of a thread take, and more.
#[repr(C, align(16))]
struct Attributes([u8; 256]);

type Start = extern "C" fn(*mut c_void) -> *mut c_void;

extern "C" {
    fn pthread_attr_init(attributes: *mut Attributes) -> c_int;
    fn pthread_attr_setstack(attributes: *mut Attributes, at: *mut c_void, size: usize) -> c_int;
    fn pthread_create(
        thread: *mut usize,
        attributes: *const Attributes,
        start: Start,
        lent: *mut c_void,
    ) -> c_int;
    fn pthread_join(thread: usize, given: *mut *mut c_void) -> c_int;
}

/// The work, and the address of the frame that does it.
struct Task<'a> {
    work: &'a mut dyn FnMut(),
    frame: usize,
}

/// Runs the work of a task, which must not panic.
extern "C" fn start(task: *mut c_void) -> *mut c_void {
    // SAFETY: `need` lends the task until the thread has ended.
    let task = unsafe { &mut *task.cast::<Task>() };
    let frame = 0u8;
    task.frame = &raw const frame as usize;
    (task.work)();
    null_mut()
}

/// The bytes of stack that the work needs below the frame that does it.
pub fn need(work: &mut dyn FnMut()) -> usize {
    let layout = Layout::from_size_align(STACK, 1 << 16).expect("a layout");
    let mut task = Task { work, frame: 0 };
    // SAFETY: the stack is memory of ours, as long and aligned as a stack has to be, and nothing
    // else touches it or the task while the thread runs; both last until it has ended.
    unsafe {
        let stack = alloc(layout);
        assert!(!stack.is_null(), "no memory for a stack");
        stack.write_bytes(PAINT, STACK);
        let mut attributes = Attributes([0; 256]);
        assert_eq!(pthread_attr_init(&mut attributes), 0);
        assert_eq!(pthread_attr_setstack(&mut attributes, stack.cast(), STACK), 0);
        let (mut thread, lent) = (0, &raw mut task);
        assert_eq!(pthread_create(&mut thread, &attributes, start, lent.cast()), 0);
        assert_eq!(pthread_join(thread, null_mut()), 0);
        let left = std::slice::from_raw_parts(stack, STACK).iter();
        let painted = left.take_while(|&&byte| byte == PAINT).count();
        let need = task.frame - (stack as usize + painted);
        dealloc(stack, layout);
        assert!(painted > STACK / 8, "the painted stack is too small to tell the need");
        need
    }
}
