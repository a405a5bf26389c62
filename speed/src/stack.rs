//! How much stack some work takes: it runs on a thread whose stack was painted before, and the paint that is gone afterwards is counted.

use std::ffi::c_void;
use std::ptr::null_mut;

/// Far more than any job takes.
const SIZE: usize = 8 << 20;

/// What the stack is painted with. A job that leaves just this byte at its deepest place is counted a little short.
const PAINT: u8 = 0xa7;

/// Room for a `pthread_attr_t`, whose size differs from machine to machine and is at most 64 bytes.
type Attributes = [u64; 16];

extern "C" {
    fn pthread_attr_init(attributes: *mut Attributes) -> i32;
    fn pthread_attr_setstack(attributes: *mut Attributes, stack: *mut c_void, size: usize) -> i32;
    fn pthread_create(
        thread: *mut usize,
        attributes: *const Attributes,
        start: extern "C" fn(*mut c_void) -> *mut c_void,
        argument: *mut c_void,
    ) -> i32;
    fn pthread_join(thread: usize, result: *mut *mut c_void) -> i32;
}

/// The bytes of stack that the work takes, without what a thread takes that does nothing.
pub fn used(mut work: impl FnMut()) -> usize {
    touched(&mut work) - touched(&mut || ())
}

fn touched(work: &mut dyn FnMut()) -> usize {
    // a stack begins at a multiple of 16; pages of 4096 serve every system
    let mut room = vec![PAINT; SIZE + 4096];
    let start = room.as_ptr().align_offset(4096);
    let stack = &mut room[start..start + SIZE];
    on_stack(stack, work);
    let untouched = stack.iter().take_while(|byte| **byte == PAINT).count();
    SIZE - untouched
}

fn on_stack(stack: &mut [u8], mut work: &mut dyn FnMut()) {
    let mut attributes: Attributes = [0; 16];
    let mut thread = 0;
    let argument = (&raw mut work).cast();
    // SAFETY: the attributes have room, the stack is a slice that outlives the thread, which is joined before this function returns, and the
    // argument is the `work` above, which is borrowed until then.
    let ended = unsafe {
        pthread_attr_init(&mut attributes)
            | pthread_attr_setstack(&mut attributes, stack.as_mut_ptr().cast(), stack.len())
            | pthread_create(&mut thread, &attributes, start, argument)
            | pthread_join(thread, null_mut())
    };
    assert_eq!(ended, 0, "a thread on a stack of its own");
}

extern "C" fn start(argument: *mut c_void) -> *mut c_void {
    // SAFETY: `on_stack` passes a `&mut dyn FnMut()` that nobody uses meanwhile.
    let work = unsafe { &mut *argument.cast::<&mut dyn FnMut()>() };
    work();
    null_mut()
}
