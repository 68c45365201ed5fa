//! How much stack a call of the library takes: it runs in a thread on a painted stack of ours, and what is not paint any
//! more after it was used. What an empty thread uses is taken off.

use std::ffi::c_void;
use std::ptr::null_mut;

const SIZE: usize = 64 << 20;
const PAINT: u8 = 0xA5;

type Start = extern "C" fn(*mut c_void) -> *mut c_void;

/// At least as large as glibc's attributes of a thread, and as well aligned.
#[repr(C, align(16))]
struct Attributes([u8; 256]);

/// A stack, aligned as threads want it.
#[repr(C, align(4096))]
#[derive(Clone, Copy)]
struct Page([u8; 4096]);

unsafe extern "C" {
    fn pthread_attr_init(attributes: *mut Attributes) -> i32;
    fn pthread_attr_setstack(attributes: *mut Attributes, stack: *mut c_void, size: usize) -> i32;
    fn pthread_create(thread: *mut usize, attributes: *const Attributes, start: Start, given: *mut c_void) -> i32;
    fn pthread_join(thread: usize, result: *mut *mut c_void) -> i32;
}

extern "C" fn nothing(_: *mut c_void) -> *mut c_void {
    null_mut()
}

extern "C" fn call(given: *mut c_void) -> *mut c_void {
    // SAFETY: `used` hands over a call that lives until the thread has been joined.
    let call = unsafe { &mut *given.cast::<&mut dyn FnMut()>() };
    call();
    null_mut()
}

/// The bytes of a painted stack that a thread changed.
fn painted(start: Start, given: *mut c_void) -> Result<usize, String> {
    let mut stack = vec![Page([PAINT; 4096]); SIZE / 4096];
    let mut attributes = Attributes([0; 256]);
    let mut thread = 0;
    // SAFETY: the attributes are initialised before they are used; the stack is ours and outlives the thread, which is
    // joined.
    let done = unsafe {
        pthread_attr_init(&mut attributes) == 0
            && pthread_attr_setstack(&mut attributes, stack.as_mut_ptr().cast(), SIZE) == 0
            && pthread_create(&mut thread, &attributes, start, given) == 0
            && pthread_join(thread, null_mut()) == 0
    };
    if !done {
        return Err("no thread can be started on a stack of its own".into());
    }
    let free = stack.iter().flat_map(|page| page.0).take_while(|byte| *byte == PAINT).count();
    Ok(SIZE - free)
}

/// The stack that a call takes, in bytes.
pub fn used(mut made: &mut dyn FnMut()) -> Result<usize, String> {
    let whole = painted(call, (&raw mut made).cast())?;
    Ok(whole.saturating_sub(painted(nothing, null_mut())?))
}
