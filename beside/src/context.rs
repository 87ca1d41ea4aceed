//! Code that runs on a stack of its own, and the switch to and from it: the C library's ucontext.

use std::mem::MaybeUninit;

#[repr(C)]
struct Room {
    start: *mut u8,
    flags: i32,
    size: usize,
}

/// The head of the C library's `ucontext_t`, the same on x86-64 and aarch64, and room for its registers.
#[repr(C, align(16))]
pub struct Context {
    flags: usize,
    link: *mut Context,
    room: Room,
    registers: MaybeUninit<[u8; 5120]>,
}

unsafe extern "C" {
    fn getcontext(context: *mut Context) -> i32;
    fn makecontext(context: *mut Context, start: extern "C" fn(), arguments: i32, ...);
    fn swapcontext(from: *mut Context, to: *const Context) -> i32;
}

impl Context {
    pub fn new() -> Box<Context> {
        let room = Room { start: std::ptr::null_mut(), flags: 0, size: 0 };
        let mut context =
            Box::new(Context { flags: 0, link: std::ptr::null_mut(), room, registers: MaybeUninit::zeroed() });
        let answer = unsafe { getcontext(&mut *context) };
        assert_eq!(answer, 0, "getcontext");
        context
    }

    /// Makes the next switch to it call `start`, which never returns, on the bytes given.
    ///
    /// # Safety
    ///
    /// The bytes are used by nothing else until the context is made anew.
    pub unsafe fn start(&mut self, start: extern "C" fn(), bytes: *mut u8, size: usize) {
        self.room = Room { start: bytes, flags: 0, size };
        unsafe { makecontext(self, start, 0) };
    }
}

/// Goes on at `to`, and comes back when something switches to `from`.
///
/// # Safety
///
/// `to` was started, or was the `from` of an earlier switch.
pub unsafe fn switch(from: *mut Context, to: *const Context) {
    let answer = unsafe { swapcontext(from, to) };
    assert_eq!(answer, 0, "swapcontext");
}
