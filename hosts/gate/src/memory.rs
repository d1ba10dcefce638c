//! Where memory runs out, the gate ends with a message and the status of a sheet that could not be read.
use std::alloc::{GlobalAlloc, Layout, System};

extern "C" {
    fn write(file: i32, bytes: *const u8, size: usize) -> isize;
    fn _exit(status: i32) -> !;
    fn signal(number: i32, handler: extern "C" fn(i32)) -> usize;
}

/// Linux's number of the signal with which the C library gives up, once it has said why.
const SIGABRT: i32 = 6;

extern "C" fn given_up(_: i32) {
    // SAFETY: the program ends.
    unsafe { _exit(3) }
}

/// Where the C library itself runs out of memory, the gate ends with the same status.
pub fn end_where_the_system_gives_up() {
    // SAFETY: the handler does nothing but end the program.
    unsafe { signal(SIGABRT, given_up) };
}

/// The system's memory, or the end of the program.
struct OrEnd;

#[global_allocator]
static MEMORY: OrEnd = OrEnd;

/// Ends the program where there is no memory. To say so takes none.
pub fn end() -> ! {
    const MESSAGE: &[u8] = b"gate: out of memory\n";
    // SAFETY: the bytes are those of the message, and the program ends.
    unsafe {
        write(2, MESSAGE.as_ptr(), MESSAGE.len());
        _exit(3)
    }
}

/// Memory that was given.
fn given(memory: *mut u8) -> *mut u8 {
    if memory.is_null() {
        end();
    }
    memory
}

// SAFETY: every call is handed on to the system's allocator as it is.
unsafe impl GlobalAlloc for OrEnd {
    unsafe fn alloc(&self, layout: Layout) -> *mut u8 {
        given(System.alloc(layout))
    }
    unsafe fn alloc_zeroed(&self, layout: Layout) -> *mut u8 {
        given(System.alloc_zeroed(layout))
    }
    unsafe fn realloc(&self, memory: *mut u8, layout: Layout, size: usize) -> *mut u8 {
        given(System.realloc(memory, layout, size))
    }
    unsafe fn dealloc(&self, memory: *mut u8, layout: Layout) {
        System.dealloc(memory, layout)
    }
}
