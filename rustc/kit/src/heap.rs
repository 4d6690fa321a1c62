//! Memory for Rust's crates, which can't go on without it: if it is refused, the program ends.

use ::std::alloc::{GlobalAlloc, Layout, System};
use ::std::io::Write;
use ::std::sync::atomic::{AtomicBool, Ordering::Relaxed};

/// The system's memory.
pub struct Heap;

static NEEDED: AtomicBool = AtomicBool::new(false);

/// Makes a call that can't go on if memory is refused. The program has one thread.
pub fn needing<T>(call: impl FnOnce() -> T) -> T {
    NEEDED.store(true, Relaxed);
    let answer = call();
    NEEDED.store(false, Relaxed);
    answer
}

/// Ends the program if it needs memory and the system refuses it, as chanv ends if memory runs out.
fn checked(memory: *mut u8) -> *mut u8 {
    if memory.is_null() && NEEDED.load(Relaxed) {
        let _ = crate::runtime::HostRuntime::new().stderr().write(b"chanv: out of memory\n");
        ::std::process::exit(3);
    }
    memory
}

// SAFETY: all memory is the system's.
unsafe impl GlobalAlloc for Heap {
    unsafe fn alloc(&self, layout: Layout) -> *mut u8 {
        checked(unsafe { System.alloc(layout) })
    }

    unsafe fn dealloc(&self, memory: *mut u8, layout: Layout) {
        unsafe { System.dealloc(memory, layout) }
    }

    unsafe fn realloc(&self, memory: *mut u8, layout: Layout, size: usize) -> *mut u8 {
        checked(unsafe { System.realloc(memory, layout, size) })
    }
}
