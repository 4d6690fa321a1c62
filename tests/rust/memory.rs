//! Refuses each growth of memory of a call in turn: the call says so, and doesn't end the process.

use chanv::{Allowed, Area, Device, Extent, Job, Row, Source};
use std::alloc::{GlobalAlloc, Layout, System};
use std::fmt::Display;
use std::ptr::null_mut;
use std::sync::atomic::{AtomicUsize, Ordering::Relaxed};

struct Refusing;

/// How many growths succeed before one is refused.
static LEFT: AtomicUsize = AtomicUsize::new(usize::MAX);

fn is_refused() -> bool {
    let left = LEFT.load(Relaxed);
    LEFT.store(if left == usize::MAX { left } else { left.wrapping_sub(1) }, Relaxed);
    left == 0
}

// SAFETY: all memory is the system's.
unsafe impl GlobalAlloc for Refusing {
    unsafe fn alloc(&self, layout: Layout) -> *mut u8 {
        if is_refused() { null_mut() } else { unsafe { System.alloc(layout) } }
    }

    unsafe fn dealloc(&self, memory: *mut u8, layout: Layout) {
        unsafe { System.dealloc(memory, layout) }
    }

    unsafe fn realloc(&self, memory: *mut u8, layout: Layout, size: usize) -> *mut u8 {
        if is_refused() { null_mut() } else { unsafe { System.realloc(memory, layout, size) } }
    }
}

#[global_allocator]
static HEAP: Refusing = Refusing;

fn refuse_each<T, E: Display>(name: &str, call: impl Fn() -> Result<T, E>) {
    for growths in 0.. {
        LEFT.store(growths, Relaxed);
        let answer = call();
        let was_refused = LEFT.swap(usize::MAX, Relaxed) == usize::MAX;
        match answer {
            Ok(_) if !was_refused => return println!("{name}: an answer after {growths} refusals"),
            Err(error) if was_refused && error.to_string() == "out of memory" => {}
            Ok(_) => return println!("{name}: an answer without growth {growths}"),
            Err(error) => return println!("{name}: {error} at growth {growths}"),
        }
    }
}

fn main() {
    let mut storage = vec![0; 0x1000];
    storage[0x800..0x808].copy_from_slice(&0x0700_0900_4000_0006_u64.to_be_bytes());
    storage[0x808..0x810].copy_from_slice(&0x0600_0A00_2000_0050_u64.to_be_bytes());
    let source = Source::new(&storage, 0x800, Device::D2314);
    let all = [Area { start: 0, len: 0x1000 }];
    let extents = [Extent { first: 0, last: 9 }];
    let job = Job { source, mask: 0, extents: &extents, fetch: &all, store: &all };
    let program = chanv::take_in(&source, &all, Allowed::default()).expect("a program");
    let table: [Row; 1] = [chanv::may_start(&program, &job, &[]).expect("a row")];
    refuse_each("verify", || chanv::verify(&job));
    refuse_each("why", || chanv::why(&Job { store: &[], ..job }));
    refuse_each("needs", || chanv::needs(&source));
    refuse_each("find", || chanv::find(&storage, Device::D2314));
    refuse_each("may_start", || chanv::may_start(&program, &job, &table));
    refuse_each("may_write", || chanv::may_write(&table, Area { start: 0, len: 1 }));
}
