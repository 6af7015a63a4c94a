//! Where a memory lies within a cache line moves the time of a copy by a tenth and more. What is opened here starts at a line, on both sides.

use std::alloc::{GlobalAlloc, Layout, System};
use std::sync::atomic::{AtomicBool, Ordering::Relaxed};

const LINE: usize = 64;

static AT_LINES: AtomicBool = AtomicBool::new(false);

pub fn at_lines<T>(open: impl FnOnce() -> T) -> T {
    AT_LINES.store(true, Relaxed);
    let opened = open();
    AT_LINES.store(false, Relaxed);
    opened
}

struct Placed;

#[global_allocator]
static PLACED: Placed = Placed;

fn placed(layout: Layout) -> Layout {
    match AT_LINES.load(Relaxed) {
        true => layout.align_to(LINE).unwrap_or(layout),
        false => layout,
    }
}

// The system frees memory without asking how it was aligned, so that the layout of a Vec serves for that.
unsafe impl GlobalAlloc for Placed {
    unsafe fn alloc(&self, layout: Layout) -> *mut u8 {
        System.alloc(placed(layout))
    }

    unsafe fn alloc_zeroed(&self, layout: Layout) -> *mut u8 {
        System.alloc_zeroed(placed(layout))
    }

    unsafe fn realloc(&self, memory: *mut u8, layout: Layout, size: usize) -> *mut u8 {
        System.realloc(memory, layout, size)
    }

    unsafe fn dealloc(&self, memory: *mut u8, layout: Layout) {
        System.dealloc(memory, layout);
    }
}
