//! Memory: the heap by an allocator that counts, the stack by painting it.

use crate::inputs;
use crate::stack;
use crate::timing::{Bench, Entry, Job};
use std::alloc::{GlobalAlloc, Layout, System};
use std::sync::atomic::{AtomicUsize, Ordering::Relaxed};

struct Counting;

static NOW: AtomicUsize = AtomicUsize::new(0);
static MOST: AtomicUsize = AtomicUsize::new(0);

// SAFETY: all work is the system's; the counters do not allocate.
unsafe impl GlobalAlloc for Counting {
    unsafe fn alloc(&self, layout: Layout) -> *mut u8 {
        let now = NOW.fetch_add(layout.size(), Relaxed) + layout.size();
        MOST.fetch_max(now, Relaxed);
        System.alloc(layout)
    }

    unsafe fn dealloc(&self, place: *mut u8, layout: Layout) {
        NOW.fetch_sub(layout.size(), Relaxed);
        System.dealloc(place, layout);
    }

    // Without this, a block that grows would be copied where the system may extend it, which the Rust's growing page would pay for.
    unsafe fn realloc(&self, place: *mut u8, layout: Layout, size: usize) -> *mut u8 {
        let now = NOW.fetch_add(size, Relaxed) + size - layout.size();
        MOST.fetch_max(now, Relaxed);
        NOW.fetch_sub(layout.size(), Relaxed);
        System.realloc(place, layout, size)
    }
}

#[global_allocator]
static COUNTING: Counting = Counting;

/// The most that a job had at once, in bytes.
pub struct Most {
    pub stack: usize,
    pub heap: usize,
}

/// What the plain page of one file takes, from bytes.
pub struct Taken {
    pub kind: &'static str,
    pub length: usize,
    pub ours: Most,
    pub rust: Most,
}

/// The largest file of each kind.
pub fn rows() -> Vec<Taken> {
    let taken = inputs::largest().map(|input| {
        let length = input.file.len();
        let mut bench = Bench::new(input.file);
        Taken {
            kind: input.kind,
            length,
            ours: most(&mut bench, Job::OursPlain),
            rust: most(&mut bench, Job::RustPlain),
        }
    });
    taken.collect()
}

fn most(bench: &mut Bench, job: Job) -> Most {
    let before = NOW.load(Relaxed);
    MOST.store(before, Relaxed);
    bench.run(job);
    let heap = MOST.load(Relaxed) - before;
    Most {
        stack: stack::used(|| bench.run(job)),
        heap,
    }
}

/// The most stack that each entry takes on any of the files.
pub fn entries() -> [(Entry, usize); Entry::ALL.len()] {
    let mut most = Entry::ALL.map(|entry| (entry, 0));
    for input in inputs::all() {
        let mut bench = Bench::new(input.file);
        for (entry, stack) in &mut most {
            *stack = (*stack).max(stack::used(|| bench.call(*entry)));
        }
    }
    most
}
