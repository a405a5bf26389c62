//! An allocator for long runs under an emulator, where the system's costs a sixth of the time: small blocks come from lists of freed ones.

use std::alloc::{GlobalAlloc, Layout, System};
use std::cell::Cell;
use std::ptr::null_mut;

pub struct Lists;

/// Blocks of 16, 32, up to 8,192 bytes; larger ones are the system's.
const SIZES: usize = 10;
const SMALLEST: usize = 16;
const LARGEST: usize = SMALLEST << (SIZES - 1);

/// So many bytes are taken from the system and cut into blocks at once. They are never given back.
const CHUNK: usize = 1 << 16;

type List = Cell<*mut u8>;

thread_local! {
    /// The first free block of each size; a free block begins with the address of the next.
    static FREE: [List; SIZES] = const { [const { Cell::new(null_mut()) }; SIZES] };
}

/// Which list's blocks hold such a thing, if any do.
fn list_of(layout: Layout) -> Option<usize> {
    let size = layout.size().max(SMALLEST);
    let fits = size <= LARGEST && layout.align() <= SMALLEST;
    fits.then(|| (size.next_power_of_two() / SMALLEST).ilog2() as usize)
}

/// Takes a chunk from the system, puts all of its blocks but the first into the list and returns that one.
#[cold]
fn cut_chunk(list: &List, size: usize) -> *mut u8 {
    let Ok(layout) = Layout::from_size_align(CHUNK, SMALLEST) else {
        return null_mut();
    };
    // SAFETY: the layout is not empty.
    let chunk = unsafe { System.alloc(layout) };
    if !chunk.is_null() {
        for at in (size..CHUNK).step_by(size) {
            // SAFETY: the block lies within the chunk, since the size divides the chunk's, and nobody else has it.
            unsafe { put(list, chunk.add(at)) };
        }
    }
    chunk
}

/// # Safety
///
/// The block is one of the list's size that nobody else has.
unsafe fn put(list: &List, block: *mut u8) {
    // SAFETY: a block has room for an address, and is aligned for one.
    unsafe { block.cast::<*mut u8>().write(list.get()) };
    list.set(block);
}

// SAFETY: a block is handed out once until it comes back, has the list's size, which is no less than the layout's, and lies at a multiple of 16.
// Each thread has lists of its own; a block that comes back on another thread goes to that thread's.
unsafe impl GlobalAlloc for Lists {
    unsafe fn alloc(&self, layout: Layout) -> *mut u8 {
        let Some(index) = list_of(layout) else {
            // SAFETY: as our caller promises.
            return unsafe { System.alloc(layout) };
        };
        FREE.with(|free| {
            let block = free[index].get();
            if block.is_null() {
                return cut_chunk(&free[index], SMALLEST << index);
            }
            // SAFETY: a free block begins with the address of the next.
            free[index].set(unsafe { block.cast::<*mut u8>().read() });
            block
        })
    }

    unsafe fn dealloc(&self, block: *mut u8, layout: Layout) {
        match list_of(layout) {
            // SAFETY: our caller hands back a block of this layout, hence of this list.
            Some(index) => FREE.with(|free| unsafe { put(&free[index], block) }),
            // SAFETY: as our caller promises; a block of this layout is the system's.
            None => unsafe { System.dealloc(block, layout) },
        }
    }
}
