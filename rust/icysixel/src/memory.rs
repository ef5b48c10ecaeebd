//! The memory of the C library, and an abort in place of a panic.

use core::alloc::{GlobalAlloc, Layout};
use core::ffi::c_void;
use core::panic::PanicInfo;
use core::ptr::null_mut;

/// The greatest alignment of a block of `malloc`. The library needs at most 8.
const ALIGNMENT: usize = 16;

#[global_allocator]
static MEMORY: Memory = Memory;

#[panic_handler]
fn panic(_info: &PanicInfo<'_>) -> ! {
    unsafe extern "C" {
        safe fn abort() -> !;
    }
    abort()
}

/// C's allocator: `malloc`, or the memory hooks of the header.
struct Memory;

unsafe impl GlobalAlloc for Memory {
    unsafe fn alloc(&self, layout: Layout) -> *mut u8 {
        if layout.align() > ALIGNMENT {
            return null_mut();
        }
        unsafe { allocate(layout) }
    }

    unsafe fn realloc(&self, block: *mut u8, layout: Layout, size: usize) -> *mut u8 {
        unsafe { reallocate(block, layout, size) }
    }

    unsafe fn dealloc(&self, block: *mut u8, _layout: Layout) {
        unsafe { free(block.cast()) }
    }
}

#[cfg(not(feature = "hooks"))]
unsafe extern "C" {
    fn malloc(size: usize) -> *mut c_void;
    fn realloc(block: *mut c_void, size: usize) -> *mut c_void;
    fn free(block: *mut c_void);
}

#[cfg(not(feature = "hooks"))]
unsafe fn allocate(layout: Layout) -> *mut u8 {
    unsafe { malloc(layout.size()).cast() }
}

#[cfg(not(feature = "hooks"))]
unsafe fn reallocate(block: *mut u8, _layout: Layout, size: usize) -> *mut u8 {
    unsafe { realloc(block.cast(), size).cast() }
}

/// The result of a hook. The pointer is never null.
#[cfg(feature = "hooks")]
#[repr(C)]
struct Block {
    given: bool,
    at: *mut u8,
}

#[cfg(feature = "hooks")]
unsafe extern "C" {
    fn rattle_alloc(size: usize, align: usize) -> Block;
    fn rattle_realloc(block: *mut u8, held: usize, size: usize, align: usize) -> Block;
    #[link_name = "rattle_dealloc"]
    fn free(block: *mut c_void);
}

#[cfg(feature = "hooks")]
unsafe fn allocate(layout: Layout) -> *mut u8 {
    let Block { given, at } = unsafe { rattle_alloc(layout.size(), layout.align()) };
    if given { at } else { null_mut() }
}

#[cfg(feature = "hooks")]
unsafe fn reallocate(block: *mut u8, layout: Layout, size: usize) -> *mut u8 {
    let (held, align) = (layout.size(), layout.align());
    let Block { given, at } = unsafe { rattle_realloc(block, held, size, align) };
    if given { at } else { null_mut() }
}
