//! A library without `std`. If the crate linked `std`, this panic handler would be the second one.
#![no_std]

use core::alloc::{GlobalAlloc, Layout};
use core::panic::PanicInfo;
use core::ptr::null_mut;
use icy_sixel::SixelImage;

/// An allocator without memory.
struct Empty;

// SAFETY: any allocation may fail, and nothing else is called then.
unsafe impl GlobalAlloc for Empty {
    unsafe fn alloc(&self, _: Layout) -> *mut u8 {
        null_mut()
    }

    unsafe fn dealloc(&self, _: *mut u8, _: Layout) {}
}

#[global_allocator]
static EMPTY: Empty = Empty;

#[panic_handler]
fn panic(_: &PanicInfo<'_>) -> ! {
    loop {}
}

// SAFETY: no other crate has this name.
#[unsafe(no_mangle)]
extern "C" fn has_image(byte: u8) -> bool {
    SixelImage::decode(&[byte]).is_ok()
}
