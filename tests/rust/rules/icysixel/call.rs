
use crate::rattle::rattle_std::prelude::{*, format, vec};
/// Draws.
pub fn icysixel_draw(alloc: Global, handle: &mut Handle, bytes: &[u8], colors: &mut [[u8; 3]],
    shape: &Shape, order: u8) -> u32 {
    draw(alloc, handle, bytes[Proved(order as usize)])
}

/// Calls [`icysixel_draw`] for C.
#[unsafe(export_name = "icysixel_draw")]
unsafe extern "C" fn icysixel_draw_for_c(handle: *mut Handle, bytes: *const u8, bytes_len: usize, colors: *mut [ u8 ; 3 ], colors_len: usize, shape: *const Shape, order: u8) -> u32 {
    unsafe { icysixel_draw(Global, &mut *handle, crate::slice(bytes, bytes_len), crate::slice_mut(colors, colors_len), &*shape, order) }
}

pub fn icysixel_version() -> u32 {
    7
}

/// Calls [`icysixel_version`] for C.
#[unsafe(export_name = "icysixel_version")]
unsafe extern "C" fn icysixel_version_for_c() -> u32 {
    icysixel_version()
}

pub fn icysixel_stop(at: *mut u8) {
    stop(at);
}

/// Calls [`icysixel_stop`] for C.
#[unsafe(export_name = "icysixel_stop")]
unsafe extern "C" fn icysixel_stop_for_c(at: * mut u8) {
    unsafe { icysixel_stop(at) }
}
