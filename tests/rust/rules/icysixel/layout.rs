
use crate::rattle::rattle_std::prelude::{*, format, vec};
/// A color.
#[repr(C)]
#[derive(Clone, Copy)]
pub struct Color {
    pub red: u8,
    /// The green.
    pub green: u8,
    pub blue: u8,
}

const _: () = {
    assert!(size_of::<Color>() == 3);
    assert!(align_of::<Color>() == 1);
    assert!(core::mem::offset_of!(Color, red) == 0);
    assert!(core::mem::offset_of!(Color, green) == 1);
    assert!(core::mem::offset_of!(Color, blue) == 2);
};

/// The memory of a handle.
#[repr(C)]
pub struct Handle {
    held: u8,
    pointer: StatePointer,
}

const _: () = {
    assert!(size_of::<Handle>() == 16);
    assert!(align_of::<Handle>() == 8);
    assert!(core::mem::offset_of!(Handle, held) == 0);
    assert!(core::mem::offset_of!(Handle, pointer) == 8);
};
