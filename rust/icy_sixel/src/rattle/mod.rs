//! The verified crates, without their contracts, and what they need beside `core`.
//!
//! `scripts/plain_rust` makes them. What only contracts use is left in them.
#![allow(clippy::all, rustdoc::all)]
#![allow(dead_code, unused_imports, unused_labels, unused_variables)]

#[cfg(not(target_pointer_width = "64"))]
compile_error!("the proofs are for a `usize` of 64 bits: this target is not supported");

#[allow(unsafe_code)]
pub(crate) mod rattle_std;

#[forbid(unsafe_code)]
pub mod icy_sixel;
#[forbid(unsafe_code)]
pub mod sixel_base;
#[forbid(unsafe_code)]
pub mod sixel_canvas;
#[forbid(unsafe_code)]
pub mod sixel_decoder;
#[forbid(unsafe_code)]
pub mod sixel_encoder;
#[forbid(unsafe_code)]
pub mod sixel_palette;
