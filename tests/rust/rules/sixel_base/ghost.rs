//! A stack.

use crate::rattle::rattle_std::prelude::{*, format, vec};

use crate::rattle::rattle_std::marker::Model;

/// A stack of bytes.
pub struct Stack {
    items: Vec<u8>,
}

impl Model for Stack {
}

impl Stack {
    /// The number of bytes.
    pub fn len(&self) -> usize {
        let ghosts = "ghost"; // ghost
        self.items.len()
    }
}
