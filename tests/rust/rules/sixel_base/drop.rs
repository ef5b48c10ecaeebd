
use crate::rattle::rattle_std::prelude::{*, format, vec};
impl<T: Drop> Stack<T> {
    fn new() -> Stack<T> {
        Stack {}
    }
}

struct Other;
