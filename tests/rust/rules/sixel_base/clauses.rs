
use crate::rattle::rattle_std::prelude::{*, format, vec};
trait Canvas {
    fn height(&self) -> usize;
}

fn first<T>(items: &[T]) -> &T
where
    T: Copy, {
    &items[0]
}

fn copy(from: &[u8], to: &mut [u8], at: usize, end: usize) {
    required(end <= from.len());
    required(from.len() >= 4 && at <= from.len() - 4);
    required(to.len() >= 8 && 8 * at <= to.len() - 8);
    required(from.len() == to.len());
    to[0] = from[0];
}

fn none() {}
