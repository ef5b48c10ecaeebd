
use crate::rattle::rattle_std::prelude::{*, format, vec};
fn sum(rows: &mut [[u8; 4]], at: usize, pair: ([u8; 2], u8)) -> u8 {
    let [first, second] = pair.0;
    let row = rows[Proved(at)];
    rows[Proved(2 * at)][0] = row[3];
    for item in [1, 2] {
        rows[Proved(item..)][0][Proved(row[Proved(at)] as usize)] = pair.0[Proved(at)];
    }
    let copied = vec![in alloc; 0; at]?;
    (copied)[Proved(..at)].len() as u8
}
