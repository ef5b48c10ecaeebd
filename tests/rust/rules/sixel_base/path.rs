
use crate::rattle::rattle_std::prelude::{*, format, vec};
use crate::rattle::sixel_base::error::Result;
use crate::rattle::sixel_base::limits::{self, LIMIT};
use crate::rattle::rattle_std::alloc::Global;
use crate::rattle::rattle_std::{mem, result};

pub(in crate::rattle::sixel_base::size) fn size(crate_size: usize) -> result::Result<usize, crate::rattle::sixel_base::error::SixelError> {
    let sixel_base = other::sixel_base::size();
    crate::rattle::rattle_std::mem::take(&mut crate::rattle::sixel_decoder::size())
}
