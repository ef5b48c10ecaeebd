
use crate::rattle::rattle_std::prelude::{*, format, vec};
use crate::rattle::rattle_std::fmt;

use crate::rattle::sixel_base::size::Size;
