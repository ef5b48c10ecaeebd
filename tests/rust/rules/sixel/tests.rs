
use crate::host::prelude::{*, eprintln, format, vec};
mod spread;
mod words;
