
use crate::host::prelude::{*, eprintln, format, vec};
use crate::host::process::ExitCode;
use crate::host::{env, fs, io};

pub fn main(rt: HostRuntime) -> io::Result<ExitCode> {
    crate::rattle::rattle_std::mem::drop(main_part(rt));
    Ok(ExitCode::from(0))
}

fn main_part(rt: HostRuntime) {}
