//! The runtime of a program: its arguments, its files and its streams.

use crate::rattle::rattle_std::alloc::Global;
use crate::rattle::rattle_std::prelude::{String, Vec};
use core::fmt::Display;
use core::mem::ManuallyDrop;
use std::fs::File;
use std::io::{Read, Write};

pub use std::{io, process};

/// The names that each file of the program has without an import.
pub mod prelude {
    pub use super::{Eprint, HostRuntime};
    pub(crate) use super::eprintln_to as eprintln;
    pub use crate::rattle::rattle_std::prelude::*;
}

/// Stands for the runtime.
pub struct HostRuntime;

impl HostRuntime {
    pub fn alloc(&self) -> Global {
        Global
    }

    pub fn stdin(&self) -> Stdin {
        Stdin
    }

    pub fn stdout(&self) -> Stdout {
        Stdout::new()
    }
}

/// Writes lines to standard error.
pub trait Eprint {
    fn eprintln<T: Display>(&self, line: T) -> io::Result<()>;
}

impl Eprint for HostRuntime {
    fn eprintln<T: Display>(&self, line: T) -> io::Result<()> {
        writeln!(io::stderr(), "{line}")
    }
}

/// Writes a line to standard error: `eprintln!(rt; "{}", x)`.
macro_rules! eprintln_to {
    ($rt:expr; $($text:tt)*) => { $rt.eprintln(format_args!($($text)*)) };
}
pub(crate) use eprintln_to;

/// Standard input.
pub struct Stdin;

impl Read for Stdin {
    fn read(&mut self, buffer: &mut [u8]) -> io::Result<usize> {
        io::stdin().read(buffer)
    }
}

/// Standard output without a buffer, which reports each error. It is not closed.
pub struct Stdout(ManuallyDrop<File>);

impl Stdout {
    fn new() -> Stdout {
        // The descriptor of standard output is open: Rust's runtime opens it if it was closed.
        #[cfg(unix)]
        let file = unsafe { std::os::fd::FromRawFd::from_raw_fd(1) };
        #[cfg(windows)]
        let file = unsafe {
            let handle = std::os::windows::io::AsRawHandle::as_raw_handle(&io::stdout());
            std::os::windows::io::FromRawHandle::from_raw_handle(handle)
        };
        Stdout(ManuallyDrop::new(file))
    }
}

impl Write for Stdout {
    fn write(&mut self, bytes: &[u8]) -> io::Result<usize> {
        self.0.write(bytes)
    }

    fn flush(&mut self) -> io::Result<()> {
        Ok(())
    }
}

/// A vector of what Rust's `std` allocated.
fn of_std<T: Copy>(items: &[T]) -> io::Result<Vec<T>> {
    Vec::from_slice(Global, items).map_err(|_| io::ErrorKind::OutOfMemory.into())
}

pub mod env {
    use super::*;

    /// The arguments, with the program's name.
    pub fn args(_rt: &HostRuntime) -> io::Result<impl Iterator<Item = String>> {
        let mut words = std::vec::Vec::new();
        for word in std::env::args_os() {
            let bytes = of_std(word.into_encoded_bytes().as_slice())?;
            words.push(String::from_utf8(bytes).map_err(|_| io::ErrorKind::InvalidData)?);
        }
        Ok(words.into_iter())
    }
}

pub mod fs {
    use super::*;

    /// The bytes of a file.
    pub fn read(_rt: &HostRuntime, path: &str) -> io::Result<Vec<u8>> {
        Ok(Vec(std::fs::read(path)?))
    }
}
