//! The program `sixel`: decodes and encodes images of standard input and of files.

mod host;
#[path = "../../icy_sixel/src/rattle/mod.rs"]
mod rattle;
// What only contracts use is left in it.
#[allow(dead_code, unused_imports, unused_labels, unused_variables)]
mod sixel;

fn main() -> std::io::Result<std::process::ExitCode> {
    sixel::main(host::HostRuntime)
}
