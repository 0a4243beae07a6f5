//! Prints a key for each file, as cache_key.c does, with the same exit status: 3 if a file can't be read, 1 if one is refused.
//!
//! cargo run --example cache_key FILE.., in the folder of the crate bitstream.
use bitstream::{normal, LeftOut, Limits};
use std::path::Path;
use std::process::ExitCode;

fn hash_of(bytes: &[u8]) -> u64 {
    bytes.iter().fold(14695981039346656037, |hash, byte| (hash ^ u64::from(*byte)).wrapping_mul(1099511628211))
}

fn print_key(path: &Path) -> u8 {
    let (name, left_out) = (path.display(), LeftOut { info: true, ..Default::default() });
    let Ok(bytes) = std::fs::read(path) else {
        eprintln!("{name}: not read");
        return 3;
    };
    match normal(&bytes, &Limits::default(), &left_out) {
        Ok(form) => {
            println!("{:016x} {name}", hash_of(&form));
            0
        }
        Err(error) => {
            eprintln!("{name}: {error}");
            1
        }
    }
}

fn main() -> ExitCode {
    std::env::args_os().skip(1).map(|path| print_key(path.as_ref())).max().unwrap_or(0).into()
}
