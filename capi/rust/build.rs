//! Finds the archive, and checks that its calls are those of this crate: the top of `src/lib.rs` says where it is.
use std::ffi::OsString;
use std::path::{Path, PathBuf};
use std::process::Command;
use std::{env, fs};

const ASKING: &str = r#"extern "C" { fn bs_version() -> u32; } fn main() { print!("{}", unsafe { bs_version() }) }"#;

/// The folder of the archive. Cargo runs this program in the folder of Cargo.toml, so a relative name begins there.
fn folder() -> PathBuf {
    // BITSTREAM_LIB is the name that only this crate had.
    let named = ["BITSTREAM_LIBRARY", "BITSTREAM_LIB"].iter().find_map(|name| {
        println!("cargo:rerun-if-env-changed={name}");
        env::var_os(name).filter(|path| !path.is_empty())
    });
    let path = env::current_dir().unwrap().join(named.unwrap_or("../../../lib".into()));
    if path.is_file() { path.parent().unwrap().into() } else { path }
}

/// The version of the archive, by a program that asks for it; its errors if it can't be built.
fn version(folder: &Path) -> String {
    let out = PathBuf::from(env::var_os("OUT_DIR").unwrap());
    let (source, program, mut search) = (out.join("version.rs"), out.join("version"), OsString::from("native="));
    search.push(folder);
    fs::write(&source, ASKING).unwrap();
    let mut rustc = Command::new(env::var_os("RUSTC").unwrap());
    rustc.arg(&source).arg("-o").arg(&program).arg("-L").arg(search).args(["-l", "static=bitstream"]);
    if let Ok(linker) = env::var("RUSTC_LINKER") {
        rustc.args(["-C", &format!("linker={linker}")]);
    }
    let built = rustc.output().unwrap();
    let asked = if built.status.success() { Command::new(program).output().unwrap().stdout } else { built.stderr };
    String::from_utf8_lossy(&asked).into()
}

fn fail(why: String) -> ! {
    eprintln!("{why}");
    std::process::exit(1)
}

fn main() {
    let (folder, wanted) = (folder(), env!("CARGO_PKG_VERSION_MAJOR"));
    let archive = folder.join("libbitstream.a");
    println!("cargo:rerun-if-changed={}", archive.display());
    if !archive.is_file() {
        fail(format!("there is no {}: BITSTREAM_LIBRARY has to name the folder of libbitstream.a", archive.display()));
    }
    // A program for another system can't run here.
    if env::var("HOST") == env::var("TARGET") {
        let found = version(&folder);
        if found != wanted {
            fail(format!("{} has version {found}, and not {wanted}", archive.display()));
        }
    }
    println!("cargo:rustc-link-search=native={}", folder.display());
    println!("cargo:rustc-link-lib=static=bitstream");
}
