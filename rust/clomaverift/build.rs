//! Links the proved library, libclomaverift.a: that of the folder that CLOMAVERIFT_LIBRARY names, or of the repository's target/library.
//! Where something is missing, it says what in one sentence.

#[path = "src/declarations.rs"]
mod declarations;

use declarations::ABI;
use std::path::{Path, PathBuf};
use std::process::{exit, Command};
use std::{env, fs};

fn main() {
    println!("cargo:rerun-if-env-changed=CLOMAVERIFT_LIBRARY");
    let missing =
        check_target().and_then(|()| check_std()).and_then(|()| check_linker()).and_then(|()| link(&folder()));
    if let Err(sentence) = missing {
        eprintln!("clomaverift: {sentence}");
        exit(1);
    }
}

/// A variable of the environment; an empty one counts as unset.
fn variable(name: &str) -> Option<String> {
    env::var(name).ok().filter(|value| !value.is_empty())
}

fn folder() -> PathBuf {
    match variable("CLOMAVERIFT_LIBRARY") {
        Some(folder) => PathBuf::from(folder),
        None => Path::new(env!("CARGO_MANIFEST_DIR")).join("../../target/library"),
    }
}

/// Links the library, if it is there and has the layout that this crate was written for.
fn link(folder: &Path) -> Result<(), String> {
    let archive = folder.join("libclomaverift.a");
    println!("cargo:rerun-if-changed={}", archive.display());
    let bytes = fs::read(&archive).map_err(|_| {
        format!(
            "{} has no libclomaverift.a: 'tools/library' in the repository makes it, and CLOMAVERIFT_LIBRARY can name another folder",
            shown(folder)
        )
    })?;
    if !has_symbol(&bytes, ABI) {
        return Err(format!(
            "the libclomaverift.a of {} has another layout than this crate: it has no symbol {ABI}. Take both from one version",
            shown(folder)
        ));
    }
    println!("cargo:rustc-link-search=native={}", folder.display());
    println!("cargo:rustc-link-lib=static=clomaverift");
    Ok(())
}

/// Whether an archive has a symbol: its index has the names, each with a zero byte after it.
fn has_symbol(archive: &[u8], name: &str) -> bool {
    let ended = format!("{name}\0");
    let found = archive.windows(ended.len()).any(|some| some == ended.as_bytes());
    found
}

/// A folder's path without `..`, if the folder exists.
fn shown(folder: &Path) -> String {
    fs::canonicalize(folder).unwrap_or_else(|_| folder.to_path_buf()).display().to_string()
}

/// The library is x86-64 code with the calling convention of Unix.
fn check_target() -> Result<(), String> {
    let target = variable("TARGET").unwrap_or_default();
    let windows = variable("CARGO_CFG_TARGET_OS").map_or(false, |os| os == "windows" || os == "uefi");
    if target.starts_with("x86_64-") && !windows {
        return Ok(());
    }
    Err(format!(
        "the library is for x86-64 and the target is {target}: build with '--target x86_64-unknown-linux-gnu', \
         for which rust/clomaverift/.cargo/config.toml names a linker and a runner"
    ))
}

/// A compiler may be installed without the standard library of another machine.
fn check_std() -> Result<(), String> {
    let (rustc, target) = (variable("RUSTC").unwrap_or_default(), variable("TARGET").unwrap_or_default());
    let printed = Command::new(rustc).args(["--print", "target-libdir", "--target", &target]).output();
    let folder = printed.map(|output| String::from_utf8_lossy(&output.stdout).trim().to_string()).unwrap_or_default();
    if folder.is_empty() || Path::new(&folder).is_dir() {
        return Ok(());
    }
    Err(format!(
        "the compiler has no standard library for {target}: run 'rustup target add {target}', or install the amd64 package of \
         Debian's libstd-rust"
    ))
}

/// Elsewhere than on x86-64 a linker has to be named and installed.
fn check_linker() -> Result<(), String> {
    const CROSS: &str = "x86_64-linux-gnu-gcc";
    if variable("HOST").map_or(true, |host| host.starts_with("x86_64-")) {
        return Ok(());
    }
    let linker = match variable("RUSTC_LINKER") {
        Some(linker) if linker.ends_with(".cargo/linker") => CROSS.to_string(),
        Some(linker) => linker,
        None => {
            let name = variable("TARGET").unwrap_or_default().to_uppercase().replace('-', "_");
            return Err(format!("no linker for x86-64 is named: set CARGO_TARGET_{name}_LINKER={CROSS}"));
        }
    };
    if Path::new(&linker).is_file() || on_path(&linker) {
        return Ok(());
    }
    Err(format!("the linker {linker} is missing: Debian's package gcc-x86-64-linux-gnu brings {CROSS}"))
}

fn on_path(program: &str) -> bool {
    let path = env::var_os("PATH").unwrap_or_default();
    let found = env::split_paths(&path).any(|folder| folder.join(program).is_file());
    found
}
