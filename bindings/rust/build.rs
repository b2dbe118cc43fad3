//! Tells where the library is: in VIQESHOR_LIB_DIR, else where `tools/library` leaves it, else where the C compiler finds it
//! by itself.
use std::env;
use std::path::{Path, PathBuf};
use std::process::{exit, Command};

fn main() {
    println!("cargo:rerun-if-env-changed=VIQESHOR_LIB_DIR");
    println!("cargo:rerun-if-env-changed=CC");
    let top = Path::new(env!("CARGO_MANIFEST_DIR")).ancestors().nth(2);
    let left = top.map(|top| top.join("out/library")).unwrap_or_default();
    let given = env::var_os("VIQESHOR_LIB_DIR").map(PathBuf::from);
    let folder = given.clone().unwrap_or(left);
    let archive = folder.join("libviqeshor.a");
    // Also where it isn't there: the build is tried again when it is.
    println!("cargo:rerun-if-changed={}", archive.display());
    if archive.exists() {
        println!("cargo:rustc-link-search=native={}", folder.display());
        println!("cargo:rustc-link-lib=static=viqeshor");
    } else if given.is_none() && is_installed() {
        println!("cargo:rustc-link-lib=viqeshor");
    } else {
        eprintln!("viqeshor: there is no library {}", archive.display());
        eprintln!(
            "viqeshor: `tools/library --unproved` of the repository makes it; VIQESHOR_LIB_DIR may name another folder"
        );
        exit(1);
    }
}

/// Whether the C compiler finds the library in its own folders. It answers the mere name where it doesn't.
fn is_installed() -> bool {
    let compiler = env::var("CC").unwrap_or_else(|_| "cc".to_owned());
    ["libviqeshor.so", "libviqeshor.a"].iter().any(|name| {
        let asked = Command::new(&compiler).arg(format!("-print-file-name={name}")).output();
        asked.map_or(false, |said| Path::new(String::from_utf8_lossy(&said.stdout).trim()).is_absolute())
    })
}
