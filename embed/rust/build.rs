//! Finds the library and has it linked: see `src/lib.rs` for the order of the places.

use std::env;
use std::path::{Path, PathBuf};
use std::process::{exit, Command};

const VARIABLE: &str = "SNO_REWRITE_LIB_DIR";
const ARCHIVE: &str = "libsno_rewrite.a";
const SHARED: &str = "libsno_rewrite.so";

/// The folders in which pkg-config says that the library is.
fn installed() -> Vec<PathBuf> {
    let output = Command::new(env::var_os("PKG_CONFIG").unwrap_or("pkg-config".into()))
        .args(["--libs-only-L", "sno_rewrite"])
        .env("PKG_CONFIG_ALLOW_SYSTEM_LIBS", "1")
        .output();
    let words = output.map_or(String::new(), |output| {
        String::from_utf8_lossy(&output.stdout).into_owned()
    });
    words
        .split_whitespace()
        .filter_map(|word| word.strip_prefix("-L"))
        .map(PathBuf::from)
        .collect()
}

/// How the library of this folder is linked, if there is one: the archive comes first, since it needs no file later.
fn kind(folder: &Path) -> Option<&'static str> {
    let is_there = |name| folder.join(name).is_file();
    if is_there(ARCHIVE) {
        Some("static")
    } else {
        is_there(SHARED).then_some("dylib")
    }
}

fn stop(lines: &str) -> ! {
    eprintln!("{lines}");
    exit(1)
}

fn main() {
    println!("cargo:rerun-if-env-changed={VARIABLE}");
    println!("cargo:rerun-if-env-changed=PKG_CONFIG");
    println!("cargo:rerun-if-env-changed=PKG_CONFIG_PATH");
    let built = Path::new(env!("CARGO_MANIFEST_DIR")).join("../out");
    // A new archive has to be linked again, also one that appears.
    println!("cargo:rerun-if-changed={}", built.display());

    let found = match env::var_os(VARIABLE) {
        Some(given) => {
            let folder = PathBuf::from(given);
            match kind(&folder) {
                Some(kind) => Some((folder, kind)),
                None => stop(&format!(
                    "{VARIABLE}: there is no {ARCHIVE} in {}",
                    folder.display()
                )),
            }
        }
        None => [vec![built], installed()]
            .concat()
            .into_iter()
            .find_map(|folder| kind(&folder).map(|kind| (folder, kind))),
    };
    let Some((folder, kind)) = found else {
        stop(&format!(
            "{ARCHIVE} was not found: make it with embed/build, set {VARIABLE} to its folder, or install it"
        ))
    };
    let folder = folder.canonicalize().unwrap_or(folder);
    println!("cargo:rerun-if-changed={}", folder.join(ARCHIVE).display());
    println!("cargo:rustc-link-search=native={}", folder.display());
    println!("cargo:rustc-link-lib={kind}=sno_rewrite");
}
