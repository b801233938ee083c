//! Links the proved archive: the one that `L4MAP_ARCHIVE` names, or the one that `./library.sh` builds in this
//! repository.

use std::env;
use std::path::{Path, PathBuf};
use std::process::exit;

fn main() {
    println!("cargo::rerun-if-env-changed=L4MAP_ARCHIVE");
    let archive = env::var_os("L4MAP_ARCHIVE").map_or_else(built_here, PathBuf::from);
    println!("cargo::rerun-if-changed={}", archive.display());
    let Some((folder, name)) = parts(&archive) else {
        println!(
            "cargo::error=there is no archive {}: ./library.sh builds one, and L4MAP_ARCHIVE may name another",
            archive.display()
        );
        exit(0);
    };
    println!("cargo::rustc-link-search=native={}", folder.display());
    println!("cargo::rustc-link-lib=static:+verbatim={name}");
}

/// Where `./library.sh` leaves the archive.
fn built_here() -> PathBuf {
    Path::new(env!("CARGO_MANIFEST_DIR")).join("../../crates/capi/out/libcapi.a")
}

/// The folder of a file, by its whole path, and its name; nothing where there is no such file.
fn parts(archive: &Path) -> Option<(PathBuf, String)> {
    let whole = archive.canonicalize().ok().filter(|path| path.is_file())?;
    let name = whole.file_name()?.to_str()?.to_owned();
    Some((whole.parent()?.to_owned(), name))
}
