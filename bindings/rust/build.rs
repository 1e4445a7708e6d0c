//! Finds the static libraries: in the folder that `BSP_LIB` names; else in `lib` of the folder that this crate was installed
//! to; else where `rt lib` has put them in the repository.
use std::path::{Path, PathBuf};
use std::process::Command;

const LIBRARIES: [&str; 3] = ["libbsp_phaser.a", "libbsp_job.a", "libbsp_steps.a"];

// The folders of the libraries, and whether the toolchain's functions for memory have to be linked too.
fn folders() -> (Vec<PathBuf>, bool) {
    if let Some(named) = std::env::var_os("BSP_LIB") {
        return (vec![PathBuf::from(named)], false);
    }
    let installed = Path::new(env!("CARGO_MANIFEST_DIR")).join("../../../lib");
    if installed.join(LIBRARIES[0]).exists() {
        return (vec![installed], false);
    }
    let crates = Path::new(env!("CARGO_MANIFEST_DIR")).join("../../crates");
    let mut folders: Vec<PathBuf> = ["bsp_phaser", "bsp_job", "bsp_steps"].iter().map(|name| crates.join(name).join("out")).collect();
    // `rt doc` names a page beside the toolchain's folder `c`.
    if let Ok(ran) = Command::new("rt").arg("doc").output() {
        let page = PathBuf::from(String::from_utf8_lossy(&ran.stdout).trim());
        folders.extend(page.parent().map(|folder| folder.join("c")));
    }
    (folders, true)
}

fn main() {
    println!("cargo:rerun-if-env-changed=BSP_LIB");
    let (folders, from_repository) = folders();
    let wanted = LIBRARIES.into_iter().chain(from_repository.then_some("liblibc_c.a"));
    for library in wanted {
        if !folders.iter().any(|folder| folder.join(library).exists()) {
            let places: Vec<String> = folders.iter().map(|folder| folder.display().to_string()).collect();
            eprintln!("\nbsp: there is no {library} in {}.", places.join(" or "));
            eprintln!("bsp: unpack a release of bsp and set BSP_LIB to its folder lib; or, in the repository and with the");
            eprintln!("bsp: Rattle toolchain on your PATH, run `tools/install --prefix DIR --libraries` and set BSP_LIB to DIR/lib.\n");
            std::process::exit(1);
        }
    }
    for folder in folders {
        println!("cargo:rerun-if-changed={}", folder.display());
        println!("cargo:rustc-link-search=native={}", folder.display());
    }
    if from_repository {
        println!("cargo:rustc-link-lib=static=libc_c");
    }
}
