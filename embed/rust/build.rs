// SPDX-License-Identifier: Apache-2.0
//! Links libyuglemit.a: of this crate's folder lib, of the folder that YUGLEMIT_FOLDER names, or of the repository's build.
use std::path::PathBuf;

fn main() {
    let own = PathBuf::from(std::env::var_os("CARGO_MANIFEST_DIR").expect("cargo sets it"));
    let named = std::env::var_os("YUGLEMIT_FOLDER").map(PathBuf::from);
    let built = own.join("../../crates/tw_embed/out");
    let folders = [Some(own.join("lib")), named, Some(built)];
    let folder = folders.into_iter().flatten().find(|folder| folder.join("libyuglemit.a").exists());
    match folder {
        Some(folder) => {
            println!("cargo:rustc-link-search=native={}", folder.display());
            println!("cargo:rerun-if-changed={}", folder.join("libyuglemit.a").display());
        }
        None => println!("cargo:warning=there is no libyuglemit.a: the crate of ./tw package has it, ./tw install installs it, and YUGLEMIT_FOLDER may name its folder"),
    }
    println!("cargo:rerun-if-env-changed=YUGLEMIT_FOLDER");
}
