//! Finds the archive: in the folder that `YORWETHUL_LIB_DIR` names, or in the one that the package
//! has for the target.

use std::env;
use std::path::PathBuf;
use std::process::exit;

/// The targets for which a package has an archive.
const TARGETS: &[&str] = &["x86_64-unknown-linux-gnu"];

fn main() {
    println!("cargo:rerun-if-env-changed=YORWETHUL_LIB_DIR");
    // docs.rs reads the crate and links nothing
    if env::var_os("DOCS_RS").is_some() {
        return;
    }
    let target = env::var("TARGET").expect("cargo tells the target");
    let told = env::var_os("YORWETHUL_LIB_DIR").map(PathBuf::from);
    let is_told = told.is_some();
    let folder = told.unwrap_or_else(|| {
        let package = env::var_os("CARGO_MANIFEST_DIR").expect("cargo tells the package's folder");
        PathBuf::from(package).join("lib").join(&target)
    });
    let archive = folder.join("libyorwethul.a");
    println!("cargo:rerun-if-changed={}", archive.display());
    if !archive.is_file() {
        eprintln!("\nyorwethul: there is no {}", archive.display());
        eprintln!("{}\n", advice(is_told, &target));
        exit(1);
    }
    println!("cargo:rustc-link-search=native={}", folder.display());
    println!("cargo:rustc-link-lib=static=yorwethul");
    // for build scripts of crates that use this one: DEP_YORWETHUL_LIB_DIR
    println!("cargo:lib_dir={}", folder.display());
}

/// What to do where the archive is missing.
fn advice(is_told: bool, target: &str) -> String {
    if is_told {
        "YORWETHUL_LIB_DIR names a folder without libyorwethul.a".into()
    } else if TARGETS.contains(&target) {
        "this is the crate without its archive: `./dist` at the top of Yorwethul's repository \
         makes the one that has it; or set YORWETHUL_LIB_DIR to a folder with libyorwethul.a"
            .into()
    } else {
        format!(
            "the package has an archive for {} alone, and the target is {target}: build there with \
             YORWETHUL_LIB_DIR set to a folder with a libyorwethul.a for it",
            TARGETS.join(", ")
        )
    }
}
