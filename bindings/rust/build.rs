//! Finds `libvt_terminal.a` and links it.

use std::env;
use std::path::PathBuf;
use std::process::exit;

const FILE: &str = "libvt_terminal.a";

fn main() {
    println!("cargo:rerun-if-env-changed=SEGYOLANT_LIB");
    let given = env::var_os("SEGYOLANT_LIB").map(PathBuf::from);
    let folder = match &given {
        Some(folder) => folder.clone(),
        None => PathBuf::from(env::var_os("CARGO_MANIFEST_DIR").unwrap_or_default())
            .join("../../crates/vt_terminal/out"),
    };
    let file = folder.join(FILE);
    println!("cargo:rerun-if-changed={}", file.display());
    if !file.is_file() {
        let place = match given {
            Some(_) => "the folder that SEGYOLANT_LIB names",
            None => "the folder where the repository's build leaves it",
        };
        eprintln!("segyolant: {FILE} is not in {}, {place}.", folder.display());
        eprintln!("Make it by `cd crates/vt_terminal && rt lib`, which needs the Rattle kit, or set SEGYOLANT_LIB to the whole path of a folder that has it.");
        eprintln!("docs/EMBEDDING.md says more.");
        exit(1);
    }
    println!("cargo:rustc-link-search=native={}", folder.display());
    println!("cargo:rustc-link-lib=static=vt_terminal");
}
