//! Tells the linker where the verified library stands: the folder STAMENHUM_LIB, or target/staticlib of the
//! repository, where `rust/test` puts what `rt lib` in crates/portal_c makes.

use std::env;
use std::path::{Path, PathBuf};
use std::process::exit;

const LIBRARY: &str = "libportal.a";
const DEFAULT_FOLDER: &str = "../../target/staticlib";

fn main() {
    println!("cargo:rerun-if-env-changed=STAMENHUM_LIB");
    let folder = library_folder();
    let library = folder.join(LIBRARY);
    println!("cargo:rerun-if-changed={}", library.display());
    if !library.is_file() {
        eprintln!("There is no {}.", library.display());
        eprintln!("Let `rust/test` make it, or let STAMENHUM_LIB name its folder.");
        exit(1);
    }
    println!("cargo:rustc-link-search=native={}", folder.display());
}

/// A relative STAMENHUM_LIB counts from the package's folder, since that is where cargo runs this program.
fn library_folder() -> PathBuf {
    let package = env::var_os("CARGO_MANIFEST_DIR").map_or_else(PathBuf::new, PathBuf::from);
    let folder = env::var_os("STAMENHUM_LIB").unwrap_or_else(|| DEFAULT_FOLDER.into());
    package.join(Path::new(&folder))
}
