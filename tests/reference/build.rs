//! Links the static libraries under test into `compare` (feature `library`).

use std::env;
use std::path::Path;

fn main() {
    println!("cargo:rerun-if-env-changed=LHRS_LIB");
    if env::var_os("CARGO_FEATURE_LIBRARY").is_none() {
        return;
    }
    let directory = env::var("LHRS_LIB").unwrap_or_else(|_| "../../target/staticlib".into());
    for name in ["libstore.a", "libcomparing.a"] {
        let archive = Path::new(&directory).join(name);
        let Ok(archive) = archive.canonicalize() else {
            panic!("no {}: build the static libraries or set LHRS_LIB", archive.display())
        };
        println!("cargo:rerun-if-changed={}", archive.display());
        println!("cargo:rustc-link-arg-bin=compare={}", archive.display());
    }
}
