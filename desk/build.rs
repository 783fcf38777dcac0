//! Says where the proved static library is; src/bin/tteok/proved.rs links it.

use std::env;
use std::path::PathBuf;

fn main() {
    println!("cargo:rerun-if-env-changed=TTEOKBIRAN_LIB");
    let here = PathBuf::from(env::var("CARGO_MANIFEST_DIR").expect("cargo sets this"));
    let named = env::var("TTEOKBIRAN_LIB").unwrap_or_else(|_| "../target/lib".to_string());
    // A relative name is read from this folder; join leaves a full one alone.
    let folder = here.join(named);
    println!("cargo:rerun-if-changed={}", folder.join("libtteokbiran.a").display());
    println!("cargo:rustc-link-search=native={}", folder.display());
}
