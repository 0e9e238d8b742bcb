// Tells the linker where the product's static library is, once the feature `host` asks for it.
// GIGORCHID_LIB names its folder; a relative one starts at this package.

use std::path::Path;

fn main() {
    println!("cargo:rerun-if-env-changed=GIGORCHID_LIB");
    if std::env::var_os("CARGO_FEATURE_HOST").is_none() {
        return;
    }
    let package = std::env::var("CARGO_MANIFEST_DIR").expect("cargo sets this");
    let folder = std::env::var("GIGORCHID_LIB").unwrap_or("../target/staticlib".to_string());
    let folder = Path::new(&package).join(folder);
    println!("cargo:rustc-link-search=native={}", folder.display());
    println!("cargo:rustc-link-lib=static=host");
    println!("cargo:rerun-if-changed={}", folder.join("libhost.a").display());
}
