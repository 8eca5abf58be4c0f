//! Links libxml2, which bench/run sees to.
fn main() {
    println!("cargo:rustc-link-lib=xml2");
}
