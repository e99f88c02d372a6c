//! Links the static library that `tools/staticlib` writes.
fn main() {
    let library = concat!(env!("CARGO_MANIFEST_DIR"), "/../../crates/route_rules/out");
    println!("cargo:rerun-if-changed={library}/libroute_rules.a");
    println!("cargo:rustc-link-search=native={library}");
    println!("cargo:rustc-link-lib=static=route_rules");
}
