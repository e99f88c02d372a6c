//! Links the static library, and the C beside it, which bench/run compiles.
fn main() {
    for (folder, library) in [("crates/route_rules/out", "route_rules"), ("target/bench", "plain")] {
        let folder = format!("{}/../{folder}", env!("CARGO_MANIFEST_DIR"));
        println!("cargo:rerun-if-changed={folder}/lib{library}.a");
        println!("cargo:rustc-link-search=native={folder}");
        println!("cargo:rustc-link-lib=static={library}");
    }
}
