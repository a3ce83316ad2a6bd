// Links the unit: `rt lib`, run in crates/tangents_c, writes out/libtangents_c.a there.
fn main() {
    let root = std::path::Path::new(env!("CARGO_MANIFEST_DIR")).parent().expect("the repository's root");
    let folder = root.join("crates").join("tangents_c").join("out");
    let archive = folder.join("libtangents_c.a");
    assert!(archive.exists(), "no {}: run `rt lib` in crates/tangents_c first", archive.display());
    println!("cargo:rerun-if-changed={}", archive.display());
    println!("cargo:rustc-link-search=native={}", folder.display());
    println!("cargo:rustc-link-lib=static=tangents_c");
}
