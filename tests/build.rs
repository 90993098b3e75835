// Links the proved calls, conversions and trees: libkernel.a, libsv39.a and librangetree.a in target/staticlib of the repository.
fn main() {
    let root = std::env::var("CARGO_MANIFEST_DIR").unwrap();
    println!("cargo:rustc-link-search=native={root}/../target/staticlib");
    for library in ["kernel", "sv39", "rangetree"] {
        println!("cargo:rustc-link-lib=static={library}");
        println!("cargo:rerun-if-changed={root}/../target/staticlib/lib{library}.a");
    }
}
