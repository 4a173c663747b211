fn main() {
    let root = std::path::Path::new(env!("CARGO_MANIFEST_DIR")).join("../../../target/staticlib");
    println!("cargo:rustc-link-search=native={}", root.display());
    for name in ["netcheck_entry", "image_entry"] {
        println!("cargo:rustc-link-lib=static={name}");
        println!("cargo:rerun-if-changed={}", root.join(format!("lib{name}.a")).display());
    }
}
