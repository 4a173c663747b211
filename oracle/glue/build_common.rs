use std::path::PathBuf;

fn oracle_root() -> PathBuf {
    PathBuf::from(std::env::var("CARGO_MANIFEST_DIR").unwrap()).join("../..")
}

fn read_aut() -> String {
    let path = oracle_root().join("../docs/src/src/aut.rs");
    println!("cargo::rerun-if-changed={}", path.display());
    println!("cargo::rerun-if-changed=build.rs");
    std::fs::read_to_string(path).expect("docs/src/src/aut.rs")
}

fn lay_out(aut: &str) {
    let out = PathBuf::from(std::env::var("OUT_DIR").unwrap());
    let query = oracle_root().join("glue/query.rs");
    println!("cargo::rerun-if-changed={}", query.display());
    println!("cargo::rerun-if-changed={}", oracle_root().join("glue/build_common.rs").display());
    std::fs::write(out.join("aut.rs"), aut).unwrap();
    std::fs::copy(query, out.join("query.rs")).unwrap();
    // A `#[path]` takes a literal only, so the declaration is written here.
    let path = out.join("aut.rs");
    std::fs::write(out.join("modules.rs"), format!("#[path = {:?}]\npub mod aut;\n", path.to_str().unwrap())).unwrap();
}
