// Links the static library of the questions. The crate questions_c makes it; compare/questions/run.sh puts it where it is looked for.
use std::env;
use std::path::PathBuf;

fn main() {
    let root = PathBuf::from(env::var("CARGO_MANIFEST_DIR").unwrap()).join("../..");
    let built = root.join("target/staticlib");
    println!("cargo:rustc-link-search=native={}", built.display());
    println!("cargo:rustc-link-lib=static=questions");
    println!("cargo:rerun-if-changed={}", built.join("libquestions.a").display());
}
