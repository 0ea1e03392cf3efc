//! Links the port's static library into the words that call it, or for the word
//! index that of the index choice alone: each of them is a feature of this crate.
//! Without such a feature nothing is linked. Assumes that the variable
//! TNS_ARCHIVE holds the library's full path.

fn main() {
    println!("cargo:rerun-if-changed=build.rs");
    println!("cargo:rerun-if-env-changed=TNS_ARCHIVE");
    let wanted = |word: &str| std::env::var_os(format!("CARGO_FEATURE_{word}")).is_some();
    let words = ["DECODE", "RESTART", "ENCODE", "INDEX", "LC3", "PARTS"];
    if !words.into_iter().any(wanted) {
        return;
    }
    if let Ok(archive) = std::env::var("TNS_ARCHIVE") {
        println!("cargo:rerun-if-changed={archive}");
        println!("cargo:rustc-link-arg-bins={archive}");
    }
    if wanted("LC3") {
        println!("cargo:rustc-link-lib=dylib=lc3");
    }
}
