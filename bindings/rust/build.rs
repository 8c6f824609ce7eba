//! Links the static library: in the folder that `RDOQ_LIB_DIR` names, else where `make library` writes it, else in the `lib` of an
//! unpacked release. Where it is missing the crate is checked and documented all the same: only linking needs it.
use std::env;
use std::path::PathBuf;

fn main() {
    println!("cargo:rerun-if-env-changed=RDOQ_LIB_DIR");
    let places = match env::var_os("RDOQ_LIB_DIR") {
        Some(dir) => vec![PathBuf::from(dir)],
        None => {
            let root = PathBuf::from(env::var_os("CARGO_MANIFEST_DIR").expect("cargo sets it")).join("../..");
            vec![root.join("target/staticlib"), root.join("lib")]
        }
    };
    for place in &places {
        println!("cargo:rerun-if-changed={}", place.join("librdoq_c.a").display());
    }
    if let Some(dir) = places.iter().find(|place| place.join("librdoq_c.a").is_file()) {
        println!("cargo:rustc-link-search=native={}", dir.display());
        println!("cargo:rustc-link-lib=static=rdoq_c");
    } else {
        println!(
            "cargo:warning={} is missing, so nothing can be linked: run `make library` at the root of the repository, \
             or set RDOQ_LIB_DIR to the folder that holds librdoq_c.a",
            places[0].join("librdoq_c.a").display()
        );
        // not looked for before a program is linked, which then names it
        println!("cargo:rustc-link-search=native={}", places[0].display());
        println!("cargo:rustc-link-lib=static:-bundle=rdoq_c");
    }
}
