//! Lays the Rust's files out for this crate, their text unchanged. To each file one module is added at its end, a door: a
//! child module sees its parent's private items. The doors are files of this crate, under src/doors. For each half-width of
//! the band other than its own, the trellis is laid out once more with that one constant replaced.
//!
//! The Rust is found in the folder that JIXEL_SRC names (the one that holds src/group.rs).

use std::path::{Path, PathBuf};
use std::process::Command;
use std::{env, fs};

fn main() {
    let here = PathBuf::from(env::var("CARGO_MANIFEST_DIR").unwrap());
    let out = PathBuf::from(env::var("OUT_DIR").unwrap());
    println!("cargo:rerun-if-env-changed=JIXEL_SRC");
    println!("cargo:rerun-if-changed=src/doors");
    // The static library that the bench and the leaves link; a new one is linked anew.
    let library = here.join("../target/staticlib");
    println!("cargo:rustc-link-search=native={}", library.display());
    println!("cargo:rerun-if-changed={}", library.join("librdoq_c.a").display());
    println!("cargo:rustc-env=BENCH_RUSTC={}", rustc());
    // Features of the Rust's own, all off.
    println!("cargo:rustc-check-cfg=cfg(feature, values(\"extraslow\", \"neon\"))");
    let rust = match env::var("JIXEL_SRC") {
        Ok(folder) => PathBuf::from(folder),
        Err(_) => here.join("../../shared/docs/src"),
    };
    let trellis = read(&rust, "src/group/trellis.rs");
    let contexts = read(&rust, "src/ac_context.rs");
    let entropy = read(&rust, "src/entropy/entropy_code.rs");
    let group = read(&rust, "src/group.rs");
    let bias = between(
        &group,
        "/// libjxl `kDefaultQuantBias`",
        "/// Y-channel quantize then dequantize",
    );
    let prediction = between(&group, "pub(crate) fn predict_from_top_and_left(", "/// Number of non-zero coefficients in an 8×8");
    for width in HALF_WIDTHS {
        fs::write(out.join(file_of(width)), with_door(&here, &with_width(&trellis, width), "trellis")).unwrap();
    }
    fs::write(out.join("ac_context.rs"), contexts).unwrap();
    fs::write(out.join("entropy_code.rs"), with_door(&here, &entropy, "entropy_code")).unwrap();
    fs::write(out.join("group.rs"), with_door(&here, &format!("{prediction}\n{bias}"), "group")).unwrap();
    fs::write(out.join("tokens.rs"), with_door(&here, &token_loop(&group), "tokens")).unwrap();
    fs::write(out.join("original.rs"), modules(&out)).unwrap();
}

/// The compiler's name and version, for the bench to say.
fn rustc() -> String {
    let output = Command::new(env::var("RUSTC").unwrap()).arg("--version").output().expect("rustc --version");
    let line = String::from_utf8_lossy(&output.stdout).into_owned();
    line.split(" (").next().unwrap_or_default().trim().to_string()
}

fn read(folder: &Path, name: &str) -> String {
    let path = folder.join(name);
    println!("cargo:rerun-if-changed={}", path.display());
    fs::read_to_string(&path).unwrap_or_else(|fault| {
        panic!("{}: {fault}; JIXEL_SRC names the folder that holds {name}", path.display())
    })
}

/// The part of `text` from the first marker on, up to the second.
fn between<'a>(text: &'a str, first: &str, second: &str) -> &'a str {
    let from = text.find(first).unwrap_or_else(|| panic!("group.rs has no {first:?}"));
    let to = from + text[from..].find(second).unwrap_or_else(|| panic!("group.rs has no {second:?} after {first:?}"));
    &text[from..to]
}

/// The half-widths that a caller may set, and the Rust's own.
const HALF_WIDTHS: std::ops::RangeInclusive<u32> = 1..=12;
const OWN_WIDTH: u32 = 6;

/// The trellis with this half-width: a module, and its file.
fn module_of(width: u32) -> String {
    if width == OWN_WIDTH { "trellis".into() } else { format!("trellis_{width}") }
}

fn file_of(width: u32) -> String {
    format!("{}.rs", module_of(width))
}

/// The text with another half-width of the band, and nothing else replaced.
fn with_width(text: &str, width: u32) -> String {
    let constant = |width: u32| format!("const RDOQ_MAX_NZERO_DELTA: usize = {width};");
    assert_eq!(text.matches(&constant(OWN_WIDTH)).count(), 1, "the band's half-width in trellis.rs");
    text.replace(&constant(OWN_WIDTH), &constant(width))
}

/// The token loop of group.rs, which stands inline there, as the body of a function, with what counts the nonzero levels before it. What the
/// text needs besides comes as arguments.
fn token_loop(group: &str) -> String {
    let counts = between(group, "/// Number of non-zero coefficients in an 8×8", "/// Generalized AC quantization");
    let count_token = between(group, "let nzero_ctx = fine_non_zero_context(predicted as u32, block_ctx);", "// Hoisted so the per-coefficient lookup");
    let level_tokens = between(group, "// Skip the first `covered_blocks` positions (LF).", "for (alternative_out, orders) in");
    format!(
        "use crate::ac_context::*;\nuse crate::entropy::{{pack_signed, Token}};\n\n{counts}\n\
         fn write_token_into(token: Token, out: &mut Vec<Token>) {{\n    out.push(token);\n}}\n\n\
         pub(crate) fn token_loop(\n    block_ctx: u32, predicted: u8, nzeros: i32, size: usize, covered_blocks: usize, log2_covered_blocks: usize,\n    \
         scan: &[u32], block: &[i32], out: &mut Vec<Token>,\n) {{\n    {count_token}\n    {level_tokens}\n}}\n"
    )
}

fn with_door(here: &Path, text: &str, name: &str) -> String {
    let door = here.join("src/doors").join(name).with_extension("rs");
    format!("{text}\npub(crate) mod door {{\n    include!({door:?});\n}}\n")
}

/// The modules at the root of the crate, where the Rust's paths look for them. The trellis stands in `group`, as in the Rust, and
/// beside it those of other half-widths.
fn modules(out: &Path) -> String {
    let at = |name: &str| out.join(name).display().to_string();
    let module = |width| format!("    #[path = {:?}]\n    pub(crate) mod {};\n", at(&file_of(width)), module_of(width));
    let runner = |width| format!("            {width} => {}::door::runner(cap),\n", module_of(width));
    let trellises: String = HALF_WIDTHS.map(module).collect();
    let runners: String = HALF_WIDTHS.map(runner).collect();
    format!(
        "#[allow(dead_code, unused_imports, clippy::all)]\n#[path = {:?}]\nmod ac_context;\n\
         #[allow(dead_code, unused_imports, clippy::all)]\nmod entropy {{\n    pub(crate) use crate::stand_ins::entropy::*;\n    \
         #[path = {:?}]\n    pub(crate) mod entropy_code;\n    pub(crate) use entropy_code::FrozenTokenPrices;\n}}\n\
         #[allow(dead_code, unused_imports, clippy::all)]\nmod group {{\n    include!({:?});\n{trellises}    \
         #[allow(unused_variables)]\n    #[path = {:?}]\n    pub(crate) mod tokens;\n\
         \n    /// The Rust's searches, with a band of this half-width and a window of at most `cap`.\n    \
         pub(crate) fn runner(half_width: u32, cap: usize) -> trellis::door::Runner {{\n        match half_width {{\n{runners}            \
         _ => panic!(\"no half-width: {{half_width}}\"),\n        }}\n    }}\n}}\n",
        at("ac_context.rs"),
        at("entropy_code.rs"),
        at("group.rs"),
        at("tokens.rs"),
    )
}
